#!/usr/bin/env python3
"""Reference for the bench program, written from papers 01 and 02 alone.

Reads bench lines from standard input as bytes and writes the answers.

Every board keeps the history of its accepted acts. Settings, cycles, latches
and flags are read off that history, and a run, a garden board's count, a tally
or a journal is taken from the samples themselves each time it is asked for:
there is no counter and no ring in here that could go wrong in the same way as
one in the program under test.
"""

import re
import sys
from collections import namedtuple


class Refusal(Exception):
    """A refused act; carries its number (01, Refusal numbers)."""

    def __init__(self, number):
        super().__init__(number)
        self.number = number


# ---------------------------------------------------------------- settings

STAND_ALONE, HOST, GARDEN = 0, 1, 2     # the kinds of board (02, tickets 3 and 5)

CONTROL, FIRST_SETTING, LAST_SETTING, CYCLES = 1, 6, 10, 11
# the bits of register 1
LATCH_CLEAR, DSG_MAY, CHG_MAY = 0, 1, 2
PROGRAM = 0x41
MOST_CYCLES = 3
# the faults in the order of their tallies and journal entries; a fault's place is its number as a cause (02, tickets 7 and 8)
FAULTS = ("SCD", "OCD", "OV", "UV", "OT")
# for each register that reads a tally: the fault, and which byte of it, 0 the low one (02, ticket 7)
TALLIES = {first + place: (fault, byte) for byte, first in enumerate((16, 24)) for place, fault in enumerate(FAULTS)}
MOST_TALLIED = 65535
# 02, ticket 8
MOST_LISTED = 128
MOST_NUMBERED = 4294967295

OV_HYSTERESIS_MV = (100, 200, 300, 0)
UV_HYSTERESIS_MV = (200, 400, 800, 1200)
UV_RELEASE_CAP_MV = 3300
UV_DELAY_US = (
    0, 1250, 2500, 5000, 10000, 15000, 20000, 30000,
    1000000, 2000000, 3000000, 4000000,
    5000000, 6000000, 7000000, 8000000,
)
HOT_BELOW_MV = 975


def bits(byte, high, low):
    """The field of a byte from bit `high` down to bit `low`."""
    return (byte >> low) & ((1 << (high - low + 1)) - 1)


def ocd_delay_us(code):
    """Delay of an OCD delay code (01, Frames and registers, register 8)."""
    ms = 20 * (code + 1) if code <= 15 else 100 * (code - 15)
    return ms * 1000


class Settings:
    """The meaning of the five settings bytes (01, Frames and registers).

    Cell levels in mV, shunt levels in uV, delays in us.
    """

    def __init__(self, five):
        reg6, reg7, reg8, reg9, reg10 = five
        self.ov_level = 4150 + 50 * bits(reg6, 2, 0)
        self.ov_release = self.ov_level - OV_HYSTERESIS_MV[bits(reg6, 4, 3)]
        self.ov_delay = (500 + 250 * bits(reg6, 7, 5)) * 1000
        self.uv_level = 1400 + 100 * bits(reg7, 3, 0)
        self.uv_release = min(
            self.uv_level + UV_HYSTERESIS_MV[bits(reg7, 5, 4)],
            UV_RELEASE_CAP_MV)
        self.uv_delay = UV_DELAY_US[bits(reg9, 7, 4)]
        self.ocd_level = (10 + 5 * bits(reg9, 3, 0)) * 1000
        self.ocd_delay = ocd_delay_us(bits(reg8, 4, 0))
        self.scd_level = (60 + 5 * bits(reg10, 3, 0)) * 1000
        self.scd_delay = 60 * bits(reg10, 7, 4)

    def crossed(self):
        """Is the SCD level not above the OCD level (02, ticket 1)?"""
        return not self.scd_level > self.ocd_level


# 02, ticket 5: levels and hystereses in mV
Device = namedtuple("Device", "ov_level ov_hysteresis uv_level uv_hysteresis load_removal")
DEVICES = (
    Device(4200, 200, 2900, 400, True),     # BQ7791500
    Device(4250, 200, 2800, 400, True),     # 01
    Device(4275, 100, 2000, 200, False),    # 04
)
MOST_TRIGGER = 255

# what a board is opened as; a row of the device table and a trigger count are a garden board's alone
Plan = namedtuple("Plan", "kind cells row trigger", defaults=(0, 0))


def openable(plan):
    """Is there such a board (01, refusal 1; 02, tickets 3 and 5)?"""
    if plan.kind == GARDEN:
        return 3 <= plan.cells <= 5 and 0 <= plan.row < len(DEVICES) and 1 <= plan.trigger <= MOST_TRIGGER
    return plan.kind in (STAND_ALONE, HOST) and 5 <= plan.cells <= 10


def stand_alone(counts):
    """The plans of stand-alone boards, by their cell counts."""
    return [Plan(STAND_ALONE, count) for count in counts]


# ----------------------------------------------------------- runs and faults

Sample = namedtuple("Sample", "elapsed load thermistor shunt cells")

STATUS_BIT = {"SCD": 0, "OCD": 1, "OV": 2, "UV": 3, "OT": 4}
DSG_BIT, CHG_BIT = 6, 7
STOPS_CHG = {"OV", "OCD", "SCD", "OT"}
STOPS_DSG = {"UV", "OCD", "SCD", "OT"}
# on a host board these never let go by themselves (02, ticket 3)
CLEARED_BY_HAND = {"OV", "UV", "OCD", "SCD"}


def run(samples, holds):
    """Run of a condition at the last of `samples` (01, When a fault latches).

    None if the condition fails there. `samples` begins at the start or at
    the last cycle spent, so the walk back ends there by itself.
    """
    first = len(samples)
    while first > 0 and holds(samples[first - 1]):
        first -= 1
    if first == len(samples):
        return None
    return sum(sample.elapsed for sample in samples[first + 1:])


def stood(samples, holds, delay):
    """Has the condition stood its delay (01, When a fault latches; 02, ticket 6)? A zero delay acts on the first sample."""
    length = run(samples, holds)
    return length is not None and (length > delay or delay == 0)


def cells_over(samples, settings):
    """For each cell: has its OV run stood the delay (01, the fault table)?"""
    level, delay = settings.ov_level, settings.ov_delay
    return [stood(samples, lambda s, i=i: s.cells[i] > level, delay)
            for i in range(len(samples[-1].cells))]


def cells_under(samples, settings):
    """For each cell: has its UV run stood the delay (01, the fault table)?"""
    level, delay = settings.uv_level, settings.uv_delay
    return [stood(samples, lambda s, i=i: s.cells[i] < level, delay)
            for i in range(len(samples[-1].cells))]


def faults_stood(samples, settings, cells):
    """The faults whose condition has stood its delay (01, the fault table), by what each cell has."""
    ocd, scd = settings.ocd_level, settings.scd_level
    shown = {
        "OV": any(cells["OV"]),
        "UV": any(cells["UV"]),
        "OCD": stood(samples, lambda s: s.shunt > ocd, settings.ocd_delay),
        "SCD": stood(samples, lambda s: s.shunt > scd, settings.scd_delay),
        "OT": samples[-1].thermistor < HOT_BELOW_MV,
    }
    return {fault for fault in shown if shown[fault]}


def faults_let_go(sample, settings):
    """The faults that unlatch at this sample (01, the fault table)."""
    shown = {
        "OV": all(mv < settings.ov_release for mv in sample.cells),
        "UV": all(mv > settings.uv_release for mv in sample.cells),
        "OCD": sample.load == 0 and sample.shunt <= settings.ocd_level,
        "SCD": sample.load == 0 and sample.shunt <= settings.scd_level,
        "OT": sample.thermistor >= HOT_BELOW_MV,
    }
    return {fault for fault in shown if shown[fault]}


def conditions_over(sample, settings):
    """The faults that a clear takes away (02, ticket 3): load and hysteresis are not asked."""
    shown = {
        "OV": all(mv < settings.ov_level for mv in sample.cells),
        "UV": all(mv > settings.uv_level for mv in sample.cells),
        "OCD": sample.shunt <= settings.ocd_level,
        "SCD": sample.shunt <= settings.scd_level,
    }
    return {fault for fault in shown if shown[fault]}


def flags_after(flagged, sample, settings, over):
    """The flagged cells after a sample, counted from 0 (01, Bleeding)."""
    kept = {i for i in flagged if not sample.cells[i] < settings.ov_release}
    return kept | {i for i, yes in enumerate(over) if yes}


def chg_on(latched, may=True):
    """CHG (01, When a fault latches), where register 1 may forbid it (02, ticket 3)."""
    return may and not latched & STOPS_CHG


def dsg_on(latched, may=True):
    """DSG (01, When a fault latches), where register 1 may forbid it (02, ticket 3)."""
    return may and not latched & STOPS_DSG


def status(latched, may_dsg=True, may_chg=True):
    """The value of register 0 (01, Frames and registers)."""
    value = sum(1 << STATUS_BIT[fault] for fault in latched)
    return value + (dsg_on(latched, may_dsg) << DSG_BIT) + (chg_on(latched, may_chg) << CHG_BIT)


def bled(flagged, count):
    """The bled cells as a number, the top cell judged first (01, Bleeding;
    02, ticket 2): not where one of the two next higher ones is bled."""
    taken = set()
    for i in reversed(range(count)):
        if i in flagged and taken.isdisjoint({i + 1, i + 2}):
            taken.add(i)
    return sum(1 << i for i in taken)


def tally(latchings, fault):
    """How often the fault has latched, by what latched at each sample; a tally stops at its top (02, ticket 7)."""
    return min(sum(fault in latching for latching in latchings), MOST_TALLIED)


def lowest(cells):
    """The number of the lowest cell that is so, or 0 where none is."""
    return cells.index(True) + 1 if True in cells else 0


def sample_number(place):
    """The number of the board's accepted sample at that place, 1 the first (02, ticket 8)."""
    return min(place, MOST_NUMBERED)


def journal(latchings):
    """Every latching of a history, oldest first: cause, lowest cell at fault, number of the sample (02, ticket 8)."""
    return [(cause, latching[fault], sample_number(place)) for place, latching in enumerate(latchings, 1)
            for cause, fault in enumerate(FAULTS) if fault in latching]


# ------------------------------------------------------------ garden boards

def count(samples, holds):
    """Count of a condition at the last of `samples` (02, ticket 5): up where it holds, down where not, never below zero."""
    total = 0
    for sample in samples:
        total = total + 1 if holds(sample) else max(0, total - 1)
    return total


def reached(samples, holds, trigger):
    """Does the count come to the trigger here? Only a step up can bring it there."""
    return holds(samples[-1]) and count(samples, holds) == trigger


def past(fault, millivolts, device):
    """Does this cell read strictly past the fault's level (02, ticket 5)?"""
    return millivolts > device.ov_level if fault == "OV" else millivolts < device.uv_level


def inside(fault, sample, device):
    """Is every cell strictly inside the fault's own level and hysteresis, and the load off where the row asks (02, ticket 5)?"""
    if fault == "OV":
        return all(mv < device.ov_level - device.ov_hysteresis for mv in sample.cells)
    loaded = device.load_removal and sample.load == 1
    return not loaded and all(mv > device.uv_level + device.uv_hysteresis for mv in sample.cells)


class GardenRecord:
    """What a garden board's history amounts to (02, ticket 5).

    Counts are zero where a fault latches or lets go, so that they go by the
    samples since then alone.
    """

    def __init__(self, plan):
        self.device = DEVICES[plan.row]
        self.trigger = plan.trigger
        self.since = {"OV": [], "UV": []}   # the samples since the fault last latched or let go
        self.latched = {"OV"}
        self.flagged = set()                # of no cell, ever
        self.cells = {}                     # for each fault not latched before the last sample: did each cell's count reach the trigger?

    def follow(self, _act, sample):
        """Take in one act of the history; a garden board has samples alone."""
        self.cells = {}
        for fault, samples in self.since.items():
            samples.append(sample)
            if self.turns(fault, samples):
                self.latched ^= {fault}
                samples.clear()

    def turns(self, fault, samples):
        """Does a cell's count come to the trigger, or where the fault is latched, the recovery count?"""
        if fault in self.latched:
            return reached(samples, lambda s: inside(fault, s, self.device), self.trigger)
        self.cells[fault] = [reached(samples, lambda s, i=i: past(fault, s.cells[i], self.device), self.trigger)
                             for i in range(len(samples[-1].cells))]
        return any(self.cells[fault])

    def chg(self):
        """Is CHG on?"""
        return chg_on(self.latched)

    def dsg(self):
        """Is DSG on?"""
        return dsg_on(self.latched)

    def status(self):
        """The value of register 0."""
        return status(self.latched)


# ------------------------------------------------------------------- boards

class Record:
    """What a board's history amounts to (01, The stack and its readings)."""

    def __init__(self, kind):
        self.kind = kind
        self.control = 0        # register 1
        self.staged = [0] * 5
        self.working = [0] * 5
        self.settings = Settings(self.working)
        self.spent = 0
        self.samples = []       # since the start or the last cycle spent
        self.last = None        # the last sample, which a spent cycle does not take away
        self.latched = set()
        self.flagged = set()    # cells counted from 0
        self.cells = {}         # for OV and UV: had each cell stood the delay at the last sample?

    def follow(self, act, detail):
        """Take in one act of the history."""
        if act == "sample":
            self.follow_sample(detail)
        elif act == "write":
            register, value = detail
            if register == CONTROL:
                self.follow_control(value)
            else:
                self.staged[register - FIRST_SETTING] = value
        elif act == "program":
            self.follow_programming()

    def follow_sample(self, sample):
        """01, When a fault latches, and Bleeding; 02, ticket 3."""
        self.samples.append(sample)
        self.last = sample
        self.cells = {"OV": cells_over(self.samples, self.settings), "UV": cells_under(self.samples, self.settings)}
        latching = faults_stood(self.samples, self.settings, self.cells) - self.latched
        gone = faults_let_go(sample, self.settings)
        if self.kind == HOST:
            gone -= CLEARED_BY_HAND
            self.forbid(latching)
        self.latched = (self.latched - gone) | latching
        self.flagged = flags_after(self.flagged, sample, self.settings, self.cells["OV"])

    def forbid(self, latching):
        """02, ticket 3: a fault that latches clears the bits of the switches it forbids."""
        if latching & STOPS_DSG:
            self.control &= ~(1 << DSG_MAY)
        if latching & STOPS_CHG:
            self.control &= ~(1 << CHG_MAY)

    def follow_control(self, value):
        """02, ticket 3: only a write that takes b0 from 1 to 0 clears, by the levels that work now."""
        falls = bits(self.control, LATCH_CLEAR, LATCH_CLEAR) == 1 and bits(value, LATCH_CLEAR, LATCH_CLEAR) == 0
        if falls and self.last is not None:
            self.latched -= conditions_over(self.last, self.settings)
        self.control = value

    def follow_programming(self):
        """01, Frames and registers: equal sets change and spend nothing."""
        if self.staged == self.working:
            return
        self.working = list(self.staged)
        self.settings = Settings(self.working)
        self.spent += 1
        self.samples = []

    def may(self, bit):
        """Does register 1 allow the switch of that bit? A stand-alone board has no such register."""
        return self.kind == STAND_ALONE or bits(self.control, bit, bit) == 1

    def chg(self):
        """Is CHG on?"""
        return chg_on(self.latched, self.may(CHG_MAY))

    def dsg(self):
        """Is DSG on?"""
        return dsg_on(self.latched, self.may(DSG_MAY))

    def status(self):
        """The value of register 0."""
        return status(self.latched, self.may(DSG_MAY), self.may(CHG_MAY))


def first_record(plan):
    """The record of a board that has no history yet."""
    return GardenRecord(plan) if plan.kind == GARDEN else Record(plan.kind)


class Board:
    """One board: its plan and the history of its accepted acts.

    Reads are not in the history, for they change nothing. `record` keeps
    what it has made of the history so far and takes in only what is new.
    """

    def __init__(self, plan):
        self.plan = plan
        self.history = []
        self.followed = 0
        self.made = first_record(plan)
        # for each sample, the faults that are latched after it and were not before, each with the lowest cell at fault, or 0
        self.latchings = []

    def record(self):
        """The record that the whole history amounts to."""
        while self.followed < len(self.history):
            act, detail = self.history[self.followed]
            before = set(self.made.latched)
            self.made.follow(act, detail)
            if act == "sample":
                latching = self.made.latched - before
                self.latchings.append({fault: lowest(self.made.cells.get(fault, [])) for fault in latching})
            self.followed += 1
        return self.made

    def sample(self, sample):
        """Accept a sample; its answer (01, Bleeding)."""
        self.history.append(("sample", sample))
        record = self.record()
        return record.status(), bled(record.flagged, self.plan.cells)

    def read(self, register):
        """The value a read gives (01, Frames and registers; 02, ticket 7)."""
        record = self.record()
        if register == 0:
            return record.status()
        if register in TALLIES:
            fault, byte = TALLIES[register]
            return tally(self.latchings, fault) // 256 ** byte % 256
        if register == CONTROL:
            return record.control
        if register == CYCLES:
            return record.spent
        return record.working[register - FIRST_SETTING]

    def listing(self):
        """The last latchings of the history, oldest first (02, ticket 8)."""
        self.record()
        return journal(self.latchings)[-MOST_LISTED:]

    def write(self, register, value):
        """Accept a write, or refuse with 13 or 11; the value of its reply."""
        if register == CYCLES:
            return self.program()
        self.history.append(("write", (register, value)))
        return value

    def program(self):
        """Programming; gives the cycles spent (01, Frames and registers).

        Refusals 13, then 11 (02, ticket 1): the staged levels decide.
        """
        record = self.record()
        if Settings(record.staged).crossed():
            raise Refusal(13)
        if record.staged != record.working and record.spent >= MOST_CYCLES:
            raise Refusal(11)
        self.history.append(("program", None))
        return self.record().spent


# ------------------------------------------------------------------- frames

def crc8(data):
    """CRC-8 of the SMBus packet error code, bit by bit (01, Frames)."""
    crc = 0
    for byte in data:
        for place in range(7, -1, -1):
            top = (crc >> 7) ^ ((byte >> place) & 1)
            crc = (crc << 1) & 0xFF
            if top:
                crc ^= 0x07     # x^2 + x + 1; the x^8 is the bit shifted out
    return crc


def check_register(register, is_write, kind=STAND_ALONE):
    """Refusal 9 (01, Refusal numbers; 02, tickets 3, 5 and 7): register 0 and the tallies are there on every kind, to be read."""
    only_read = register == 0 or register in TALLIES
    writable = (kind != GARDEN and FIRST_SETTING <= register <= CYCLES) or (register == CONTROL and kind == HOST)
    if not writable and (is_write or not only_read):
        raise Refusal(9)


def value_allowed(register, value, is_write):
    """May this value stand in the frame (01, Frames and registers; 02, ticket 3)?"""
    if not is_write:
        return value == 0
    if register == CONTROL:
        return bits(value, 7, 3) == 0
    if register == 7:
        return bits(value, 7, 6) == 0
    if register == 8:
        return bits(value, 7, 5) == 0
    if register == CYCLES:
        return value == PROGRAM
    return True


# -------------------------------------------------------------------- stack

class Stack:
    """A stack that came from an opening (01, The stack and its readings), by the plan of each board."""

    def __init__(self, plans):
        if not 1 <= len(plans) <= 16 or not all(openable(plan) for plan in plans):
            raise Refusal(1)
        self.boards = [Board(plan) for plan in plans]

    def board(self, number):
        """The board of that number, or refusal 2."""
        if not 1 <= number <= len(self.boards):
            raise Refusal(2)
        return self.boards[number - 1]

    def sample(self, number, sample):
        """A sample: refusals 2, 3, 4, 5 in this order (01, Refusal numbers)."""
        board = self.board(number)
        if len(sample.cells) != board.plan.cells:
            raise Refusal(3)
        if not 1 <= sample.elapsed <= 100000:
            raise Refusal(4)
        if max(sample.cells) > 5000 or sample.thermistor > 5000:
            raise Refusal(5)
        if not -500000 <= sample.shunt <= 500000 or sample.load not in (0, 1):
            raise Refusal(5)
        return board.sample(sample)

    def frame(self, data, reply):
        """A frame: refusals 6, 7, 8, 2, 9, 10, 13, 11 (01, Refusal numbers; 02, tickets 1 and 3).

        The reply goes into the first four bytes of the lent `reply`.
        """
        if len(data) != 4:
            raise Refusal(6)
        if len(reply) < 4:
            raise Refusal(7)
        address, register, value, check = data
        if crc8((address, register, value)) != check:
            raise Refusal(8)
        board = self.board(address // 2)
        is_write = address % 2 == 1
        check_register(register, is_write, board.plan.kind)
        if not value_allowed(register, value, is_write):
            raise Refusal(10)
        given = board.write(register, value) if is_write else board.read(register)
        reply[:4] = (address, register, given, crc8((address, register, given)))

    def listing(self, number, lent):
        """A board's journal: refusals 2, 14 (02, ticket 8); how many entries it has.

        They go into the first places of the `lent` list.
        """
        entries = self.board(number).listing()
        if len(lent) < len(entries):
            raise Refusal(14)
        lent[:len(entries)] = entries
        return len(entries)

    def fault_line(self):
        """Board 1's fault line, from the north down (01, Whole-stack reading)."""
        up = False
        for board in reversed(self.boards):
            up = bool(board.record().latched) or up
        return up

    def up(self):
        """The fault line alone, and how many boards a search from the south looks at (02, ticket 9).

        Every board is looked at in here, and neither number comes from the line above.
        """
        latched = [number for number, board in enumerate(self.boards, 1) if board.record().latched]
        return int(bool(latched)), min(latched, default=len(self.boards))

    def first_flagged(self):
        """Southernmost board with a flag and its lowest flagged cell."""
        for number, board in enumerate(self.boards, 1):
            flagged = board.record().flagged
            if flagged:
                return number, min(flagged) + 1
        return 0, 0

    def reading(self):
        """Line, pack CHG, pack DSG, board, cell (01, Whole-stack reading)."""
        chg = all(board.record().chg() for board in self.boards)
        dsg = all(board.record().dsg() for board in self.boards)
        return (int(self.fault_line()), int(chg), int(dsg)) + self.first_flagged()


# -------------------------------------------------------------------- bench

LONGEST_LINE = 200
LARGEST_NUMBER = 2147483647
LENT_BYTES = 4

NUMBER = rb"(?:0|[1-9][0-9]*)"
SHUNT = rb"(?:0|-?[1-9][0-9]*)"
GRAMMAR = {
    "O": re.compile(rb"O(?: %b)*" % NUMBER),
    "S": re.compile(rb"S(?: %b){4} %b(?: %b){0,16}" % (NUMBER, SHUNT, NUMBER)),
    "F": re.compile(rb"F(?: %b){0,16}" % NUMBER),
    "R": re.compile(rb"R"),
}


def parse(line):
    """Letter and numbers of a line, or refusal 12 (01, The bench program)."""
    if len(line) > LONGEST_LINE:
        raise Refusal(12)
    for letter, shape in GRAMMAR.items():
        if shape.fullmatch(line):
            numbers = [int(word) for word in line.split(b" ")[1:]]
            largest = 255 if letter == "F" else LARGEST_NUMBER
            if any(abs(number) > largest for number in numbers):
                raise Refusal(12)
            return letter, numbers
    raise Refusal(12)


def split_lines(data):
    """The lines of the input: only byte 10 ends one, the last may lack it."""
    lines = data.split(b"\n")
    if lines[-1] == b"":
        lines.pop()
    return lines


class Bench:
    """The bench program (01, The bench program)."""

    def __init__(self):
        self.stack = None

    def answer(self, line):
        """The answer to one line, without its newline."""
        try:
            letter, numbers = parse(line)
            if letter == "O":
                return self.opening(numbers)
            if self.stack is None:
                raise Refusal(1)
            return {"S": self.sample, "F": self.frame, "R": self.reading}[letter](numbers)
        except Refusal as refusal:
            return b"no %d" % refusal.number

    def opening(self, counts):
        """A refused opening raises before the earlier stack is let go."""
        self.stack = Stack(stand_alone(counts))
        return b"ok"

    def sample(self, numbers):
        """The fields in the line's order."""
        number, elapsed, load, thermistor, shunt = numbers[:5]
        sample = Sample(elapsed, load, thermistor, shunt, tuple(numbers[5:]))
        return b"st %d bal %d" % self.stack.sample(number, sample)

    def frame(self, data):
        """A frame with the bench's own reply buffer."""
        reply = bytearray(LENT_BYTES)
        self.stack.frame(data, reply)
        return b"re %d %d %d %d" % tuple(reply)

    def reading(self, _numbers):
        """The whole-stack reading."""
        return b"ln %d chg %d dsg %d at %d %d" % self.stack.reading()

    def answers(self, data):
        """The whole output for a whole input."""
        return b"".join(self.answer(line) + b"\n" for line in split_lines(data))


def main():
    """Bench lines from standard input, answers to standard output."""
    sys.stdout.buffer.write(Bench().answers(sys.stdin.buffer.read()))


if __name__ == "__main__":
    main()
