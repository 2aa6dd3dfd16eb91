"""What an act does to a board's record, by the record's description in include/adomvik.h.

The reference computes everything from a board's history, and a record that
came from no opening has none. This model takes any record: its levels, check
byte and status are the reference's, its runs, counts, tallies and journal are
the kept numbers.
"""

import struct
from zlib import crc32

from reference import (CHG_MAY, CLEARED_BY_HAND, CONTROL, CYCLES, DEVICES, DSG_MAY, FIRST_SETTING, GARDEN, HOST, HOT_BELOW_MV,
                       LATCH_CLEAR, MOST_CYCLES, MOST_TALLIED, Plan, Refusal, STATUS_BIT, STOPS_CHG, STOPS_DSG, Sample, Settings,
                       TALLIES, bled, check_register, chg_on, crc8, dsg_on, inside, openable, past, status, value_allowed)

LAYOUT = struct.Struct("<BBBBH5s5s22IIIiB4Bx5HI128I128sBBxx")
BARE = struct.Struct(LAYOUT.format.replace("x", ""))    # without the three bytes of padding
NO_SAMPLE = (0, 2**32 - 1, 2**31 - 1)       # lowest cell, highest cell and shunt before any sample: no fault is over on it
RECORDS = 18                                # that the drivers have
RUN_CAP = 10_000_000
COUNT_CAP = 255
MOST_SAMPLES = 2**32 - 1                    # where a board's sample number is held
JOURNAL = 128                               # entries that a board keeps
PATTERN = 0xA5                              # what a place holds before an act
BLANK = int.from_bytes([PATTERN] * 4, "little")     # a number there


def run_next(run, holds, elapsed):
    """0 for none, and one more than the microseconds of a run."""
    if not holds:
        return 0
    return min(run + elapsed, RUN_CAP) if run else 1


def stood(run, delay):
    """Is there a run, and is it longer than the delay or the delay zero?"""
    return run != 0 and (run > delay + 1 or delay == 0)


def count_next(count, up):
    """A garden board's count or recovery count, one sample on."""
    return min(COUNT_CAP, count + 1) if up else max(0, count - 1)


class Record:
    """One record, field by field."""

    def __init__(self, data=bytes(LAYOUT.size)):
        self.count, self.latches, self.cycles, self.kind, self.flags, working, staged, *rest = LAYOUT.unpack(data)
        self.working, self.staged, self.runs, self.last = list(working), list(staged), rest[:22], tuple(rest[22:25])
        self.control, self.row, self.trigger = rest[25:28]
        self.back = dict(zip(("OV", "UV"), rest[28:30]))
        self.tallies = dict(zip(STATUS_BIT, rest[30:35]))
        self.samples, self.numbers = rest[35], rest[36:36 + JOURNAL]
        whats, self.next, self.len = rest[36 + JOURNAL:]
        self.whats = bytearray(whats)

    @classmethod
    def fresh(cls, plan):
        """A board as it starts."""
        record = cls()
        record.kind, record.count, record.row, record.trigger = plan
        record.last = NO_SAMPLE
        record.latch({"OV"} if plan.kind == GARDEN else ())
        return record

    def fields(self):
        """The fields in the record's order."""
        return (self.count, self.latches, self.cycles, self.kind, self.flags, bytes(self.working), bytes(self.staged),
                *self.runs, *self.last, self.control, self.row, self.trigger, *self.back.values(), *self.tallies.values(),
                self.samples, *self.numbers, bytes(self.whats), self.next, self.len)

    def bare(self):
        """The bytes without the padding."""
        return BARE.pack(*self.fields())

    def whole(self):
        """The bytes, with zeros as the padding."""
        return LAYOUT.pack(*self.fields())

    def bad(self):
        """A record that no board can have."""
        return not openable(Plan(self.kind, self.count, self.row, self.trigger))

    def latched(self):
        """The latched faults, by name."""
        return {fault for fault, bit in STATUS_BIT.items() if self.latches >> bit & 1}

    def may(self, bit):
        """Does register 1 let the switch of that bit on? Only a host board has such a register."""
        return self.kind != HOST or self.control >> bit & 1 == 1

    def chg(self):
        """Is CHG on?"""
        return chg_on(self.latched(), self.may(CHG_MAY))

    def dsg(self):
        """Is DSG on?"""
        return dsg_on(self.latched(), self.may(DSG_MAY))

    def status(self):
        """Register 0."""
        return status(self.latched(), self.may(DSG_MAY), self.may(CHG_MAY))

    def flagged(self):
        """The flagged cells, counted from 0."""
        return {i for i in range(self.count) if self.flags >> i & 1}

    def sample(self, elapsed, shunt, thermistor, load, cells):
        """Refusals 3, 4, 5 in order; else the answer's values."""
        if len(cells) != self.count:
            raise Refusal(3)
        if not 1 <= elapsed <= 100000:
            raise Refusal(4)
        if max(cells) > 5000 or thermistor > 5000 or not -500000 <= shunt <= 500000 or load > 1:
            raise Refusal(5)
        self.last = (min(cells), max(cells), shunt)
        self.samples = min(MOST_SAMPLES, self.samples + 1)
        before = self.latched()
        if self.kind == GARDEN:
            at_fault = self.filtered(Sample(elapsed, load, thermistor, shunt, cells))
        else:
            at_fault = self.stepped(elapsed, shunt, thermistor, load, cells)
        for fault in STATUS_BIT:
            if fault in self.latched() - before:
                self.tallies[fault] = min(MOST_TALLIED, self.tallies[fault] + 1)
                self.enter(fault, min(at_fault[fault]) + 1 if fault in at_fault else 0)
        return self.status(), 0 if self.kind == GARDEN else bled(self.flagged(), self.count)

    def enter(self, fault, cell):
        """One more latching in the journal."""
        place = self.next % JOURNAL
        self.numbers[place], self.whats[place] = self.samples, 16 * STATUS_BIT[fault] + cell
        self.next, self.len = (place + 1) % JOURNAL, min(JOURNAL, self.len + 1)

    def listing(self):
        """The entries, oldest first: cause, cell, sample number."""
        held = min(JOURNAL, self.len)
        places = [(self.next - held + i) % JOURNAL for i in range(held)]
        return [(self.whats[at] // 16, self.whats[at] % 16, self.numbers[at]) for at in places]

    def filtered(self, sample):
        """A sample of a garden board, OV and UV each by whether it was latched before; the cells whose count came to the trigger."""
        before, after, reached = self.latched(), set(), {}
        for fault in self.back:
            if fault in before:
                latched = self.recover(fault, sample)
            else:
                latched = reached[fault] = self.count_cells(fault, sample)
            if latched:
                after.add(fault)
        self.latch(after)
        return reached

    def count_cells(self, fault, sample):
        """The counts of a fault that is not latched; the cells that latch it."""
        self.back[fault] = 0
        counts = [count_next(self.runs[at], past(fault, mv, DEVICES[self.row])) for at, mv in zip(self.places(fault), sample.cells)]
        reached = {i for i, count in enumerate(counts) if count >= self.trigger}
        self.put_counts(fault, [0] * len(counts) if reached else counts)
        return reached

    def recover(self, fault, sample):
        """The recovery count of a fault that is latched; does it stay so?"""
        self.put_counts(fault, [0] * self.count)
        back = count_next(self.back[fault], inside(fault, sample, DEVICES[self.row]))
        stays = back < self.trigger
        self.back[fault] = back if stays else 0
        return stays

    def places(self, fault):
        """Where the counts of a fault lie among the runs, cell by cell."""
        first = 2 if fault == "OV" else 3
        return range(first, first + 2 * self.count, 2)

    def put_counts(self, fault, counts):
        """The counts of a fault anew."""
        for at, count in zip(self.places(fault), counts):
            self.runs[at] = count

    def stepped(self, elapsed, shunt, thermistor, load, cells):
        """A sample of a board with settings: runs, latches and flags; the cells whose runs have stood their delays."""
        s = Settings(self.working)
        over, under = set(), set()
        for i, mv in enumerate(cells):
            self.runs[2 + 2 * i] = run_next(self.runs[2 + 2 * i], mv > s.ov_level, elapsed)
            self.runs[3 + 2 * i] = run_next(self.runs[3 + 2 * i], mv < s.uv_level, elapsed)
            if stood(self.runs[2 + 2 * i], s.ov_delay):
                over.add(i)
            if stood(self.runs[3 + 2 * i], s.uv_delay):
                under.add(i)
        self.runs[0] = run_next(self.runs[0], shunt > s.ocd_level, elapsed)
        self.runs[1] = run_next(self.runs[1], shunt > s.scd_level, elapsed)
        hot = thermistor < HOT_BELOW_MV
        stands = {"OV": bool(over), "UV": bool(under), "OCD": stood(self.runs[0], s.ocd_delay), "SCD": stood(self.runs[1], s.scd_delay),
                  "OT": hot}
        goes = {"OV": max(cells) < s.ov_release, "UV": min(cells) > s.uv_release, "OCD": load == 0 and shunt <= s.ocd_level,
                "SCD": load == 0 and shunt <= s.scd_level, "OT": not hot}
        if self.kind == HOST:
            goes.update(dict.fromkeys(CLEARED_BY_HAND, False))
        before = self.latched()
        after = {fault for fault in STATUS_BIT if (not goes[fault] if fault in before else stands[fault])}
        flagged = over | {i for i in self.flagged() if not cells[i] < s.ov_release}
        self.latch(after)
        self.flags = sum(1 << i for i in flagged)
        if self.kind == HOST and after - before:
            self.forbid(after - before)
        return {"OV": over, "UV": under}

    def latch(self, faults):
        """The latches byte anew."""
        self.latches = sum(1 << STATUS_BIT[fault] for fault in faults)

    def forbid(self, latching):
        """Register 1 where a fault latches: its three bits, without those of the switches that are forbidden now."""
        forbidden = bool(latching & STOPS_DSG) << DSG_MAY | bool(latching & STOPS_CHG) << CHG_MAY
        self.control &= 7 & ~forbidden

    def clear(self):
        """The faults go that are over on the last sample by the levels that work now."""
        s, (low, high, shunt) = Settings(self.working), self.last
        over = {"OV": high < s.ov_level, "UV": low > s.uv_level, "OCD": shunt <= s.ocd_level, "SCD": shunt <= s.scd_level}
        self.latch(fault for fault in self.latched() if not over.get(fault, False))

    def access(self, writes, register, value):
        """Refusals 9, 10, 13, 11 in order; else the reply's value."""
        check_register(register, writes, self.kind)
        if not value_allowed(register, value, writes):
            raise Refusal(10)
        if not writes:
            if register in TALLIES:
                fault, byte = TALLIES[register]
                return self.tallies[fault] >> 8 * byte & 255
            kept = {0: self.status(), CONTROL: self.control, CYCLES: self.cycles}
            return kept[register] if register in kept else self.working[register - FIRST_SETTING]
        if register == CONTROL:
            if self.control >> LATCH_CLEAR & 1 and not value >> LATCH_CLEAR & 1:
                self.clear()
            self.control = value
            return value
        if register != CYCLES:
            self.staged[register - FIRST_SETTING] = value
            return value
        if Settings(self.staged).crossed():
            raise Refusal(13)
        if self.staged != self.working:
            if self.cycles >= MOST_CYCLES:
                raise Refusal(11)
            self.working, self.runs = list(self.staged), [0] * len(self.runs)
            self.cycles += 1
        return self.cycles


class Rows:
    """The drivers' records, and the answer lines that they should give."""

    def __init__(self):
        self.records = [Record() for _ in range(RECORDS)]
        self.kept = [record.bare() for record in self.records]

    def overwrite(self, place, data):
        """Other bytes over a record."""
        self.records[place] = Record(data)
        self.kept[place] = self.records[place].bare()

    def checked(self, boards):
        """The row of so many records, or refusal 1."""
        row = self.records[:boards]
        if not 1 <= boards <= 16 or any(record.bad() for record in row):
            raise Refusal(1)
        return row

    def board(self, row, number):
        """The place of a board, or refusal 2."""
        if not 1 <= number <= len(row):
            raise Refusal(2)
        return number - 1

    def line(self, number, told):
        """An answer line: the number, what the places hold, the checksum."""
        return " ".join([str(number)] + told + ["%08x" % crc32(b"".join(self.kept))])

    def opening(self, boards, plans):
        """Every record made anew by its plan, or refusal 1."""
        if len(plans) != boards or not 1 <= boards <= 16 or not all(openable(plan) for plan in plans):
            return self.line(1, [])
        for place, plan in enumerate(plans):
            self.records[place] = Record.fresh(plan)
            self.kept[place] = self.records[place].bare()
        return self.line(0, [])

    def at(self, place, act):
        """An act on one record; a refused one has changed nothing."""
        try:
            return act(self.records[place])
        finally:
            self.kept[place] = self.records[place].bare()

    def sample(self, boards, number, fields):
        """A sample of the row."""
        try:
            place = self.board(self.checked(boards), number)
            return self.line(0, [str(n) for n in self.at(place, lambda r: r.sample(*fields))])
        except Refusal as refusal:
            return self.line(refusal.number, ["165", "42405"])

    def sample_one(self, place, fields):
        """A sample of one record."""
        try:
            if self.records[place].bad():
                raise Refusal(1)
            return self.line(0, [str(n) for n in self.at(place, lambda r: r.sample(*fields))])
        except Refusal as refusal:
            return self.line(refusal.number, ["165", "42405"])

    def frame(self, boards, data, room):
        """A frame of the row, with a reply buffer of so many bytes."""
        reply = bytearray([PATTERN] * room)
        number = 0
        try:
            row = self.checked(boards)
            if len(data) != 4:
                raise Refusal(6)
            if room < 4:
                raise Refusal(7)
            address, register, value, check = data
            if crc8((address, register, value)) != check:
                raise Refusal(8)
            place = self.board(row, address // 2)
            given = self.at(place, lambda r: r.access(address % 2 == 1, register, value))
            reply[:4] = (address, register, given, crc8((address, register, given)))
        except Refusal as refusal:
            number = refusal.number
        return self.line(number, [reply.hex()] if room else [])

    def listing(self, boards, number, room):
        """A listing of the row, with a buffer of so many entries: how many were put there, and all its words."""
        words, count, result = [BLANK] * (3 * room), BLANK, 0
        try:
            entries = self.records[self.board(self.checked(boards), number)].listing()
            if len(entries) > room:
                raise Refusal(14)
            count = len(entries)
            words[:3 * count] = [number for entry in entries for number in entry]
        except Refusal as refusal:
            result = refusal.number
        return self.line(result, [str(n) for n in [count] + words])

    def reading(self, boards):
        """The whole-stack reading of the row."""
        try:
            row = self.checked(boards)
        except Refusal as refusal:
            return self.line(refusal.number, [str(PATTERN)] * 5)
        line = any(record.latched() for record in row)
        chg, dsg = all(record.chg() for record in row), all(record.dsg() for record in row)
        place = next(((n, min(r.flagged()) + 1) for n, r in enumerate(row, 1) if r.flagged()), (0, 0))
        return self.line(0, [str(int(n)) for n in (line, chg, dsg) + place])

    def up(self, boards):
        """The fault line of the row, and the boards looked at for it."""
        try:
            row = self.checked(boards)
        except Refusal as refusal:
            return self.line(refusal.number, [str(PATTERN)] * 2)
        latched = [number for number, record in enumerate(row, 1) if record.latched()]
        return self.line(0, ["1", str(latched[0])] if latched else ["0", str(boards)])
