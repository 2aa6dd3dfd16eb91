"""Random acts for the drivers of the C and the Rust face, each with the answer that it should get.

Acts on opened rows are the workshop's sessions of tests/differential, answered
by the reference from each board's history; the record model must agree. Acts
on garbage, and on records that are set, are answered by the record model alone.
About half of the opened rows are recorded, each act with the answer that it
got; recorders of any fields note acts of any numbers. Both are answered by the
recorder's model. What was recorded is then checked, as it is and damaged, on
records of any bytes; that is answered by the checker's model.
"""

import random
import struct

from checker import checked, parts, put_together
from desk_sessions import DeskMaker
from record import BLANK, JOURNAL, LAYOUT, MOST_SAMPLES, RECORDS, Record, Rows
from recorder import ACTS_MOST, NO_ROOM, NOT_RECORDABLE, Tape, USED_MOST
from reference import (DEVICES, GARDEN, HOST, Plan, Refusal, STAND_ALONE, Sample, Settings, Stack, TALLIES, crc8, split_lines,
                       stand_alone)
from sessions import make_session
from workshop import Workshop

LONGEST_LIST = 100      # that the drivers are told
LARGEST_ROOM = JOURNAL + 2      # of a listing's buffer, in entries
LARGEST_MEMORY = 4096   # of a recording, on a driver with little RAM
LARGEST_CHECKED = 1400  # bytes of a recording that is checked, on a driver with little RAM
PIECE = 600             # bytes of it in a line
MEMORIES = 0, 7, 8, 9, 10, 40, 100, 300, 300, 600, 600, 600     # lengths of a memory
LARGE_MEMORIES = USED_MOST - 1, USED_MOST, *(USED_MOST + 1, USED_MOST + 300) * 2   # and about where a recording ends at the latest
ELAPSED = 1, 1000, 100_000      # of samples on garbage, mostly
BESIDE_TALLIES = 15, 21, 23, 29     # registers that no board has


class Script:
    """The lines for a driver, and the answers."""

    def __init__(self, seed):
        self.rng = random.Random(seed)
        self.rows = Rows()
        self.tape = Tape(0)
        self.recording = False      # are acts noted?
        self.recordings = []        # that were made
        self.checked = b""          # the one that is checked
        self.lines = []
        self.answers = []

    def put(self, letter, numbers, answer):
        """One act, answered."""
        self.lines.append(" ".join([letter] + [str(n) for n in numbers]))
        self.answers.append(answer)

    def opening(self, boards, counts):
        """An opening of so many records by cell counts."""
        self.put("O", [boards] + counts, self.rows.opening(boards, stand_alone(counts)))

    def opening_plans(self, boards, plans):
        """An opening of so many records by the kind, the cells, the row and the trigger of each."""
        self.put("P", [boards] + [number for plan in plans for number in plan], self.rows.opening(boards, plans))

    def sample(self, boards, number, fields):
        """A sample of the row; fields are those of Record.sample."""
        self.put("S", [boards, number] + list(fields[:4]) + list(fields[4]), self.rows.sample(boards, number, fields))

    def sample_one(self, place, fields):
        """A sample of one record."""
        self.put("B", [place] + list(fields[:4]) + list(fields[4]), self.rows.sample_one(place, fields))

    def frame(self, boards, data, room):
        """A frame of the row."""
        self.put("F", [boards, room] + list(data), self.rows.frame(boards, data, room))

    def reading(self, boards):
        """A reading of the row."""
        self.put("R", [boards], self.rows.reading(boards))

    def up(self, boards):
        """The fault line of the row."""
        self.put("U", [boards], self.rows.up(boards))

    def listing(self, boards, number, room):
        """A listing of the row, with a buffer of so many entries."""
        self.put("L", [boards, number, room], self.rows.listing(boards, number, room))

    def room_about(self, number):
        """Room for the listing of a board, one short of it, one over, or any."""
        held = len(self.rows.records[max(0, min(number, RECORDS) - 1)].listing())
        return self.rng.choice((held, held, max(0, held - 1), max(0, held - 1), held + 1, 0, LARGEST_ROOM,
                                self.rng.randint(0, LARGEST_ROOM)))

    def check_bytes(self, tries):
        """The check byte over every pair of register and byte: no difference, and no record moved."""
        self.put("K", [tries], self.rows.line(0, []))

    def latchings(self, count):
        """A tally and the journal after each of so many latchings: no difference, and no record moved."""
        self.put("T", [count], self.rows.line(0, []))

    def overwrite(self, place, data):
        """Garbage over a record: no act, and no answer."""
        self.rows.overwrite(place, data)
        self.lines.append(" ".join(["W", str(place)] + [str(b) for b in data]))

    def begin(self, length, plans):
        """A recording begun in a memory of so many bytes."""
        self.tape = Tape(length)
        self.put("M", [length] + [number for plan in plans for number in plan], self.tape.begin(plans))

    def recorder(self, length, used, acts, stopped, verdict):
        """Any recorder, with a memory of so many bytes: no note, and no answer."""
        self.tape = Tape(length, used, acts, stopped, verdict)
        self.lines.append(" ".join(["G"] + [str(n) for n in (length, used, acts, stopped, verdict)]))

    def note_sample(self, board, fields, number, answer):
        """A sample noted, with its refusal's number or 0, and status and bled cells."""
        numbers = [board, *fields[:4], number, *answer, *fields[4]]
        self.put("s", numbers, self.tape.sample(board, fields, number, answer))

    def note_frame(self, data, reply, number):
        """A frame noted, with its reply buffer as it is afterwards."""
        self.put("f", [number, len(reply), *reply, *data], self.tape.frame(data, reply, number))

    def note_reading(self, number, answer):
        """A reading noted, with its five numbers."""
        self.put("r", [number, *answer], self.tape.reading(number, answer))

    def note_other(self):
        """A listing or a look for the fault line noted."""
        self.put("o", [], self.tape.other())

    def memory(self):
        """Every byte of the recording's memory, and of the guards beside it."""
        self.put("D", [], self.tape.whole())

    def load(self, recording):
        """A recording to be checked, whole or in part: no act, and no answer."""
        self.checked = bytes(recording)
        for at in range(0, len(recording), PIECE):
            self.lines.append(" ".join(["H", str(at)] + [str(b) for b in recording[at:at + PIECE]]))

    def check(self, boards, length=None, at=2**32 - 1, byte=0):
        """A check of the first so many bytes, with another byte at a place if that is among them; so many records are lent."""
        length = len(self.checked) if length is None else length
        data = bytearray(self.checked[:length])
        data[at:at + 1] = [byte] if at < length else []
        number, place = checked(self.rows, boards, bytes(data))
        self.put("C", [boards, length, at, byte], self.rows.line(number, [str(place)]))

    def noted(self):
        """The last act noted, with the answer that it should have got, and what the places held where it was refused."""
        letter, *numbers = self.lines[-1].split(" ")
        numbers, told = [int(n) for n in numbers], self.answers[-1].split(" ")[:-1]
        if letter in "SB":
            board, *fields = numbers[1:] if letter == "S" else [numbers[0] + 1, *numbers[1:]]
            self.note_sample(board, (*fields[:4], fields[4:]), int(told[0]), [int(n) for n in told[1:]])
        elif letter == "F":
            self.note_frame(numbers[2:], bytes.fromhex("".join(told[1:])), int(told[0]))
        elif letter == "R":
            self.note_reading(int(told[0]), [int(n) for n in told[1:]])
        else:
            self.note_other()


# ------------------------------------------------- sessions on opened rows

class Disagreement(Exception):
    """The reference and the record model differ: the test is wrong."""


class Told:
    """The reference's answer as a driver would begin its line."""

    def __init__(self):
        self.stack = None

    def opening(self, plans):
        """0 or 1."""
        try:
            self.stack = Stack(plans)
            return "0"
        except Refusal as refusal:
            return str(refusal.number)

    def act(self, do, blank):
        """The values of an act, or its refusal with what the places hold."""
        try:
            return " ".join(["0"] + [str(n) for n in do()])
        except Refusal as refusal:
            return " ".join([str(refusal.number)] + blank)


def agree(told, script):
    """The last answer begins with what the reference says. An act is noted where its row is recorded."""
    if script.answers[-1].rsplit(" ", 1)[0] != told:
        raise Disagreement(f"{script.lines[-1]}: reference {told}, record model {script.answers[-1]}")
    if script.recording and script.lines[-1][0] not in "OP":
        script.noted()


def frame_told(told, data, room):
    """The number and the reply buffer, by the reference."""
    reply = bytearray([0xA5] * room)
    number = told.act(lambda: told.stack.frame(data, reply) or [], [])
    return " ".join([number] + ([reply.hex()] if room else []))


def listing_told(told, number, room):
    """The number, the count and the buffer's words, by the reference."""
    lent = [(BLANK,) * 3] * room
    answer = told.act(lambda: [told.stack.listing(number, lent)], [str(BLANK)])
    return " ".join([answer] + [str(n) for entry in lent for n in entry])


def listed(script, told, boards, number, room):
    """A listing of an opened row."""
    script.listing(boards, number, room)
    agree(listing_told(told, number, room), script)


def up_told(told):
    """The line of the reference's reading, and the boards looked at by what each has latched."""
    boards = told.stack.boards
    latched = [number for number, board in enumerate(boards, 1) if board.record().latched]
    return told.act(lambda: [told.stack.reading()[0], latched[0] if latched else len(boards)], [])


def asked_up(script, told, boards):
    """The fault line of an opened row."""
    script.up(boards)
    agree(up_told(told), script)


def opened(script, told, plans, by_counts):
    """An opening by plans, or by the counts of plans that are all of stand-alone boards; was it good?"""
    if by_counts:
        script.opening(len(plans), [plan.cells for plan in plans])
    else:
        script.opening_plans(len(plans), plans)
    answer = told.opening(plans)
    agree(answer, script)
    if answer == "0":
        recorded(script, plans)
    return answer == "0"


def recorded(script, plans):
    """The end of a recording by a good opening, and perhaps another one, with room enough, little, or none. A row with a garden board
    is recorded seldom, since nothing of it is."""
    if script.recording:
        script.memory()
        keep(script)
    script.recording = script.rng.random() < (0.1 if any(plan.kind == GARDEN for plan in plans) else 0.8)
    if script.recording:
        header = 8 + 2 * len(plans)
        script.begin(script.rng.choice((LARGEST_MEMORY,) * 5 + (400, header + 8, header, header - 1)), plans)


def keep(script):
    """The recording that stands in memory, for the checks."""
    if script.tape.used:
        script.recordings.append(bytes(script.tape.memory[:script.tape.used]))


def session(script, seed):
    """The acts of one session of tests/differential --workshop, but for malformed lines and lists too long for a driver."""
    told, boards = Told(), 0
    script.recording = False
    for line in split_lines(make_session(seed, DeskMaker).data):
        if line[:1] in (b"W", b"D", b"C"):      # the script's own recordings are begun at openings, and checked at its end
            continue
        try:
            act, fields = Workshop().take_apart(line)
        except Refusal:
            continue
        if act is Workshop.opening:
            if len(fields[0]) <= RECORDS and opened(script, told, fields[0], line.startswith(b"O")):
                boards = len(fields[0])
        elif told.stack is None:
            continue
        elif act is Workshop.listing:
            number, room = fields[0]
            listed(script, told, boards, number, min(room, LARGEST_ROOM))
        elif fields and len(fields[0]) > LONGEST_LIST:
            continue
        elif act is Workshop.sample:
            number, elapsed, load, thermistor, shunt = fields[0][:5]
            cells = fields[0][5:]
            sample = Sample(elapsed, load, thermistor, shunt, tuple(cells))
            if 1 <= number <= boards and script.rng.random() < 0.4:
                script.sample_one(number - 1, (elapsed, shunt, thermistor, load, cells))
            else:
                script.sample(boards, number, (elapsed, shunt, thermistor, load, cells))
            agree(told.act(lambda: told.stack.sample(number, sample), ["165", "42405"]), script)
            if script.rng.random() < 0.1:
                listed(script, told, boards, number, script.room_about(number))
            if script.rng.random() < 0.1:
                asked_up(script, told, boards)
        elif act is Workshop.frame:
            # the driver's own rooms: the session's are at times larger than its memory
            room = script.rng.choice((4, 4, 4, 5, 8, 3, 0))
            script.frame(boards, fields[0], room)
            agree(frame_told(told, fields[0], room), script)
        elif act is Workshop.reading:
            script.reading(boards)
            agree(told.act(told.stack.reading, []), script)
            asked_up(script, told, boards)
        elif line == b"U":
            asked_up(script, told, boards)


# ------------------------------------------------------------- garbage

def last_garbage(rng, working):
    """The bytes of a last sample about the working levels, its lowest cell at times above its highest."""
    s = Settings(working)
    levels = s.uv_level, s.ov_level, rng.choice((s.ocd_level, s.scd_level))
    low, high, shunt = (rng.choice((level - 1, level, level, level + 1, -level)) for level in levels)
    return struct.pack("<IIi", low % 2**32, high % 2**32, shunt)


def runs_garbage(rng, working):
    """The bytes of runs that one more sample brings to their delays or past them, and of runs near the cap."""
    s, runs = Settings(working), []
    for delay in [s.ocd_delay, s.scd_delay] + [s.ov_delay, s.uv_delay] * 10:
        near = max(0, delay + rng.choice((1, 2)) - rng.choice(ELAPSED))
        runs.append(rng.choice((near, near, 0, 1, 9_999_999, 10_000_000, 2**32 - 1)))
    return struct.pack("<22I", *runs)


def garden_garbage(rng, data):
    """A garden board's cells, row and trigger, mostly good ones, and counts and recovery counts about the trigger."""
    if rng.random() < 0.95:
        data[0] = rng.randint(3, 5)
    if rng.random() < 0.95:
        data[117] = rng.randrange(len(DEVICES))
    data[118] = rng.choice((1, 2, 3, 254, 255, rng.randint(1, 255))) if rng.random() < 0.97 else 0
    near = (0, 1, max(0, data[118] - 2), max(0, data[118] - 1), data[118])
    if rng.random() < 0.7:      # and in the other cases anything
        data[24:104] = struct.pack("<20I", *rng.choices((*near, 254, 255, 256, 2**32 - 1), k=20))
        data[119:121] = rng.choices((*near, 254, 255), k=2)
    if rng.random() < 0.5:      # latches that such a board can have
        data[1] = rng.choice((0, 4, 8, 12))


def tallies_garbage(rng):
    """The bytes of tallies about the stop and about where the low byte is full, or any."""
    return struct.pack("<5H", *rng.choices((0, 255, 65_279, 65_533, 65_534, 65_535, rng.randrange(65_536)), k=5))


def journal_garbage(rng):
    """The bytes of a sample number at its top or short of it, and of a journal with any entries, place and length."""
    samples = rng.choice((0, 1, MOST_SAMPLES - 2, MOST_SAMPLES - 1, MOST_SAMPLES, rng.randrange(2**32)))
    following = rng.choice((0, 1, JOURNAL - 2, JOURNAL - 1, JOURNAL, 2 * JOURNAL - 1, rng.randrange(256)))
    length = rng.choice((0, 1, 2, JOURNAL - 2, JOURNAL - 1, JOURNAL, JOURNAL + 1, 2 * JOURNAL - 1, rng.randrange(256)))
    numbers_and_whats = rng.randbytes(5 * JOURNAL)
    return struct.pack("<I640sBB", samples, numbers_and_whats, following, length)


def garbage(rng):
    """The bytes of a record that came from no opening; most of them of a good kind and cell count."""
    data = bytearray(rng.randbytes(LAYOUT.size))
    if rng.random() < 0.93:
        data[0] = rng.randint(5, 10)
    if rng.random() < 0.97:
        data[3] = rng.choice((STAND_ALONE, HOST, GARDEN))
    elif rng.random() < 0.5:
        data[3] = GARDEN + 1
    if rng.random() < 0.5:
        data[2] = rng.randint(0, 4)
    if rng.random() < 0.3:      # staged levels crossed, equal or a step apart
        short = rng.randrange(7)
        data[14] = data[14] & 0xF0 | min(15, short + rng.choice((9, 10, 11)))
        data[15] = data[15] & 0xF0 | short
    if rng.random() < 0.3:      # equal settings
        data[6:11] = data[11:16]
    if rng.random() < 0.4:
        data[16:104] = runs_garbage(rng, data[6:11])
    if rng.random() < 0.7:
        data[104:116] = last_garbage(rng, data[6:11])
    if data[3] == GARDEN:
        garden_garbage(rng, data)
    if rng.random() < 0.3:      # no latch, or none but what is no fault's bit
        data[1] &= 0xE0
    data[122:132] = tallies_garbage(rng)
    data[132:778] = journal_garbage(rng)
    return bytes(data)


def garden_cells(rng, record):
    """Readings about a garden board's levels: all past one, all inside one, or mixed."""
    d = DEVICES[min(record.row, len(DEVICES) - 1)]
    marks = (d.ov_level, d.ov_level - d.ov_hysteresis, d.uv_level, d.uv_level + d.uv_hysteresis)
    near = [rng.choice(marks) + rng.choice((-1, 0, 1)) for _ in range(rng.choice((1, 1, 2, 4)))]
    return [rng.choice(near + [3600]) for _ in range(record.count)]


def fields(rng, record):
    """The fields of a sample, mostly in range and as long as the record's count."""
    count = record.count if record.count <= 12 and rng.random() < 0.9 else rng.randint(0, 12)
    top = rng.choice((5000, 5000, 5000, 5001, 2**32 - 1)) if rng.random() < 0.2 else 5000
    cells = [rng.choice((rng.randint(0, top), 4151, 4200, 4500, 1399, 1000, 3000)) for _ in range(count)]
    if record.kind == GARDEN and count == record.count and rng.random() < 0.8:
        cells = garden_cells(rng, record)
    return (rng.choice((*ELAPSED, 100_000, rng.choice((0, 100_001, 2**32 - 1)))),
            rng.choice((0, -1, 60_000, 60_001, 500_000, -500_000, rng.randint(-600_000, 600_000), -2**31, 2**31 - 1)),
            rng.choice((2000, 974, 975, 5000, 5001)), rng.choice((0, 0, 1, 1, 2)), cells)


def frame_bytes(rng, boards):
    """A frame, mostly well made."""
    number = rng.randint(1, boards) if boards and rng.random() < 0.8 else rng.randint(0, boards + 1)
    address = 2 * number + rng.randint(0, 1)
    register = rng.choice((0, 6, 7, 8, 9, 10, 11, 11, 1, 12, 255, rng.choice(BESIDE_TALLIES), rng.choice(list(TALLIES))))
    value = rng.choice((0, 0, 0x41, 0x41, rng.randint(0, 255))) if address % 2 else rng.choice((0, 0, 0, 0x41))
    kind = rng.random()
    if kind < 0.2:
        address, register, value = address | 1, 11, 0x41
    elif kind < 0.5:
        address, register, value = address | 1, 1, rng.randint(0, 8)
    elif kind < 0.65:           # what every board answers
        address, register, value = address & ~1, rng.choice((0, 0, 0, *TALLIES)), rng.choice((0, 0, 0, 1))
    data = [address, register, value, crc8((address, register, value))]
    if rng.random() < 0.05:
        data[rng.randint(0, 3)] ^= rng.randint(1, 255)
    return data[:rng.randint(0, 3)] if rng.random() < 0.03 else data


def plan_of(rng, count):
    """A plan with that cell count, if it is not a garden board's; rows and triggers that are none at times."""
    kind = rng.choice((STAND_ALONE, HOST, GARDEN))
    if kind != GARDEN:
        return Plan(kind, count)
    if rng.random() < 0.9:
        count = rng.randint(3, 5)
    row, trigger = rng.randrange(len(DEVICES)), rng.choice((1, 2, 5, 255, rng.randint(1, 255)))
    if rng.random() < 0.05:
        row = rng.choice((3, 255, 256, 258, 2**32 - 1))
    if rng.random() < 0.05:
        trigger = rng.choice((0, 256, 257, 2**24, 2**32 - 1))
    return Plan(kind, count, row, trigger)


def wreck(script, acts):
    """Garbage in every record, then acts on rows of any length, with more garbage now and then; last the tallies of one board and
    its journal."""
    rng, rows = script.rng, script.rows
    for place in range(RECORDS):
        script.overwrite(place, garbage(rng))
    for _ in range(acts):
        boards = rng.choice((1, 1, 2, 3, 5, 16, 16, 17, 0, rng.randint(0, RECORDS)))
        kind = rng.random()
        if kind < 0.15:
            # short rows are the ones that are not refused
            script.overwrite(rng.choice((0, 1, rng.randrange(RECORDS))), garbage(rng))
        elif kind < 0.4:
            place = rng.randrange(RECORDS)
            script.sample_one(place, fields(rng, rows.records[place]))
        elif kind < 0.6:
            number = rng.choice((1, 1, boards, rng.randint(0, 18), 2**32 - 1))
            script.sample(boards, number, fields(rng, rows.records[max(0, min(number, boards, 16) - 1)]))
        elif kind < 0.85:
            script.frame(boards, frame_bytes(rng, boards), rng.choice((4, 4, 4, 4, 4, 9, 3, 0)))
        elif kind < 0.91:
            number = rng.choice((1, 1, boards, rng.randint(0, 18), 2**32 - 1))
            script.listing(boards, number, script.room_about(number))
        elif kind < 0.97:
            script.reading(boards)
            script.up(boards)
        else:
            odd = (4, 11, 0, 255, 261, 517, 2**32 - 1)
            counts = [rng.choice((5, 7, 10, 10, rng.choice(odd) if rng.random() < 0.2 else 6)) for _ in range(boards)]
            lent = boards if rng.random() < 0.8 else rng.randint(0, RECORDS)
            if rng.random() < 0.3:
                script.opening(lent, counts)
            else:
                script.opening_plans(lent, [plan_of(rng, count) for count in counts])
    for register in TALLIES:
        script.frame(1, [2, register, 0, crc8((2, register, 0))], 4)
    script.listing(1, 1, JOURNAL)


# ------------------------------------------------------------- journals

def about(rng, record, elapsed):
    """Runs or counts that one sample more brings short of the delay or the trigger, to it, or one past it."""
    if record.kind == GARDEN:
        return [rng.choice((0, record.trigger - 2, record.trigger - 1)) for _ in record.runs]
    s = Settings(record.working)
    delays = [s.ocd_delay, s.scd_delay] + [s.ov_delay, s.uv_delay] * 10
    return [max(0, delay + rng.choice((0, 1, 1, 2)) - elapsed) for delay in delays]


def together(script, samples):
    """Records that several faults may latch on at the next sample. Most cells read past a level, and some of these fall short of
    their delay or trigger by a step. Each sample is followed by a listing."""
    rng = script.rng
    plans = [Plan(STAND_ALONE, 10), Plan(HOST, 7), Plan(GARDEN, 5, 1, 3)]
    script.opening_plans(len(plans), plans)
    for _ in range(samples):
        place, elapsed = rng.randrange(len(plans)), rng.choice(ELAPSED)
        record = Record(script.rows.records[place].whole())
        record.working, record.latches = list(rng.randbytes(5)), 0
        record.runs = about(rng, record, elapsed)
        script.overwrite(place, record.whole())
        past = rng.choice(((5000,), (0,), (5000, 0), (5000, 0, 3600)))
        cells = [rng.choice(past) for _ in range(record.count)]
        script.sample(len(plans), place + 1, (elapsed, rng.choice((0, 500_000)), rng.choice((2000, 974)), 0, cells))
        script.listing(len(plans), place + 1, script.room_about(place + 1))


def brim(script):
    """A board of each kind whose record is set short of the number's top, with no latch; then a cell that latches UV there and past
    it, each time listed."""
    plans = [Plan(STAND_ALONE, 5), Plan(HOST, 10), Plan(GARDEN, 3, 0, 1)]
    script.opening_plans(len(plans), plans)
    for place, plan in enumerate(plans):
        for short in (2, 1, 0):
            record = Record(script.rows.records[place].whole())
            record.samples, record.latches = MOST_SAMPLES - short, 0
            script.overwrite(place, record.whole())
            for low in (1000, 3600, 1000):
                script.sample(len(plans), place + 1, (1000, 0, 2000, 0, [3600, low] + [3600] * (plan.cells - 2)))
                script.listing(len(plans), place + 1, JOURNAL)


def journals(script, samples):
    """Acts on records that are set: to latch at the next sample, and to the top of the sample number."""
    together(script, samples)
    brim(script)


# --------------------------------------------------------- fault lines

def set_latches(script, place, latches):
    """A record as it is, but with these latches."""
    record = Record(script.rows.records[place].whole())
    record.latches = latches
    script.overwrite(place, record.whole())


def fault_lines(script):
    """Rows of each kind as they start, then with no latch, then with one at each place from the north down: alone, or with others
    north of it. Bits of a latches byte that are no fault's are set at times; a host board's switches are off throughout. Last, rows
    of no boards and of seventeen good ones."""
    rng = script.rng
    for boards in (1, 2, 16):
        for plan in (Plan(STAND_ALONE, 5), Plan(HOST, 10), Plan(GARDEN, 3, 0, 1)):
            script.opening_plans(boards, [plan] * boards)
            script.up(boards)
            for place in range(boards):
                set_latches(script, place, 0)
            script.up(boards)
            for place in reversed(range(boards)):
                set_latches(script, place, 1 << rng.randrange(5) | rng.choice((0, 0xE0)))
                script.up(boards)
                if rng.random() < 0.5:
                    set_latches(script, place, rng.choice((0, 0x20, 0x40, 0x80, 0xE0)))
                    script.up(boards)
    script.overwrite(16, script.rows.records[0].whole())
    for boards in (0, 17, 16):
        script.up(boards)


# ------------------------------------------------------------ recorders

# what an act returns, as Rust can say it
RETURNED = 0, *range(1, 12), *range(13, 17)


def any_sample(rng):
    """What a note of a sample is handed; at times one thing of it is too large for a recording, or just not."""
    board, load, thermistor = rng.choice((0, 1, 16, 255)), rng.choice((0, 1, 255)), rng.choice((2000, 65_535))
    cells = [rng.choice((3900, rng.randrange(65_536))) for _ in range(rng.choice((5, 10, rng.choice((0, 1, 16, 120, 121)))))]
    spoilt = rng.random()
    if spoilt < 0.06:
        board = rng.choice((256, 2**32 - 1))
    elif spoilt < 0.12:
        load = rng.choice((256, 2**32 - 1))
    elif spoilt < 0.18:
        thermistor = rng.choice((65_536, 2**32 - 1))
    elif spoilt < 0.24:
        cells = [3900] * rng.choice((122, 123, 200))
    elif spoilt < 0.36 and cells:
        cells[rng.randrange(len(cells))] = rng.choice((65_535, 65_536, 2**32 - 1))
    return board, (rng.randrange(2**32), rng.randint(-2**31, 2**31 - 1), thermistor, load, cells)


def any_act(rng):
    """What a note is handed of an act that need never have been made: the name of the note, and the rest."""
    kind, number = rng.random(), rng.choice((0, 0, rng.choice(RETURNED)))
    if kind < 0.4:
        return "sample", (*any_sample(rng), number, (rng.randrange(256), rng.randrange(65_536)))
    if kind < 0.7:
        data = rng.randbytes(rng.choice((4, 4, 4, rng.choice((0, 1, 3, 5, 16, 254, 255, 256, 257, 300)))))
        return "frame", (data, rng.randbytes(rng.choice((4, 4, 4, 4, 5, 8, 3, 0))), number)
    if kind < 0.95:
        switches, place = [rng.randint(0, 1) for _ in range(3)], rng.choice(((0, 0), (rng.randint(1, 255), rng.randrange(256))))
        return "reading", (number, [*switches, *place])
    return "other", ()


def size_of(act):
    """The bytes that an act takes of a recording; 0 where it is not recordable."""
    name, handed = act
    tape = Tape(1000, used=8, stopped=0)
    getattr(tape, name)(*handed)
    return tape.used - 8


def any_recorder(script, length, act):
    """A recorder with a memory of that length: mostly one that goes on, and that the act fills up, or fails to by a byte."""
    rng, end = script.rng, min(length, USED_MOST)
    near = max(0, end - size_of(act) + rng.choice((-1, 0, 0, 1, 1)))
    used = rng.choice((near, near, near, rng.randint(8, max(8, end)), rng.choice((0, 7, end, length, length + 1, 2**32 - 3, 2**32 - 1))))
    acts = rng.choice((0, 1, 255, 256, 300, rng.choice((ACTS_MOST - 1, ACTS_MOST, rng.randrange(ACTS_MOST)))))
    stopped = rng.choice((0,) * 7 + (NO_ROOM, NOT_RECORDABLE, rng.choice((1, 14, 17, 255))))
    script.recorder(length, used, acts, stopped, rng.choice((0, NOT_RECORDABLE, NO_ROOM, rng.randrange(256))))


def any_beginning(script):
    """A beginning by plans of any kind and number, with about as much memory as it takes."""
    rng = script.rng
    boards = rng.choice((1, 1, 2, 3, 15, 16, 16, rng.choice((0, 17, 18))))
    plans = [Plan(rng.choice((STAND_ALONE, HOST)), rng.randint(5, 10)) for _ in range(boards)]
    if boards and rng.random() < 0.4:
        plans[rng.randrange(boards)] = plan_of(rng, rng.choice((5, 10, 4, 11, 256 + 5, 2**32 - 1)))
    script.begin(max(0, 8 + 2 * boards + rng.choice((-1, 0, 0, 1, 40, 300, -8, -9))), plans)


def recorders(script, count, lengths):
    """Recorders of any fields and beginnings of any plans, each with a few notes behind it, and then every byte of its memory."""
    rng = script.rng
    for _ in range(count):
        acts = [any_act(rng) for _ in range(rng.choice((1, 1, 2, 4)))]
        if rng.random() < 0.25:
            any_beginning(script)
        else:
            any_recorder(script, rng.choice(lengths), acts[0])
        for name, handed in acts:
            getattr(script, "note_" + name)(*handed)
        script.memory()


# --------------------------------------------------------------- checks

# of a field of the header or of an act, what is put in its place
ODD_BYTES = 0, 1, 2, 3, 4, 5, 7, 10, 11, 12, 13, 14, 15, 16, 17, 18, 19, 22, 32, 99, 128, 254, 255


def lent_for(script, boards):
    """How many records are lent for so many boards: enough, mostly, or one too few, or none."""
    return script.rng.choice((boards, boards, boards + 1, 16, 17, RECORDS, boards - 1, 0))


def spoilt_rows(script):
    """Garbage in a few of the records."""
    for place in script.rng.sample(range(RECORDS), 3):
        script.overwrite(place, garbage(script.rng))


def whole_checks(script, recording):
    """A recording as it is, with every number of records lent that matters, on garbage."""
    boards = recording[2]
    script.load(recording)
    for lent in (boards, boards - 1, 0, boards + 1, 16, 17, RECORDS):
        spoilt_rows(script)
        script.check(lent)


def cut_checks(script, recording):
    """It is cut at every byte, and every byte of it is changed, to one that matters or by a bit."""
    rng = script.rng
    script.load(recording)
    for length in range(len(recording)):
        script.check(lent_for(script, recording[2]), length)
    for at, byte in enumerate(recording):
        script.check(recording[2], None, at, rng.choice([b for b in ODD_BYTES if b != byte]))
        script.check(lent_for(script, recording[2]), None, at, byte ^ 1 << rng.randrange(8))
    spoilt_rows(script)


def two_flaws(script, recording, count):
    """A byte is changed and the end is cut off: the first from the front decides."""
    rng = script.rng
    script.load(recording)
    for _ in range(count):
        at = rng.randrange(min(len(recording), rng.choice((10, 40, len(recording)))))
        length = min(len(recording), at + rng.choice((1, 1, 2, 3, 8, 30)))
        script.check(recording[2], length, at, rng.choice(ODD_BYTES))


def made_up(rng):
    """An act that need never have been made, as a recording has it, with any answer."""
    tape = Tape(1000, used=8, stopped=0)
    while tape.used == 8:
        name, handed = any_act(rng)
        getattr(tape, name)(*handed)
    return bytes(tape.memory[8:tape.used])


def answered_otherwise(rng, act):
    """An act with another number in its answer, and nothing behind that: a recorded 7, a number of no refusal, or any."""
    return act[:2 + act[1]] + bytes((rng.choice((7, 7, 12, 15, 17, 18, 19, 20, 255, rng.randint(1, 255))),))


def other_acts(rng, acts):
    """The acts of a recording with some of them swapped, doubled, left out, put in, or answered otherwise."""
    acts, at, kind = list(acts), rng.randrange(len(acts)), rng.random()
    if kind < 0.2:
        other = rng.randrange(len(acts))
        acts[at], acts[other] = acts[other], acts[at]
    elif kind < 0.4:
        acts.insert(at, acts[at])
    elif kind < 0.6:
        del acts[at]
    elif kind < 0.75:
        acts.insert(at, made_up(rng))
    else:
        acts[at] = answered_otherwise(rng, acts[at])
    return acts


def act_checks(script, recording, count):
    """Its acts in another order or number, and counts beside the right one."""
    rng = script.rng
    header, acts = parts(recording)
    for wrong in (-1, 1, -len(acts), 2**32 - 1 - len(acts), 65_536, 256):
        script.load(put_together(header, acts, len(acts) + wrong))
        script.check(recording[2])
    if not acts:
        return
    for _ in range(count):
        spoilt = other_acts(rng, acts)
        if rng.random() < 0.3 and spoilt:
            spoilt = other_acts(rng, spoilt)
        script.load(put_together(header, spoilt)[:LARGEST_CHECKED])
        script.check(lent_for(script, recording[2]))


def front(recording, bytes_most):
    """The first acts of a recording, as many as so many bytes hold."""
    header, acts = parts(recording)
    while len(put_together(header, acts)) > bytes_most:
        del acts[-max(1, len(acts) // 8):]
    return put_together(header, acts)


def judge(script, count, most=LARGEST_CHECKED):
    """Recordings of the script's opened rows: the first acts of so many, those with the most different bytes, are checked as they are,
    cut, changed, and put together otherwise; of others a few acts are put together otherwise."""
    rng = script.rng
    recordings = sorted(dict.fromkeys(script.recordings), key=lambda recording: -len(set(recording)))
    for recording in recordings[:count]:
        whole_checks(script, front(recording, most))
        short = front(recording, 400)
        cut_checks(script, short)
        two_flaws(script, short, 100)
        act_checks(script, short, 60)
    for recording in rng.sample(recordings, min(len(recordings), 4 * count)):
        script.load(front(recording, most))
        script.check(lent_for(script, recording[2]))
        act_checks(script, front(recording, rng.choice((60, 150, 300))), 6)
    script.load(b"\1\0\1\0\0\0\0\0\0\5")
    for length in range(11):
        script.check(1, length)


def judge_long(script, acts):
    """A recording longer than any that is made here, right, and wrong or cut at its last act."""
    plans = [Plan(HOST, 5)]
    tape = Tape(100)
    tape.begin(plans)
    reading = bytes((3, 0, 0, 0, 0, 0, 0, 0))
    script.load(put_together(bytes(tape.memory[:tape.used]), [reading] * acts))
    for length, at, byte in ((0, 0, 0), (0, 3, 1), (0, 8, 2), (1, 0, 0), (6, 0, 0)):
        end = len(script.checked)
        script.check(1, end - length, end - at if at else 2**32 - 1, byte)
