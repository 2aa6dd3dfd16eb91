"""Random sessions for tests/differential, aimed at the edges of papers 01 and 02.

Each session is made from its seed alone. The maker keeps a rough picture of
the boards (settings and cycles, no runs or latches) only so as to aim; what
the right answers are is the reference's business.
"""

import random
from collections import namedtuple

from reference import STAND_ALONE, Bench, Settings, crc8, value_allowed

LARGEST = 2147483647
LONGEST_ELAPSED = 100000
QUICK_US = 1_000_000    # a delay that a scene waits for

# every delay code there is; sessions of consecutive seeds go through them all
TOUR = [(fault, code) for fault, codes in (("OV", 8), ("UV", 16), ("OCD", 32), ("SCD", 16))
        for code in range(codes)]

TALLY_BYTES = (16, 17, 18, 19, 20, 24, 25, 26, 27, 28)

# `alone`: the session needs a process of its own
Session = namedtuple("Session", "seed data alone")


# ------------------------------------------------------------ aiming at edges

class Aim:
    """A rough picture of one board, kept only to aim at its edges."""

    faults = ("SCD", "OCD", "OV", "UV", "OT")

    def __init__(self, count, kind=STAND_ALONE):
        self.count = count
        self.kind = kind
        self.staged = [0] * 5
        self.working = [0] * 5
        self.spent = 0
        self.fields = {}        # of the last sample, to go on with
        self.settings = Settings(self.working)

    def program(self):
        """Follow a programming; crossed levels and a fourth cycle are refused."""
        if Settings(self.staged).crossed():
            return
        if self.staged != self.working and self.spent < 3:
            self.working = list(self.staged)
            self.settings = Settings(self.working)
            self.spent += 1

    def cell_edges(self):
        """Cell readings on both sides of every line."""
        s = self.settings
        return [mv + off for off in (-1, 0, 1)
                for mv in (s.ov_level, s.ov_release, s.uv_level, s.uv_release)
                ] + [0, 5000, 4000, 4000]

    def shunt_edges(self):
        """Shunt readings on both sides of every line."""
        s = self.settings
        return [uv + off for off in (-1, 0, 1) for uv in (s.ocd_level, s.scd_level)
                ] + [0, 0, -s.ocd_level - 1, -s.scd_level - 1, -1, 500000, -500000]


class Maker:
    """Makes the lines of one session."""

    answerer = Bench        # whose lines they are

    def __init__(self, seed):
        self.rng = random.Random(seed)
        self.lines = []
        self.boards = []        # Aim of each board
        self.limit = 0          # lines after which no new scenario starts
        self.noise = self.rng.choice((0, 0, 0.02, 0.1))
        self.breaks = self.rng.choice((0, 0.05, 0.15, 0.3))

    # -- small helpers

    def chance(self, probability):
        """True with that probability."""
        return self.rng.random() < probability

    def pick(self, *choices):
        """One of the arguments."""
        return self.rng.choice(choices)

    def put(self, line):
        """Add one line."""
        self.lines.append(line if isinstance(line, bytes) else line.encode())

    def words(self, letter, numbers):
        """Add a line made of a letter and numbers."""
        self.put(" ".join([letter] + [str(number) for number in numbers]))

    def full(self):
        """Is the session as long as it was meant to be?"""
        return len(self.lines) >= self.limit

    def number(self):
        """A board number, mostly one of a few so that their state evolves."""
        count = len(self.boards)
        if self.chance(0.2):
            return self.rng.randint(1, count)
        return self.pick(1, count, (count + 1) // 2)

    # -- openings

    def open(self, counts):
        """A good opening."""
        self.words("O", counts)
        self.boards = [Aim(count) for count in counts]

    def good_opening(self):
        """One to sixteen boards of five to ten cells, or the same row again."""
        if self.boards and self.chance(0.4):
            self.open([aim.count for aim in self.boards])
            return
        size = self.pick(1, 1, 2, 2, 3, 4, 5, 15, 16, self.rng.randint(1, 16))
        self.open([self.pick(5, 8, 10, self.rng.randint(5, 10)) for _ in range(size)])

    def refused_opening(self):
        """Too few or too many boards, or one board with a bad count."""
        kind = self.pick("none", "many", "bad", "bad")
        counts = [self.rng.randint(5, 10) for _ in range(self.pick(1, 2, 15, 16))]
        if kind == "none":
            counts = []
        elif kind == "many":
            counts = [self.rng.randint(5, 10) for _ in range(self.pick(17, 17, 18, 40))]
        else:
            counts[self.pick(0, -1)] = self.pick(0, 1, 4, 4, 11, 11, 255, 256, 261, 266, 517, LARGEST,
                                                 LARGEST + 1)
        self.words("O", counts)

    # -- samples

    def sample_line(self, number, elapsed, fields):
        """Add a sample line; `fields` has load, thermistor, shunt and cells."""
        self.words("S", [number, elapsed, fields["load"], fields["thermistor"],
                         fields["shunt"]] + fields["cells"])

    def calm(self, aim):
        """Fields that hold no condition; at times near a line all the same."""
        settings = aim.settings
        mv = self.pick(4000, 3500, settings.ov_release - 1, settings.ov_release,
                       settings.ov_level, settings.uv_release + 1)
        fields = {"load": 0, "thermistor": self.pick(2000, 975), "shunt": 0,
                  "cells": [mv] * aim.count}
        if self.chance(0.2):
            fields["load"] = 1
        return fields

    def stir(self, aim, fields):
        """Move single fields to edges, as often as the session is noisy."""
        if self.chance(self.noise):
            fields["cells"][self.rng.randrange(aim.count)] = self.rng.choice(aim.cell_edges())
        if self.chance(self.noise):
            fields["shunt"] = self.rng.choice(aim.shunt_edges())
        if self.chance(self.noise):
            fields["thermistor"] = self.pick(974, 975, 0, 5000)
        return fields

    def sample(self, number, elapsed, fields):
        """Add an acceptable sample and remember it."""
        aim = self.boards[number - 1]
        stirred = self.stir(aim, dict(fields, cells=list(fields["cells"])))
        aim.fields = fields
        self.sample_line(number, elapsed, stirred)

    def elapsed(self):
        """An allowed elapsed time."""
        return self.pick(1, LONGEST_ELAPSED, LONGEST_ELAPSED, self.rng.randint(1, LONGEST_ELAPSED))

    def spoil(self, number, elapsed, fields):
        """Break one bound of a sample; gives all three back."""
        cells = fields["cells"]
        what = self.rng.randrange(7)
        if what == 0:
            number = self.pick(0, len(self.boards) + 1, 17, 128 + number, 256 + number, LARGEST)
        elif what == 1:
            size = self.pick(0, len(cells) - 1, len(cells) + 1, self.rng.randint(0, 16), 17)
            fields["cells"] = (cells * 4)[:size]
        elif what == 2:
            elapsed = self.pick(0, 0, LONGEST_ELAPSED + 1, LARGEST)
        elif what == 3 and cells:
            cells[self.rng.randrange(len(cells))] = self.pick(5001, 5001, 65536, LARGEST)
        elif what == 4:
            fields["thermistor"] = self.pick(5001, 5001, LARGEST)
        elif what == 5:
            fields["shunt"] = self.pick(500001, -500001, LARGEST, -LARGEST)
        else:
            fields["load"] = self.pick(2, 2, 256, LARGEST)
        return number, elapsed, fields

    def refused_sample(self, number):
        """A sample with one or two bounds broken, calm so as to break a run."""
        aim = self.boards[number - 1]
        fields = self.calm(aim)
        if aim.fields and self.chance(0.4):
            fields = dict(aim.fields, cells=list(aim.fields["cells"]))
        spoiled = number, self.elapsed(), fields
        for _ in range(self.pick(1, 1, 1, 2)):
            spoiled = self.spoil(*spoiled)
        self.sample_line(*spoiled)

    def bound_sample(self, number):
        """A sample on its last allowed values."""
        aim = self.boards[number - 1]
        self.sample_line(number, self.pick(1, LONGEST_ELAPSED), {
            "load": self.pick(0, 1),
            "thermistor": self.pick(0, 974, 975, 5000),
            "shunt": self.pick(-500000, 500000, 0),
            "cells": [self.pick(0, 5000, 4000) for _ in range(aim.count)]})

    # -- frames

    def frame(self, address, register, value, wrong=0):
        """Add a frame; `wrong` is put over its check byte."""
        check = crc8((address, register, value)) ^ wrong
        self.words("F", [address, register, value, check])

    def write(self, number, register, value):
        """A write, followed in the picture if it is allowed."""
        self.frame(2 * number + 1, register, value)
        if 6 <= register <= 10 and value_allowed(register, value, True):
            self.boards[number - 1].staged[register - 6] = value

    def program(self, number):
        """A programming."""
        self.frame(2 * number + 1, 11, 0x41)
        self.boards[number - 1].program()

    def setting(self, register):
        """A settings byte: edges of each field, delays mostly short."""
        rng = self.rng
        if register == 6:
            level, hysteresis = self.pick(0, 7, rng.randrange(8)), rng.randrange(4)
            return level | hysteresis << 3 | self.pick(0, 0, 0, 0, 1, 2, 7) << 5
        if register == 7:
            return self.pick(0, 15, 8, 9, rng.randrange(16)) | rng.randrange(4) << 4
        if register == 8:
            return self.pick(0, 0, 1, 4, 15, 16, 17, 31, rng.randrange(32))
        if register == 9:
            slow = self.pick(8, 9, rng.randrange(8, 16))
            delay = slow if self.chance(0.1) else rng.randrange(8)
            return self.pick(0, 15, rng.randrange(16)) | delay << 4
        return self.pick(0, 15, rng.randrange(16)) | self.pick(0, 1, 15, rng.randrange(16)) << 4

    def stage(self, number):
        """Write one settings byte, at times the working one or a bad one."""
        register = self.rng.randint(6, 10)
        value = self.setting(register)
        if self.chance(0.2):
            value = self.boards[number - 1].working[register - 6]
        elif self.chance(0.15):
            value = self.pick(0x20, 0x1F, 0x3F, 0x40, 0x80, 0xC0, 0xE0, 0xFF,
                              self.rng.randrange(256))
        self.write(number, register, value)

    def unstage(self, number):
        """Write the working bytes back, so that both sets are equal."""
        aim = self.boards[number - 1]
        for i in range(5):
            if aim.staged[i] != aim.working[i]:
                self.write(number, 6 + i, aim.working[i])

    def uncross(self, number):
        """Where the staged levels are crossed, stage an SCD level above the OCD level."""
        staged = self.boards[number - 1].staged
        if Settings(staged).crossed():
            self.write(number, 10, staged[4] | 15)

    def crossing(self, number):
        """Program levels a step apart, equal or crossed; at times find the way out."""
        short = self.rng.randrange(7)
        # ten codes more are the same level
        over = min(15, short + self.pick(9, 10, 11))
        writes = [(9, self.setting(9) & 0xF0 | over), (10, self.setting(10) & 0xF0 | short)]
        self.rng.shuffle(writes)
        for register, value in writes:
            self.write(number, register, value)
        if self.chance(0.3):
            self.write(number, 11, self.pick(0, 0x40, 0x42))
        self.program(number)
        self.frame(2 * number, self.pick(9, 10, 11), 0)
        if self.chance(0.5):
            self.pick(self.uncross, self.unstage)(number)
            self.program(number)

    def reprogram(self, number):
        """Stage some bytes and program, with reads on the way."""
        for _ in range(self.pick(1, 1, 2, 4)):
            self.stage(number)
        if self.chance(0.7):
            self.uncross(number)
        if self.chance(0.2):
            self.unstage(number)
        if self.chance(0.3):
            self.read(number)
        for _ in range(self.pick(0, 1, 1, 1, 1, 2)):
            self.program(number)
        if self.chance(0.4):
            self.read(number)

    def read(self, number):
        """Read one of the registers that hold something, at times with a value; register 1 is a host board's."""
        register = self.pick(0, 0, 0, 1, 6, 7, 8, 9, 10, 11, 11, *TALLY_BYTES)
        value = self.pick(1, 0x41, 128, 255) if self.chance(0.08) else 0
        self.frame(2 * number, register, value)

    def tallies(self, number, count=None):
        """Read some tallies in any order; at times a frame among them that gets no answer, to a tally or to a register beside."""
        for register in self.rng.sample(TALLY_BYTES, count or self.pick(1, 2, 5, 10)):
            if self.chance(0.1):
                self.frame(2 * number + self.pick(0, 1), self.pick(register, self.rng.randrange(12, 32)), self.pick(0, 1, 0x41, 255))
            self.frame(2 * number, register, 0)

    def odd_frame(self):
        """A frame that is mostly refused."""
        rng, number = self.rng, self.number()
        address = 2 * number + self.pick(0, 1)
        register = self.pick(0, 1, 5, 6, 7, 8, 9, 10, 11, 12, rng.randrange(12, 32), rng.randrange(256))
        value = self.pick(0, 0, 1, 6, 7, 8, 0x1F, 0x20, 0x40, 0x41, 0x42, 0x80, 0xFF, rng.randrange(256))
        what = rng.randrange(6)
        if what == 0:
            self.frame(address, register, value, self.pick(1, 128, 255, rng.randint(1, 255)))
        elif what == 1:
            address = self.pick(0, 1, 2 * len(self.boards) + 2, 2 * len(self.boards) + 3,
                                34, 128 + address % 128, 254, 255)
            # past the row there is no board, so nothing has to be followed
            if not 1 <= address // 2 <= len(self.boards):
                self.frame(address, register, value, self.pick(0, 0, 1))
        elif what == 2:
            size = self.pick(0, 1, 3, 5, 16, 17, rng.randint(0, 17))
            data = [address, 0, 0, crc8((address, 0, 0))] + [0] * 13
            self.words("F", data[:size])
        elif what == 3:
            data = [address, register, value, 0]
            data[rng.randrange(4)] = self.pick(256, 257, 999, LARGEST, LARGEST + 1)
            self.words("F", data)
        elif address % 2 == 0:
            self.frame(address, register, value)
        elif register == 11 and value == 0x41:
            self.program(number)
        else:
            self.write(number, register, value)

    def sweep(self):
        """One frame after another over registers, values or addresses."""
        number = self.number()
        start, size = self.rng.randrange(256), self.pick(8, 16)
        what = self.rng.randrange(4)
        if self.chance(0.05):
            start, size = 0, 256
        elif self.chance(0.5):
            start = self.pick(0, 12, 16)
        for byte in ((start + i) % 256 for i in range(size)):
            if what == 0:
                self.frame(2 * number, byte, 0)
            elif what == 1:
                self.write(number, byte, self.pick(0, 1, 0x41, byte) if byte != 11 else 0)
            elif what == 2:
                self.write(number, self.pick(6, 7, 8, 9, 10), byte)
            else:
                self.frame(byte, self.pick(0, 11), 0)

    def reading(self):
        """A whole-stack reading."""
        self.put("R")

    # -- stretches

    def parts(self, delay, target):
        """Elapsed times: a first one that counts for nothing, then the target.

        The order is mixed, so that the odd part may stand anywhere.
        """
        first = self.pick(1, LONGEST_ELAPSED, self.rng.randint(1, LONGEST_ELAPSED),
                          min(delay + 1, LONGEST_ELAPSED))
        rest = []
        while target > 0:
            part = LONGEST_ELAPSED
            if target <= 3 * LONGEST_ELAPSED and self.chance(0.3):
                part = self.rng.randint(1, max(1, target // 2))
            part = min(part, target, LONGEST_ELAPSED)
            rest.append(part)
            target -= part
        self.rng.shuffle(rest)
        return [first] + rest

    def near(self, delay):
        """Elapsed times that pass a delay, or just meet it and then pass it."""
        tail = [1] * self.pick(0, 1, 1, 2) + [self.elapsed()] * self.pick(0, 0, 1)
        return self.parts(delay, delay + self.pick(0, 0, 1, 2)) + tail

    def condition(self, aim, fault):
        """Delay and fields that hold a fault's condition."""
        fields, s = self.calm(aim), aim.settings
        # neighbours above all, and cells two and three apart, for the bleeding
        low = self.rng.randrange(aim.count)
        some = {low} | {i for i in (low + 1, low + 2, low + 3, low - 1)
                        if 0 <= i < aim.count and self.chance(0.4)}
        if fault == "OV":
            for i in some:
                fields["cells"][i] = self.pick(s.ov_level + 1, s.ov_level + 1, 5000)
            return s.ov_delay, fields
        if fault == "UV":
            for i in some:
                fields["cells"][i] = self.pick(s.uv_level - 1, s.uv_level - 1, 0)
            return s.uv_delay, fields
        fields["load"] = self.pick(0, 1)
        if fault == "OCD":
            fields["shunt"] = s.ocd_level + self.pick(1, 1, 500)
            return s.ocd_delay, fields
        fields["shunt"] = self.pick(s.scd_level + 1, s.scd_level + 1, 500000)
        return s.scd_delay, fields

    def stretch(self, number, fault):
        """Hold a condition about as long as its delay, with interruptions."""
        row, aim = self.boards, self.boards[number - 1]
        if self.chance(0.3):
            self.sample(number, self.elapsed(), self.calm(aim))
        delay, fields = self.condition(aim, fault)
        spent, times = aim.spent, self.near(delay)
        while times and len(self.lines) < self.limit + 100:
            if self.chance(self.breaks):
                self.interrupt(number)
            if self.boards is not row:
                return          # opened anew
            if aim.spent != spent:
                # every run has started over, under other levels perhaps
                spent = aim.spent
                delay, fields = self.condition(aim, fault)
                times = self.near(delay)
            self.sample(number, times.pop(0), fields)
        self.look(number)
        if self.chance(0.7):
            self.let_go(number, fault)

    def marked(self, number):
        """Program one level and delay out of all there are; meet it undisturbed."""
        if self.boards[number - 1].spent == 3:
            self.open([aim.count for aim in self.boards])
        fault = self.pick("OV", "UV", "OCD", "SCD")
        registers = {"OV": (6,), "UV": (7, 9), "OCD": (8, 9), "SCD": (10,)}[fault]
        for register in registers:
            mask = {7: 0x3F, 8: 0x1F}.get(register, 0xFF)
            self.write(number, register, self.rng.randrange(256) & mask)
        self.uncross(number)
        self.program(number)
        noisy = self.noise, self.breaks
        self.noise = self.breaks = 0
        self.stretch(number, fault)
        self.noise, self.breaks = noisy

    def tour(self, number, turn):
        """Both sides of one delay, of its level and of where it lets go."""
        fault, code = TOUR[turn % len(TOUR)]
        level = turn + turn // len(TOUR)
        for register, value in {
                "OV": [(6, level % 8 | self.rng.randrange(4) << 3 | code << 5)],
                "UV": [(7, level % 16 | self.rng.randrange(4) << 4), (9, code << 4)],
                "OCD": [(8, code), (9, level % 16)],
                "SCD": [(10, level % 16 | code << 4)]}[fault]:
            self.write(number, register, value)
        self.uncross(number)
        self.program(number)
        aim = self.boards[number - 1]
        s, cell = aim.settings, self.rng.randrange(aim.count)
        at, beyond, release, gone, delay = {
            "OV": (s.ov_level, s.ov_level + 1, s.ov_release, s.ov_release - 1, s.ov_delay),
            "UV": (s.uv_level, s.uv_level - 1, s.uv_release, s.uv_release + 1, s.uv_delay),
            "OCD": (s.ocd_level, s.ocd_level + 1, s.ocd_level + 1, s.ocd_level, s.ocd_delay),
            "SCD": (s.scd_level, s.scd_level + 1, s.scd_level + 1, s.scd_level, s.scd_delay),
        }[fault]
        times = [1] + self.parts(delay, delay) + [1, 1, 1]
        values = [at] + [beyond] * (len(times) - 3) + [release, gone]
        for elapsed, value in zip(times, values):
            fields = {"load": 0, "thermistor": 2000, "shunt": 0, "cells": [3500] * aim.count}
            if fault in ("OV", "UV"):
                fields["cells"][cell] = value
            else:
                fields["shunt"] = value
            self.sample_line(number, elapsed, fields)
        self.look(number)

    def twins(self, number):
        """Program bytes that differ and mean the same."""
        register, values = self.pick((8, (4, 16)), (7, (0x1F, 0x2F, 0x3F)), (7, (0x2B, 0x3B)))
        for _ in range(self.rng.randint(2, 4)):
            self.write(number, register, self.rng.choice(values))
            self.program(number)

    def turns(self, number):
        """Two cells take turns, each mostly no longer than the delay."""
        aim = self.boards[number - 1]
        s, fault = aim.settings, self.pick("OV", "UV")
        delay, mv = ((s.ov_delay, s.ov_level + 1) if fault == "OV"
                     else (s.uv_delay, s.uv_level - 1))
        pair = self.rng.sample(range(aim.count), 2)
        overlap = self.chance(0.3)
        for turn in range(self.pick(2, 3)):
            fields = self.calm(aim)
            fields["cells"][pair[turn % 2]] = mv
            for elapsed in self.parts(delay, delay + self.pick(0, 0, 1)):
                self.sample(number, elapsed, fields)
            if overlap:
                both = dict(fields, cells=list(fields["cells"]))
                both["cells"][pair[(turn + 1) % 2]] = mv
                self.sample(number, 1, both)
        self.look(number)

    def even(self, total, steps):
        """Elapsed times that add up to the total, in so many steps or as many as it takes; all but one are equal."""
        steps = min(max(steps, total // LONGEST_ELAPSED + 1), total)
        times = [total // steps] * steps
        times[self.rng.randrange(steps)] += total % steps
        return times

    def joining(self, number):
        """Cells go past a level one after another, and some come back once: the first to stand is seldom the lowest."""
        aim, fault = self.boards[number - 1], self.pick("OV", "UV")
        if fault == "UV" and self.delay(aim, fault) == 0:
            # without a delay no cell waits for another; on a board that nothing programs this is refused
            self.unstage(number)
            self.write(number, 9, aim.working[3] & 0x0F | self.rng.randint(1, 7) << 4)
            self.program(number)
        delay, s = self.delay(aim, fault), aim.settings
        if delay > QUICK_US:
            return
        beyond, at = (s.ov_level + 1, s.ov_level) if fault == "OV" else (s.uv_level - 1, s.uv_level)
        _, free = self.tripped(aim, ())
        self.relieve(number, free)
        times = [self.elapsed()] + self.even(delay + 1, self.pick(2, 3, 5, 8)) + [self.elapsed()] * self.pick(0, 1, 3)
        some = self.rng.sample(range(aim.count), self.pick(2, 2, 3, aim.count))
        joins = {cell: self.pick(0, place, self.rng.randrange(len(times))) for place, cell in enumerate(some)}
        slips = {cell: self.rng.randrange(len(times)) for cell in some if self.chance(0.2)}
        for step, elapsed in enumerate(times):
            cells = list(free["cells"])
            for cell in some:
                if step >= joins[cell]:
                    cells[cell] = at if slips.get(cell) == step else beyond
            self.sample(number, elapsed, dict(free, cells=cells))
        self.look(number)

    def crowd(self, number):
        """Flag many cells, then let them go one by one by their own reading."""
        aim = self.boards[number - 1]
        s, fields = aim.settings, self.calm(aim)
        fields["load"] = 0
        likely = self.pick(0.3, 0.6, 1)
        fields["cells"] = [s.ov_level + 1 if self.chance(likely) else 4000
                           for _ in range(aim.count)]
        for elapsed in self.near(s.ov_delay):
            self.sample(number, elapsed, fields)
        self.look(number)
        for _ in range(self.rng.randint(0, 5)):
            fields = dict(fields, cells=list(fields["cells"]))
            fields["cells"][self.rng.randrange(aim.count)] = self.pick(
                s.ov_release - 1, s.ov_release - 1, s.ov_release, s.ov_level)
            self.sample(number, self.elapsed(), fields)
            if self.chance(0.4):
                self.reading()

    def let_go(self, number, fault):
        """Samples on both sides of the lines at which a latch lets go."""
        aim = self.boards[number - 1]
        s = aim.settings
        fields = dict(self.calm(aim), load=0)
        for _ in range(self.rng.randint(1, 4)):
            step = dict(fields, cells=list(fields["cells"]))
            if fault in ("OV", "UV"):
                release = s.ov_release if fault == "OV" else s.uv_release
                off = self.pick(-1, 0, 1)
                step["cells"] = [release + off] * aim.count
                if self.chance(0.4):
                    # one cell that is not yet there, or only just
                    step["cells"][self.rng.randrange(aim.count)] = release
            else:
                level = s.ocd_level if fault == "OCD" else s.scd_level
                step["load"] = self.pick(0, 0, 1)
                step["shunt"] = self.pick(level, level, level + 1, 0, -level - 1)
            self.sample(number, self.elapsed(), step)
        self.look(number)

    def heat(self, number):
        """The thermistor about its line."""
        aim = self.boards[number - 1]
        for _ in range(self.rng.randint(1, 3)):
            self.sample(number, self.elapsed(),
                        dict(self.calm(aim), thermistor=self.pick(974, 974, 975, 976, 0, 5000)))
            if self.chance(0.3):
                self.look(number)

    def tripped(self, aim, faults):
        """Fields that hold the conditions of all these faults, and fields at which all of them let go."""
        s, (high, low) = aim.settings, self.rng.sample(range(aim.count), 2)
        free = {"load": 0, "thermistor": 2000, "shunt": 0, "cells": [3500] * aim.count}
        held = dict(free, load=self.pick(0, 1), cells=list(free["cells"]))
        if "OV" in faults:
            held["cells"][high] = s.ov_level + 1
        if "UV" in faults:
            held["cells"][low] = s.uv_level - 1
        if "OCD" in faults:
            held["shunt"] = s.ocd_level + 1
        if "SCD" in faults:
            held["shunt"] = s.scd_level + 1
        if "OT" in faults:
            held["thermistor"] = 974
        return held, free

    def trip(self, number, faults):
        """Hold the conditions of these faults past their delays, then let go."""
        aim = self.boards[number - 1]
        held, free = self.tripped(aim, faults)
        for elapsed in self.past_delays(aim, faults):
            self.sample(number, elapsed, held)
        self.relieve(number, free)

    def past_delays(self, aim, faults):
        """Elapsed times that pass the delays of all these faults; where there is none, one sample does."""
        longest = max(self.delay(aim, fault) for fault in faults)
        return self.parts(longest, longest + 1) if longest else [self.elapsed()]

    def delay(self, aim, fault):
        """The delay of a fault, by the board's picture."""
        s = aim.settings
        return {"OV": s.ov_delay, "UV": s.uv_delay, "OCD": s.ocd_delay, "SCD": s.scd_delay, "OT": 0}[fault]

    def relieve(self, number, free):
        """What it takes until every latch has let go."""
        self.sample(number, self.elapsed(), free)

    def trips(self, number):
        """The same faults again and again, so that tallies grow; where one sample latches them, at times past one byte."""
        aim = self.boards[number - 1]
        faults, times = self.rng.sample(aim.faults, self.pick(1, 1, 2)), self.pick(2, 2, 3, 5)
        quick = [fault for fault in faults if self.delay(aim, fault) == 0]
        often = bool(quick) and self.chance(0.15)
        if often:
            faults, times = quick, self.rng.randint(255, 262)
        for _ in range(times):
            self.trip(number, faults)
            if self.chance(self.breaks):
                self.pick(self.refused_sample, self.program, self.stage, self.tallies)(number)
            if often and any(self.delay(aim, fault) > 0 for fault in faults):
                break           # programmed to wait
        self.tallies(number, len(TALLY_BYTES))

    def walk(self, number):
        """Every cell keeps its reading for a while, then takes another edge."""
        row, aim = self.boards, self.boards[number - 1]
        fields = aim.fields or self.calm(aim)
        for _ in range(self.rng.randint(5, 25)):
            fields = dict(fields, cells=[
                self.rng.choice(aim.cell_edges()) if self.chance(0.06) else mv
                for mv in fields["cells"]])
            if self.chance(0.15):
                fields["shunt"] = self.rng.choice(aim.shunt_edges())
            if self.chance(0.15):
                fields["load"] = self.pick(0, 1)
            if self.chance(0.1):
                fields["thermistor"] = self.pick(2000, 2000, 974, 975)
            self.sample(number, self.elapsed(), fields)
            if self.chance(self.breaks):
                self.interrupt(number)
                if self.boards is not row:
                    return

    def wear(self, number):
        """Spend all the cycles and go on programming."""
        for _ in range(self.rng.randint(3, 6)):
            self.stage(number)
            if self.chance(0.7):
                self.uncross(number)
            self.program(number)
        if self.chance(0.5):
            self.program(number)
            self.unstage(number)
            self.program(number)
        self.read(number)

    def look(self, number):
        """Look at what came out."""
        if self.chance(0.6):
            self.reading()
        if self.chance(0.3):
            self.frame(2 * number, 0, 0)
        if self.chance(0.2):
            self.tallies(number)

    def interrupt(self, number):
        """Something between two samples of a stretch."""
        other = self.number()
        aim = self.boards[other - 1]
        what = self.rng.randrange(20)
        if what < 6:
            self.refused_sample(number)
        elif what < 9 and other != number:
            self.sample(other, self.elapsed(), aim.fields or self.calm(aim))
        elif what == 9:
            self.reading()
        elif what == 10:
            self.read(number)
        elif what == 11:
            self.stage(number)
        elif what == 12:
            self.program(number)
        elif what == 13:
            self.unstage(number)
            self.program(number)
        elif what == 14:
            self.odd_frame()
        elif what == 15:
            self.refused_opening()
        elif what == 16:
            self.damaged()
        elif what == 17:
            self.odd_line()
        elif what == 18 and self.chance(0.1):
            self.good_opening()
        elif what == 19:
            self.crossing(number)

    # -- lines that are not as they should be

    def damaged(self):
        """A line of this session with one or two things wrong with it."""
        line = self.pick(b"R", b"O 5", b"O", b"F", b"F 2 0 0 214")
        if self.lines and self.chance(0.7):
            line = self.rng.choice(self.lines)
        for _ in range(self.pick(1, 1, 1, 2)):
            line = self.damage(line)
        self.put_unless_opening(line)

    def put_unless_opening(self, line):
        """Add a changed line; one that opens a stack would spoil the picture."""
        if b"ok" not in self.answerer().answers(line):
            self.put(line)

    def damage(self, line):
        """One thing wrong."""
        rng = self.rng
        at = rng.randint(0, len(line))
        odd = self.pick(b" ", b"0", b"-", b"+", b"\t", b"\r", b"\0", b"\x80", b"\xff",
                        b"9", b"1", b"S", b"L", b"U", b"W", b"D", b".", b"a", b"h", b"g", b"/", bytes([rng.randrange(256)]))
        what = rng.randrange(10)
        if what == 0:
            return line[:at] + line[at + 1:]
        if what == 1:
            return line[:at] + odd + line[at:]
        if what == 2:
            return line[:at] + odd + line[at + 1:]
        if what == 3:
            return line + self.pick(b" ", b"\r", b"\t", b"\0", b" 0", b" 5", b"\n")
        if what == 4:
            return self.pick(b" ", b"\0", b"\xef\xbb\xbf", b"\n") + line
        if what == 5:
            return line[:at]
        if what == 6:
            return line.lower()
        words = line.split(b" ")
        i = rng.randrange(len(words))
        words[i] = {7: b" " + words[i], 8: b"0" + words[i],
                    9: self.pick(b"-", b"+", b"--") + words[i]}[what]
        return b" ".join(words)

    def odd_line(self):
        """A line of a marked length, an empty one, or one of random bytes."""
        what = self.rng.randrange(7)
        if what == 0:
            self.put(b"")
        elif what == 1:
            size = self.pick(1, 5, 20, 199, 200, 201, 250)
            self.put(bytes(self.rng.randrange(256) for _ in range(size)))
        elif what == 2:
            size = self.pick(1, 2, 5, 20, 199, 200, 201)
            self.put(bytes(self.rng.choice(b"OSFRLUWD 0123456789-") for _ in range(size)))
        elif what == 3:
            self.put(self.pick(b"O", b"S", b"F", b"R", b"X", b"L", b"U", b"W", b"D", b" ", b"-", b"0",
                               b"O ", b"S ", b"F ", b"R ", b" R", b"R 0", b"RR", b"L 1 0", b"L 1 128", b"U 1", b"W 46"))
        else:
            self.long_line(self.pick(199, 200, 200, 201, 201, 1000))

    def shunt_word(self):
        """A sample of board 1 with an odd word for its shunt."""
        word = self.pick(b"-0", b"-", b"--1", b"-01", b"+1", b"00", b"-2147483648",
                         b"2147483648", b"-2147483647", b"2147483647", b"4294967296",
                         b"-4294967297", b"18446744073709551616", b"-1", b"1e3", b"")
        cells = b" 4000" * (self.boards[0].count if self.boards else 5)
        self.put(b"S 1 1000 0 2000 " + word + cells)

    def large_word(self):
        """A line of this session with one number beyond some machine's reach."""
        words = self.rng.choice(self.lines).split(b" ")
        at = self.rng.randrange(len(words))
        # a power of two over the number wraps round to the number itself
        if words[at].isdigit() and len(words[at]) < 12:
            more = self.pick(2**31, 2**32, 2**64) if self.chance(0.7) else self.pick(256, 65536)
            words[at] = b"%d" % (int(words[at]) + more)
            self.put_unless_opening(b" ".join(words))

    def long_line(self, size):
        """A line of that many bytes which is well formed but for its length."""
        if size > 220 or self.chance(0.5):
            pairs = (size - 1) // 2
            odd = b" 10" if size % 2 == 0 else b" 5"
            self.put(b"O" + odd + b" 5" * (pairs - 1))
            return
        digits = [1] * 21
        while sum(digits) < size - 22:
            i = self.rng.randrange(21)
            digits[i] = min(10, digits[i] + 1)
        self.put(b"S " + b" ".join(b"1" * count for count in digits))

    def zeros(self):
        """Bytes that some readers of lines treat as their own."""
        self.put(self.pick(b"\0", b"\0" * 200, b"\0" * 201, b"R\0", b"\r", b"R\r", b"\xff" * 9))

    # -- sessions

    def scenario(self):
        """One thing after another, on the boards of the session."""
        number = self.number()
        scenarios = (
            (10, lambda: self.stretch(number, self.pick("OV", "UV", "OCD", "SCD"))),
            (3, lambda: self.stretch(number, "OV")),
            (5, lambda: self.marked(number)),
            (1, lambda: self.twins(number)),
            (3, lambda: self.turns(number)),
            (4, lambda: self.joining(number)),
            (4, lambda: self.crowd(number)),
            (3, lambda: self.heat(number)),
            (3, lambda: self.trips(number)),
            (3, lambda: self.walk(number)),
            (6, lambda: self.reprogram(number)),
            (4, lambda: self.crossing(number)),
            (2, lambda: self.wear(number)),
            (18, self.odd_frame),
            (1, self.sweep),
            (4, lambda: self.read(number)),
            (16, lambda: self.refused_sample(number)),
            (2, lambda: self.bound_sample(number)),
            (3, self.refused_opening),
            (6, self.damaged),
            (4, self.odd_line),
            (4, self.shunt_word),
            (4, self.large_word),
            (2, self.reading),
            (1, self.good_opening),
            (1, self.zeros),
        )
        weights = [weight for weight, _ in scenarios]
        self.rng.choices([do for _, do in scenarios], weights)[0]()

    def play(self, length):
        """Scenarios until the session is that much longer."""
        self.limit = len(self.lines) + length
        if self.chance(0.6):
            self.reprogram(self.number())
        while not self.full():
            self.scenario()

    def length(self):
        """How long a session is meant to be."""
        return self.pick(15, 40, 80, 150, 280)

    def bare(self):
        """Acts, good and bad, without an opening of one's own."""
        self.boards = [Aim(self.pick(5, 8, 10)) for _ in range(self.pick(1, 3, 16))]
        for _ in range(self.rng.randint(1, 12)):
            number = self.number()
            self.pick(self.reading, self.refused_opening, self.odd_frame,
                      self.odd_line, self.damaged, lambda: self.read(number),
                      lambda: self.refused_sample(number), lambda: self.bound_sample(number),
                      lambda: self.stage(number))()

    def cut(self, data):
        """Input that ends in an odd way."""
        self.lines = []
        self.long_line(self.pick(199, 200, 201, 1000))
        long_line = self.lines[0]
        return self.pick(
            data[:-1], data[:-1], data[:self.rng.randint(0, len(data))], data + b"\n\n",
            data + b"R", data + b"R\r", data + b"\0", data + b"\0\n", data + b"S 1 1000",
            data + b" ", data + b"\xff\xfe", data + long_line, data + long_line + b"\n",
            b"", b"\n", b"\n\n\n", b"R", b"O 5", b"\0", long_line, long_line + b"\nO 5\nR")


def make_session(seed, lines=Maker):
    """The session of that seed, in the lines of one program."""
    maker = lines(seed)
    kind = maker.rng.choices(("opened", "bare", "joined", "cut"), (78, 6, 8, 8))[0]
    if kind in ("bare", "joined"):
        maker.bare()
    if kind in ("opened", "cut") or maker.chance(0.7):
        maker.good_opening()
        if maker.chance(0.7):
            maker.tour(maker.number(), seed)
        maker.play(maker.length() if kind != "cut" else maker.pick(5, 15, 40))
    data = b"".join(line + b"\n" for line in maker.lines)
    if kind == "cut":
        data = maker.cut(data)
    return Session(seed, data, kind in ("bare", "cut"))
