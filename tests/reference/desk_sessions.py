"""Random sessions for tests/differential --workshop.

The sessions of sessions.py, whose stretches meet every delay and level, with
the workshop's own line forms in between: boards by kind, lent rooms, journals,
recordings, long lists, long lines. A form that a request brings is one more
scenario here.

Rows have host boards among the others. Their latches stay, so that most
scenes on them end in writes to register 1, after samples about the levels
that work at the write. And they have garden boards, which count samples: most
scenes on them go about as many samples to one side as the trigger is. On each
kind faults latch over and over, so that its tallies have something to say, and
in some sessions until a journal has lost its oldest entries. The reference is
asked how long a journal is, so that room is lent one short or just enough, and
which boards have a latch, so that the first one stands at any place of a row.
Behind each question for the fault line stands a reading, which has it too.

Many days are recorded. The room of a recording is chosen when its acts are
there and the reference knows where each ends: at one of these ends or a byte
beside it. In long days it is the last act that is made to fit, for there the
end is fixed.
"""

from itertools import accumulate

from reference import DEVICES, GARDEN, HOST, STAND_ALONE, Plan, Settings, crc8
from sessions import LARGEST, LONGEST_ELAPSED, QUICK_US, Aim, Maker
from workshop import LONGEST_LINE, Workshop

# forms of requests that are not in force: malformed, until their scenario stands in their place
LATER = ("C", "C 0100", "C 01000100000000000005", "V 00 00 1", "V 0100 0100 0")

# for each fault that a host board keeps: the register of its level and the mask of the level's code
LEVELS = {"OV": (6, 0x07), "UV": (7, 0x0F), "OCD": (9, 0x0F), "SCD": (10, 0x0F)}
FEW = 8                 # a trigger that every scene goes for
FULL = 128              # entries of a journal
FLOODS = 0.01           # of the scenarios
LONG_DAYS = 0.0015      # of the scenarios
MOST_RECORDED = 65535   # bytes
LONGEST_BODY = 255


def garden_settings(row, trigger):
    """A garden board's levels under the names of the others'; a stretch over its delays has about as many samples as a small trigger."""
    settings, device = Settings([0] * 5), DEVICES[row]
    settings.ov_level, settings.ov_release = device.ov_level, device.ov_level - device.ov_hysteresis
    settings.uv_level, settings.uv_release = device.uv_level, device.uv_level + device.uv_hysteresis
    settings.ov_delay = settings.uv_delay = (min(trigger, FEW) - 1) * LONGEST_ELAPSED
    return settings


class GardenAim(Aim):
    """A rough picture of a garden board, which nothing programs."""

    faults = ("OV", "UV")

    def __init__(self, plan):
        super().__init__(plan.cells, GARDEN)
        self.trigger = plan.trigger
        self.settings = garden_settings(plan.row, plan.trigger)

    def program(self):
        """Refused."""


def header(boards):
    """The bytes of a recording's header with its board list."""
    return 8 + 2 * boards


def board_word(plan):
    """A board of `X`."""
    return "shg"[plan.kind] + "/".join(str(number) for number in (plan[1:] if plan.kind == GARDEN else plan[1:2]))


class DeskMaker(Maker):
    """Makes the lines of one session of the workshop."""

    answerer = Workshop

    def __init__(self, seed):
        super().__init__(seed)
        self.reference = Workshop()
        self.heard = 0          # lines of the session that the reference has been told
        self.day = None         # the reference's last recording
        self.begun = None       # the place of its line, as long as its room is to be chosen

    # -- the forms of document 01, as the workshop may write them

    def words(self, letter, numbers):
        """A refused opening may name its boards by kind, a frame the room of its reply."""
        if letter == "O" and self.chance(0.5):
            self.put(" ".join(["X"] + self.named(numbers)))
            return
        if letter == "F" and self.chance(0.4):
            letter = f"F@{self.pick(4, 4, 5, 7, 8, 9, 64, 255, 256, 65536, LARGEST - 1, LARGEST)}"
        super().words(letter, numbers)

    def named(self, counts):
        """Boards of `X` with these cell counts; a garden board only in place of one that could be opened."""
        return [board_word(self.garden(count)) if 5 <= count <= 10 and self.chance(0.3) else f"{self.pick('s', 'h')}{count}"
                for count in counts]

    def garden(self, count):
        """The plan of a garden board, of so many cells where it can have them."""
        rng = self.rng
        trigger = self.pick(1, 1, 2, 2, 3, 4, 5, rng.randint(1, FEW), rng.randint(1, FEW), FEW, rng.randint(FEW, 254), 255)
        return Plan(GARDEN, count if 3 <= count <= 5 else self.pick(3, 4, 5), rng.randrange(len(DEVICES)), trigger)

    def plan(self, count, hosts, gardens):
        """A board of any kind, of so many cells where its kind has them, by how likely a host and a garden board are."""
        if count < 5 or self.chance(gardens):
            return self.garden(count)
        return Plan(HOST if self.chance(hosts) else STAND_ALONE, count)

    def open(self, counts):
        """A good opening: boards of one kind or of several."""
        hosts, gardens = self.pick(0, 0.5, 0.5, 1), self.pick(0, 0, 0.4, 0.4, 1)
        self.open_row([self.plan(count, hosts, gardens) for count in counts])

    def open_row(self, plans, recorded=None):
        """A good opening of boards as planned, and a recording as likely as is said; of garden boards it would be empty."""
        self.settle()
        if any(plan.kind != STAND_ALONE for plan in plans) or self.chance(0.5):
            self.put(" ".join(["X"] + [board_word(plan) for plan in plans]))
        else:
            Maker.words(self, "O", [plan.cells for plan in plans])
        self.boards = [GardenAim(plan) if plan.kind == GARDEN else Aim(plan.cells, plan.kind) for plan in plans]
        if self.chance(recorded or (0.15 if any(plan.kind == GARDEN for plan in plans) else 0.6)):
            self.begin()
        for number, plan in enumerate(plans, 1):
            if plan.kind == HOST and self.chance(0.6):
                self.write(number, 1, self.pick(6, 6, 7, 2, 4))
        if self.chance(0.3):
            self.reading()

    # -- host boards

    def switches(self):
        """The two switch bits of register 1."""
        return self.pick(6, 6, 2, 4, 0)

    def clear(self, number):
        """Take b0 from 1 to 0, mostly; bits of the switches are written with it."""
        up, down = 1 | self.switches(), self.switches()
        writes = self.pick([up, down], [up, down], [up, down], [down], [up], [up, up, down], [down, down], [down, up],
                           [up, 8, down], [up, down, up, down])
        for value in writes:
            self.write(number, 1, value)
            if self.chance(0.15):
                self.between(number)
        self.frame(2 * number, 0, 0)
        if self.chance(0.5):
            self.frame(2 * number, 1, 0)

    def between(self, number):
        """Something between two writes to register 1: a sample, a programming, a read."""
        aim = self.boards[number - 1]
        self.pick(lambda: self.sample(number, self.elapsed(), self.calm(aim)), lambda: self.refused_sample(number),
                  lambda: self.program(number), lambda: self.stage(number), lambda: self.frame(2 * number, 0, 0),
                  self.reading)()

    def about(self, number, fault, settings):
        """A sample at a fault's level by these settings, or one off it, and nothing else past any level."""
        aim, off = self.boards[number - 1], self.pick(-1, 0, 0, 1)
        fields = {"load": self.pick(0, 1), "thermistor": self.pick(2000, 2000, 2000, 974), "shunt": 0, "cells": [3500] * aim.count}
        if fault in ("OV", "UV"):
            level = settings.ov_level if fault == "OV" else settings.uv_level
            fields["cells"][self.rng.randrange(aim.count)] = level + off
        else:
            fields["shunt"] = (settings.ocd_level if fault == "OCD" else settings.scd_level) + off
        self.sample(number, self.pick(1, 1, self.elapsed()), fields)

    def moved(self, number, fault):
        """A sample about a level that only the next programming sets; then the programming."""
        aim, (register, mask) = self.boards[number - 1], LEVELS[fault]
        five, at = list(aim.working), register - 6
        five[at] = five[at] & ~mask | self.rng.randrange(mask + 1)
        self.unstage(number)
        self.about(number, fault, Settings(five))
        self.write(number, register, five[at])
        if self.chance(0.9):
            self.program(number)

    def held(self, number):
        """Latch faults, go about their levels, at times by other levels than at the sample, and clear."""
        aim = self.boards[number - 1]
        quick = [fault for fault in LEVELS if self.delay(aim, fault) <= QUICK_US]
        if not quick:
            return
        fault = self.rng.choice(quick)
        if self.chance(0.5):
            self.write(number, 1, self.pick(6, 7))
        for one in [fault] + self.rng.sample(quick, self.pick(0, 0, 1)):
            delay, fields = self.condition(aim, one)
            for elapsed in self.parts(delay, delay + 1):
                self.sample(number, elapsed, fields)
        if self.chance(0.3):
            self.write(number, 1, self.pick(6, 7, 2, 4, 3, 5))
        for _ in range(self.pick(1, 1, 2)):
            if aim.spent < 3 and self.chance(0.5):
                self.moved(number, fault)
            else:
                self.about(number, fault, aim.settings)
            self.clear(number)
        if self.chance(0.3):
            self.reading()

    def hosted(self):
        """A scene of a host board; at times, of one that is none, where register 1 is 9."""
        number = self.number()
        hosts = [n for n, aim in enumerate(self.boards, 1) if aim.kind == HOST]
        if hosts and self.chance(0.9):
            number = self.rng.choice(hosts[:2])
        self.pick(self.held, self.held, self.clear, self.heated, self.trips, self.outlived)(number)

    def relieve(self, number, free):
        """A host clears by hand; a garden board lets go at its trigger."""
        aim = self.boards[number - 1]
        for _ in range(min(aim.trigger, FEW) if aim.kind == GARDEN else 1):
            super().relieve(number, free)
        if aim.kind == HOST:
            self.write(number, 1, 1 | self.switches())
            self.write(number, 1, self.switches())

    def past_delays(self, aim, faults):
        """A garden board latches at its trigger."""
        if aim.kind == GARDEN:
            return [self.elapsed() for _ in range(min(aim.trigger, FEW))]
        return super().past_delays(aim, faults)

    def heated(self, number):
        """Overtemperature takes both bits as it latches, and only then."""
        aim = self.boards[number - 1]
        for thermistor in (self.pick(975, 974), 974, self.pick(974, 975, 975)):
            self.write(number, 1, self.pick(7, 6, 2, 4, 1))
            self.sample(number, self.elapsed(), dict(self.calm(aim), thermistor=thermistor))
            self.frame(2 * number, self.pick(0, 1), 0)

    def look(self, number):
        """A host board's latches stay until they are cleared."""
        super().look(number)
        if self.chance(0.3):
            self.listing(number)
        if self.boards[number - 1].kind == HOST and self.chance(0.4):
            self.clear(number)
            if self.chance(0.2):
                self.listing(number)

    # -- garden boards

    def numb(self, cells, load):
        """Fields with these cells and load; what trips other boards is nothing to a garden board."""
        return {"load": load, "thermistor": self.pick(2000, 2000, 975, 974, 0), "shunt": self.pick(0, 0, 60001, 500000, -60001),
                "cells": cells}

    def past(self, aim, fault):
        """Some cells, each with a reading past a level: mostly that of the fault."""
        past = {"OV": aim.settings.ov_level + 1, "UV": aim.settings.uv_level - 1}
        return {i: past[self.pick(fault, fault, fault, "OV", "UV")] for i in self.rng.sample(range(aim.count), self.pick(1, 1, 2, 3))}

    def outside(self, aim, fault, some):
        """Some cells past a level, the others at the fault's own or far from it."""
        level = {"OV": aim.settings.ov_level, "UV": aim.settings.uv_level}[fault]
        return self.numb([some.get(i, self.pick(3600, 3600, level)) for i in range(aim.count)], self.pick(0, 1))

    def inside(self, aim, fault):
        """Every cell inside, only just or far; the load is mostly off."""
        edge = {"OV": aim.settings.ov_release - 1, "UV": aim.settings.uv_release + 1}[fault]
        return self.numb([self.pick(3600, edge) for _ in range(aim.count)], self.pick(0, 0, 0, 0, 1))

    def slip(self, aim):
        """One cell at any line, so that most counts go down."""
        cells = [3600] * aim.count
        cells[self.rng.randrange(aim.count)] = self.rng.choice(aim.cell_edges())
        return self.numb(cells, self.pick(0, 1))

    def climb(self, number, fault, out, steps):
        """So many samples to one side and one more for each slip; at times other cells join or take over."""
        row, aim = self.boards, self.boards[number - 1]
        slips, turns, some = self.pick(0, 0, 0.1, 0.3), self.pick(0, 0.3, 0.3), self.past(aim, fault)
        while steps > 0:
            if self.chance(turns):
                some = self.past(aim, fault) | (some if self.chance(0.7) else {})
            slipped = self.chance(slips)
            fields = self.slip(aim) if slipped else self.outside(aim, fault, some) if out else self.inside(aim, fault)
            self.sample(number, self.elapsed(), fields)
            steps += 1 if slipped else -1
            if self.chance(self.breaks):
                super().interrupt(number)       # the bench's: scenes within scenes might not end
            if self.boards is not row:
                return          # opened anew
        self.look(number)

    def filtered(self, number):
        """To the trigger or about there, to one side and the other; a large one is mostly left alone."""
        row, trigger = self.boards, self.boards[number - 1].trigger
        fault, far = self.pick("OV", "UV"), trigger <= FEW or self.chance(0.2)
        for out in self.pick((False, True), (True, False), (False, True, False), (True, False, True)):
            if self.boards is row:
                self.climb(number, fault, out, trigger + self.pick(-1, 0, 0, 0, 1) if far else self.rng.randint(1, FEW))

    def heir(self, number):
        """One cell trips with another close behind, which goes up alone after the way back."""
        aim, fault = self.boards[number - 1], self.pick("OV", "UV")
        beyond = {"OV": aim.settings.ov_level + 1, "UV": aim.settings.uv_level - 1}[fault]
        first, other = self.rng.sample(range(aim.count), 2)
        steps = min(aim.trigger, FEW)
        ways = [{first: beyond}] + [{first: beyond, other: beyond}] * (steps - 1) + [None] * steps + [{other: beyond}] * steps
        for some in [None] * steps + ways:
            self.sample(number, self.elapsed(), self.outside(aim, fault, some) if some else self.inside(aim, fault))
        self.look(number)

    def unanswered(self, number):
        """Frames of which a garden board answers only reads of register 0 and of its tallies."""
        for _ in range(self.pick(1, 2, 4)):
            register = self.pick(0, 0, 1, 6, 11, self.rng.randrange(12, 32), self.rng.randrange(256))
            self.frame(2 * number + self.pick(0, 0, 1), register, self.pick(0, 0, 1, 6, 0x41, self.rng.randrange(256)))

    def grown(self):
        """A scene of a garden board, where there is one."""
        gardens = [n for n, aim in enumerate(self.boards, 1) if aim.kind == GARDEN]
        if gardens:
            self.pick(self.filtered, self.filtered, self.filtered, self.heir, self.trips, self.unanswered)(self.rng.choice(gardens[:2]))

    # -- journals

    def known(self):
        """The boards of the reference, which is told what it has not heard yet; none before an opening."""
        self.reference.answers(b"".join(line + b"\n" for line in self.lines[self.heard:]))
        self.heard = len(self.lines)
        return self.reference.stack.boards if self.reference.stack else []

    def entries(self, number):
        """How many entries the board's journal has, by the reference."""
        boards = self.known()
        return len(boards[number - 1].listing()) if number <= len(boards) else 0

    def listing(self, number):
        """A journal with room just enough, one short or any; at times of a board that there is not."""
        count = self.entries(number)
        room = self.pick(count, count, count, count - 1, count - 1, count + 1, 0, FULL - 1, FULL, FULL, FULL + 1, 256, 65536,
                         LARGEST - 1, LARGEST)
        if self.chance(0.08):
            number = self.pick(0, len(self.boards) + 1, 17, 128 + number, 256 + number, LARGEST)
        self.words("L", [number, max(0, room)])

    def odd_listing(self):
        """A listing with a field too few or too many, or with one that is no number or too large for one."""
        number = self.number()
        self.put(self.pick(
            "L", "L ", f"L {number}", f"L {number} ", f"L {number} 128 ", f"L {number} 128 0", f"L  {number} 128", f"L {number}  128",
            f"L 0{number} 128", f"L {number} 0128", f"L {number} 00", f"L {number} -0", f"L {number} -1", f"L -{number} 128",
            f"L {number} +1", f"L {number} x", f"L s{number} 128", f"L{number} 128", f"L@128 {number}", f"L {number}@128",
            f"l {number} 128", f"L {number} {LARGEST + 1}", f"L {number} {2**32 + 128}", f"L {number} {2**64 + 128}",
            f"L {LARGEST + 1} 128", f"L {2**32 + number} 128", "L" + " 1" * 200))

    def quick(self, aim):
        """The faults of a board that latch and let go at one sample, or at two on a garden board."""
        if aim.kind == GARDEN:
            return aim.faults if aim.trigger <= 2 else ()
        return [fault for fault in aim.faults if self.delay(aim, fault) == 0]

    def flood(self):
        """Latchings until a journal is full or over, on one board; listings about there."""
        kinds = {}
        for number, aim in enumerate(self.boards, 1):
            if self.quick(aim):
                kinds.setdefault(aim.kind, []).append(number)
        if not kinds:
            return
        number = self.rng.choice(self.rng.choice(list(kinds.values())))
        aim, left = self.boards[number - 1], self.pick(-2, -1, 0, 1, 1, 2, 5, FULL - 1, FULL, FULL + 1) + FULL - self.entries(number)
        while left > 0:
            faults = self.rng.sample(self.quick(aim), self.pick(*range(1, len(self.quick(aim)) + 1), len(self.quick(aim))))
            self.trip(number, faults)
            left -= len(faults)
            if left < 3 or self.chance(0.01):
                self.listing(number)
            if self.chance(self.breaks * 0.2):
                self.pick(self.refused_sample, self.program, self.stage, self.tallies, self.listing)(number)
        for _ in range(self.pick(1, 2, 3)):
            self.listing(number)

    def trips(self, number):
        """What latched over and over is listed."""
        super().trips(number)
        self.listing(number)

    def joining(self, number):
        """The cell that stood first is listed."""
        super().joining(number)
        self.listing(number)

    def program(self, number):
        """A programming leaves the journal."""
        super().program(number)
        if self.chance(0.1):
            self.listing(number)

    def bare(self):
        """Listings and recordings before an opening too."""
        if self.chance(0.5):
            self.put(f"L {self.pick(0, 1, 1, 2, 17)} {self.pick(0, 1, FULL, LARGEST)}")
        if self.chance(0.5):
            self.put(self.pick("D", "W 0", "W 46", f"W {LARGEST}"))
        super().bare()
        if self.chance(0.5):
            self.listing(self.number())
        if self.chance(0.5):
            self.show()

    # -- the fault line alone

    def put(self, line):
        """Behind a question stands a reading, also where the question is a damaged line."""
        super().put(line)
        if b"U" in self.lines[-1].split(b"\n"):
            super().put("R")

    def reading(self):
        """A reading, mostly with a question before it."""
        for letter in self.pick("R", "U", "U", "RU"):
            self.put(letter)

    def odd_question(self):
        """A question with something beside it."""
        self.put(self.pick("U ", " U", "u", "UU", "U U", "U 0", "U 1", f"U {self.number()} 128", "U1", "U -0", "U@4", "U s5", "U R", "RU",
                           "UR", "U\r", "U\t", "U\0", "up", "U" * 200, "U" * 300))

    def latched(self):
        """The numbers of the boards with a latch, by the reference."""
        return [number for number, board in enumerate(self.known(), 1) if board.record().latched]

    def latch(self, number):
        """Latch some faults of a board that latch soon."""
        aim = self.boards[number - 1]
        faults = self.quick(aim) or aim.faults
        some = self.rng.sample(faults, min(len(faults), self.pick(1, 1, 2)))
        held, _ = self.tripped(aim, some)
        for elapsed in self.past_delays(aim, some):
            self.sample(number, elapsed, held)

    def quiet(self, numbers):
        """Let every latch of these boards go."""
        for number in numbers:
            _, free = self.tripped(self.boards[number - 1], ())
            self.relieve(number, free)

    def firsts(self):
        """The first latch of a row at one place after another, or at none; at times of a new row of any length.

        The boards north of the place keep what they have.
        """
        noise, self.noise = self.noise, 0
        if self.chance(0.6):
            plans = [self.plan(self.rng.randint(5, 10), 0.4, 0.3) for _ in range(self.rng.randint(1, 16))]
            self.open_row([plan._replace(trigger=min(plan.trigger, self.pick(1, 2, 3))) for plan in plans])
        count = len(self.boards)
        places = range(1, count + 2)        # the last is none
        for place in self.rng.sample(places, min(len(places), self.pick(1, 2, 3, 5))):
            latched = self.latched()
            self.quiet(number for number in latched if number < place)
            if place <= count and place not in latched:
                self.latch(place)
            self.put("U")
        self.noise = noise

    def outlived(self, number):
        """A flag that outlives its latch on a host board, with no latch south of it: cleared under the level, where the flag stays."""
        aim, latched = self.boards[number - 1], self.latched()
        if self.delay(aim, "OV") > QUICK_US:
            return
        held, _ = self.tripped(aim, ("OV",))
        self.quiet(one for one in latched if one < number)
        for elapsed in self.past_delays(aim, ("OV",)):
            self.sample(number, elapsed, held)
        below = self.pick(aim.settings.ov_level - 1, aim.settings.ov_level - 1, aim.settings.ov_release)
        self.sample(number, self.elapsed(), dict(held, cells=[min(mv, below) for mv in held["cells"]]))
        self.write(number, 1, 1 | self.switches())
        self.write(number, 1, self.switches())
        self.put("U")

    # -- recordings

    def room(self):
        """Any room for a recording, about its header above all."""
        head = header(len(self.boards))
        return self.pick(head - 1, head - 1, head, head, head + 1, 0, 8, 46, MOST_RECORDED, LARGEST)

    def begin(self):
        """A recording of the day just opened, at times anew after others; `settle` chooses its room."""
        for _ in range(self.pick(0, 0, 0, 1, 2)):
            self.words("W", [self.room()])
            self.pick(self.show, self.refused_opening, self.odd_recording)()
        self.begun = len(self.lines)
        self.words("W", [self.pick(MOST_RECORDED, MOST_RECORDED + 1, LARGEST)])
        self.known()
        self.day = self.reference.recording
        if self.chance(0.2):
            self.show()

    def settle(self):
        """Show the recording that ends here. Its room is mostly cut to the end of one of its acts, an early one above all."""
        if self.begun is None:
            return
        self.show()
        self.known()
        ends = list(accumulate(map(len, self.day.acts), initial=header(len(self.day.plans))))
        if self.chance(0.9):
            end = self.rng.choice(ends[:self.pick(3, 10, 30, len(ends))])
            self.lines[self.begun] = b"W %d" % (end + self.pick(-1, -1, 0, 0, 0, 1))
        self.begun = None

    def show(self):
        """The recording, if there is one."""
        self.put("D")

    def late(self):
        """Mostly too late for a recording, which a refused opening does not change."""
        if self.chance(0.3):
            self.refused_opening()
        self.words("W", [self.room()])
        if self.chance(0.3):
            self.show()

    def odd_recording(self):
        """A room that is no number or too large for one, or something beside a line."""
        self.put(self.pick("W", "W ", " W 46", "W  46", "W 46 ", "W 46 0", "W46", "W 046", "W 00", "W -0", "W -1", "W +46", "W x", "W s5",
                           "W@46", "w 46", "WW 46", "W 46\r", "W 46\0", f"W {LARGEST + 1}", f"W {2**32 + 46}", f"W {2**64 + 46}",
                           "D ", " D", "d", "DD", "D D", "D 0", "D 46", "D0", "D@4", "D\r", "D\0", "WD", "rec 0", "hex 00"))

    def wide(self):
        """A sample or a frame with the last number or length that a recording has bytes for, or one past it."""
        number, elapsed = self.number(), self.elapsed()
        fields, what = self.calm(self.boards[number - 1]), self.rng.randrange(7)
        if what == 0:
            number = self.pick(255, 255, 256, 256, 256 + number)
        elif what == 1:
            fields["load"] = self.pick(255, 255, 256, 256, 257)
        elif what == 2:
            fields["thermistor"] = self.pick(65535, 65535, 65536, 65536, 67536)
        elif what == 3:
            fields["cells"][self.rng.randrange(len(fields["cells"]))] = self.pick(65535, 65535, 65536, 65536, 69536)
        elif what == 4:
            fields["cells"] = [self.pick(0, 4000, 5000)] * self.pick(120, 121, 121, 122, 122, 123, 128)
        elif what == 5:
            fields["shunt"] = self.pick(-LARGEST, LARGEST, -500000, 500000, -65536, -256, -1)
        else:
            self.long_frame(self.pick(254, 255, 255, 256, 256, 257))
            return
        self.sample_line(number, elapsed, fields)

    def long_frame(self, size):
        """A frame of so many bytes, which no board takes where they are four either."""
        Maker.words(self, self.pick("F", "F", "F@4", "F@9"), ([0] + [self.rng.randrange(256) for _ in range(size)])[:size])

    def short_day(self):
        """A row opened anew, recorded from its first act on: a few acts of every kind."""
        self.open_row([self.plan(self.rng.randint(5, 10), 0.4, 0) for _ in range(self.pick(1, 1, 2, 3, 16))], 1)
        for _ in range(self.rng.randint(1, 12)):
            number = self.number()
            aim = self.boards[number - 1]
            self.pick(lambda: self.sample(number, self.elapsed(), self.calm(aim)), lambda: self.latch(number),
                      lambda: self.refused_sample(number), lambda: self.read(number), lambda: self.stage(number),
                      lambda: self.program(number), lambda: self.listing(number), self.reading, self.reading, self.odd_frame,
                      self.short_room, self.wide, self.wide, self.refused_opening, self.late, self.show)()

    def left(self):
        """How many bytes the recording could still take."""
        self.known()
        return MOST_RECORDED - len(self.day.memory())

    def long_day(self):
        """A row opened anew, with long acts until a recording of it is full; the last one takes what is left, or a byte more or less."""
        self.open_row([self.plan(self.rng.randint(5, 10), 0.4, 0) for _ in range(self.pick(1, 2, 16))], 1)
        self.begun = None           # its room stays
        while self.left() > LONGEST_BODY + 3:
            self.pick(self.wide, self.reading, lambda: self.long_frame(LONGEST_BODY), lambda: self.long_frame(LONGEST_BODY),
                      lambda: self.long_frame(LONGEST_BODY), lambda: self.long_frame(LONGEST_BODY))()
        # beside its bytes a refused frame has a kind, a length and a number
        self.long_frame(max(0, self.left() - 3 + self.pick(-1, 0, 0, 1, 1, 1)))
        self.show()
        for _ in range(3):
            self.pick(self.wide, self.reading, lambda: self.long_frame(0), self.late)()
        self.show()

    # -- the workshop's own

    def short_room(self):
        """A frame with too few bytes lent, of the right length or not."""
        number = self.number()
        address, register = 2 * number + self.pick(0, 1), self.pick(0, 6, 11, 12, 16)
        data = [address, register, self.pick(0, 0x41, 9), self.rng.randrange(256)]
        if self.chance(0.7):
            data[3] = crc8(data[:3])
        data = data + [0] * 5 if self.chance(0.3) else data
        room = self.pick(0, 1, 2, 3, 3, 3)
        Maker.words(self, f"F@{room}", data[:self.pick(4, 4, 4, 3, 5, 0)])

    def odd_room(self):
        """A room that is no number, or too large for one."""
        word = self.pick("", "04", "00", "-4", "-0", "+4", " 4", "4 ", "@4", "4@", "x", "0x4", "4.0", LARGEST + 1,
                         2**32 + 4, 2**64 + 4, 10**30, LARGEST)
        self.put(f"F@{word} 2 0 0 214")

    def long_list(self):
        """More cells, bytes, counts or boards than the bench would read."""
        size = self.pick(11, 16, 17, 18, 100, 101, 121, 122, 255, 256, 1000)
        what = self.rng.randrange(6)
        if what == 0:
            self.put(f"S {self.number()} 1000 0 2000 0" + " 4000" * size)
        elif what == 1:
            self.put(f"S {self.number()} 1000 0 2000 0" + " 4000" * (size - 1) + self.pick(" 04000", " -1", "  1", f" {LARGEST + 1}", ""))
        elif what == 2:
            Maker.words(self, self.pick("F", "F@4", "F@3", "F@0"), [self.rng.randrange(256) for _ in range(size)])
        elif what == 3:
            self.put("F" + " 255" * (size - 1) + self.pick(" 256", " 255", " 0255", " -1", " "))
        elif what == 4 and size > 16:
            self.put("O" + f" {self.pick(5, 10)}" * size)
        elif size > 16:
            self.put("X" + self.pick(" s5", " s10", " h5", " h10", " g3/0/1", " g5/2/255") * size)

    def odd_boards(self):
        """Boards that are not of their form, or that cannot be opened."""
        counts = [self.rng.randint(5, 10) for _ in range(self.pick(0, 1, 2, 15, 16, 17))]
        words = self.named(counts)
        odd = self.pick("s", "5", "S5", "s05", "s-5", "s+5", "s 5", "ss5", "s5s", "s5/", "s5/0", "s5/0/1", "/5", "q5",
                        "h", "H5", "h05", "h-5", "h 5", "hh5", "sh5", "h5s", "h5/0", "h5/0/1", f"h{LARGEST + 1}", f"h{2**32 + 5}",
                        "s5,s5", f"s{LARGEST + 1}", f"s{2**32 + 5}", "s5\r", "s\t5", "s5\0",
                        "g", "g3", "g3/", "g3/0", "g3/0/", "g/0/2", "g3//2", "G3/0/2", "g03/0/2", "g3/00/2", "g3/0/02", "g-3/0/2",
                        "g3/-0/2", "g3/0/+2", "g3/0/2/", "g3/0/2/1", "g3 /0/2", "g3/ 0/2", "gg3/0/2", "sg3/0/2", "g3/0/2s5", "3/0/2",
                        f"g{LARGEST + 1}/0/2", f"g{2**32 + 3}/0/2", f"g3/{LARGEST + 1}/2", f"g3/{2**32}/2", f"g3/0/{LARGEST + 1}",
                        f"g3/0/{2**32 + 2}")
        bad = self.pick("s4", "s11", "s0", "s1", "s261", f"s{LARGEST}", "s65541",
                        "h4", "h11", "h0", "h5000", "h261", "h517", f"h{LARGEST}", "h65541",
                        "s3", "h3", "g2/0/2", "g6/0/2", "g0/0/2", "g10/0/2", "g259/0/2", f"g{LARGEST}/0/2", "g3/3/2", "g3/4/2", "g3/256/2",
                        "g3/65536/2", f"g3/{LARGEST}/2", "g3/0/0", "g3/0/256", "g3/0/257", "g3/0/65537", f"g3/0/{LARGEST}", "g2/3/0")
        words.insert(self.pick(0, len(words)), self.pick(odd, odd, bad))
        self.put(" ".join(["X"] + words))

    def later(self):
        """A form that no request has brought yet."""
        self.put_unless_opening(self.pick(*LATER).encode())

    def huge_line(self):
        """A line of about as many bytes as a line may have, well formed but for that."""
        self.put(self.huge(LONGEST_LINE + self.pick(-1, 0, 0, 1, 1, 2, 65536)))

    def huge(self, size):
        """A well-formed line of so many bytes that opens nothing."""
        head, field, longer = self.pick((b"O", b" 5", b" 10"), (b"X", b" s5", b" s10"), (b"X", b" h5", b" h10"),
                                        (b"X", b" g3/0/1", b" g3/0/10"), (b"F", b" 1", b" 10"), (b"F@3", b" 25", b" 255"),
                                        (b"S 1 1000 0 2000 0", b" 4000", b" 40000"))
        count, more = divmod(size - len(head), len(field))
        return head + field * (count - more) + longer * more

    def desk(self):
        """One of the workshop's own scenarios."""
        self.rng.choices(
            (self.hosted, self.grown, self.short_room, self.odd_room, self.long_list, self.odd_boards, self.later, self.refused_opening,
             lambda: self.listing(self.number()), lambda: self.joining(self.number()), self.odd_listing, self.firsts, self.odd_question,
             self.short_day, self.wide, self.late, self.show, self.odd_recording, self.huge_line),
            (14, 18, 8, 4, 6, 8, 3, 2, 12, 6, 4, 6, 3, 14, 6, 3, 4, 3, 0.06))[0]()

    def play(self, length):
        """The last recording of a session ends with it."""
        super().play(length)
        self.settle()

    def scenario(self):
        """The bench's scenarios, and the workshop's own among them."""
        if self.chance(FLOODS):
            self.flood()
        elif self.chance(LONG_DAYS):
            self.long_day()
        elif self.chance(0.3):
            self.desk()
        else:
            super().scenario()

    def interrupt(self, number):
        """Something between two samples of a stretch."""
        if self.chance(0.3):
            self.desk()
        else:
            super().interrupt(number)

    def long_line(self, size):
        """As long as the bench's longest, or at times as the workshop's."""
        if self.chance(0.02):
            self.huge_line()
        else:
            super().long_line(size)
