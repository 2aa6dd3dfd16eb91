#!/usr/bin/env python3
"""Self test of the reference: every expected answer was worked out by hand.

A session is text, one act a line: `input -> answer`. A leading `5: ` repeats
the act with the same answer. A `*` stands for a check byte, which is worked
out here by long division, not by the reference. `{a}` names a list of cells.
A `|` parts the lines of an answer that has several.
"""

import itertools
import sys

sys.dont_write_bytecode = True

from reference import (GARDEN, HOST, STAND_ALONE, Bench, Board, Plan, Refusal, Sample, Settings, Stack,  # noqa: E402
                       count, crc8, first_record, inside, journal, past, sample_number, stand_alone, tally)

FAILED = []


def expect(name, wanted, got):
    """Note a difference."""
    if wanted != got:
        FAILED.append(name)
        print(f"{name}: wanted {wanted!r}, got {got!r}")


def long_division(data):
    """Remainder of data * x^8 by x^8 + x^2 + x + 1, over the whole number."""
    rest = int.from_bytes(bytes(data), "big") << 8
    while rest.bit_length() > 8:
        rest ^= 0b100000111 << (rest.bit_length() - 9)
    return rest


def fill_check(text):
    """Put the check byte in place of a closing star."""
    if not text.endswith(" *"):
        return text
    head = text[:-2]
    return f"{head} {long_division([int(word) for word in head.split()[1:]])}"


def replayed(board):
    """A board of the same history, which it goes over afresh from the start."""
    fresh = Board(board.plan)
    fresh.history = board.history
    return fresh


def check_replay(name, bench):
    """What was kept on the way must be what the whole history gives."""
    for board in bench.stack.boards if bench.stack else ():
        again = replayed(board)
        kept, fresh = vars(board.record()), vars(again.record())
        for key in kept.keys() - {"settings"}:
            expect(f"{name}, {key} gone over afresh", fresh[key], kept[key])
        expect(f"{name}, latchings gone over afresh", again.latchings, board.latchings)


def session(name, text, program=Bench, **cells):
    """Run one session and compare it line by line."""
    bench = program()
    for row in text.strip().splitlines():
        row = row.strip().format(**cells)
        times, colon, rest = row.partition(": ")
        times, rest = (int(times), rest) if colon else (1, row)
        line, answer = rest.split("->")
        line, wanted = fill_check(line.strip()), "\n".join(fill_check(part.strip()) for part in answer.split("|"))
        for turn in range(times):
            got = bench.answer(line.encode()).decode()
            expect(f"{name}, {line}, turn {turn + 1}", wanted, got)
    check_replay(name, bench)


def paper_session():
    """01, The bench program."""
    given = b"""O 5
S 1 1000 0 2000 0 4000 4000 4000 4000 4000
F 2 0 0 214
S 1 1000 1 2000 60001 4000 4000 4000 4000 4000
R
S 1 20000 0 2000 0 4000 4000 4000 4000 4000
"""
    printed = b"""ok
st 192 bal 0
re 2 0 192 152
st 1 bal 0
ln 1 chg 0 dsg 0 at 0 0
st 192 bal 0
"""
    expect("the paper's session", printed, Bench().answers(given))
    expect("the same without its last newline", printed, Bench().answers(given[:-1]))


def crc_values():
    """01, What the acceptance reads: published check values and some by hand."""
    expect("CRC-8/SMBUS check value", 0xF4, crc8(b"123456789"))
    expect("the long division", 0xF4, long_division(b"123456789"))
    # one bit alone gives the powers of x modulo the polynomial
    powers = (0x07, 0x0E, 0x1C, 0x38, 0x70, 0xE0, 0xC7, 0x89)
    for place, power in enumerate(powers):
        expect(f"bit {place}", power, crc8([0, 0, 1 << place]))
    for data, check in (([], 0), ([0, 0, 0], 0), ([2, 0, 0], 214), ([2, 0, 192], 152),
                        ([3, 11, 65], 234), ([3, 11, 0], 42), ([3, 11, 1], 45),
                        ([2, 6, 0], 168), ([3, 6, 7], 214)):
        expect(f"check of {data}", check, crc8(data))


FIVE = {
    "calm": "4000 4000 4000 4000 4000",
    "one": "4151 4000 4000 4000 4000",
    "two": "4000 4151 4000 4000 4000",
    "both": "4151 4151 4000 4000 4000",
}


def marked_cases():
    """01, Both sides of the line: M1 to M12."""
    session("M1, M3, M4", """
        O 5 -> ok
        6: S 1 100000 0 2000 0 {one} -> st 192 bal 0
        S 1 100000 0 2000 0 {one} -> st 68 bal 1
        3: S 1 100000 0 2000 0 4050 4050 4050 4050 4050 -> st 68 bal 1
        S 1 100000 0 2000 0 4049 4049 4049 4049 4050 -> st 68 bal 0
        S 1 100000 0 2000 0 4049 4049 4049 4049 4049 -> st 192 bal 0
        """, **FIVE)
    session("M2", """
        O 5 -> ok
        40: S 1 100000 0 2000 0 4150 4150 4150 4150 4150 -> st 192 bal 0
        """)
    session("M5", """
        O 5 -> ok
        F 3 7 56 * -> re 3 7 56 *
        F 3 11 65 * -> re 3 11 1 *
        S 1 1 0 2000 0 2200 2200 2200 2200 2200 -> st 192 bal 0
        S 1 1 0 2000 0 2200 2200 2199 2200 2200 -> st 136 bal 0
        S 1 1 0 2000 0 3300 3300 3300 3300 3300 -> st 136 bal 0
        S 1 1 0 2000 0 3301 3301 3301 3301 3300 -> st 136 bal 0
        S 1 1 0 2000 0 3301 3301 3301 3301 3301 -> st 192 bal 0
        """)
    session("M6", """
        O 5 -> ok
        S 1 1 0 2000 0 1400 1400 1400 1400 1400 -> st 192 bal 0
        S 1 1 0 2000 0 1400 1400 1400 1400 1399 -> st 136 bal 0
        S 1 1 0 2000 0 1600 1600 1600 1600 1600 -> st 136 bal 0
        S 1 1 0 2000 0 1601 1601 1601 1601 1601 -> st 192 bal 0
        """)
    session("M7", """
        O 5 -> ok
        F 3 8 15 * -> re 3 8 15 *
        F 3 11 65 * -> re 3 11 1 *
        4: S 1 100000 0 2000 10001 {calm} -> st 192 bal 0
        S 1 20000 0 2000 10001 {calm} -> st 192 bal 0
        S 1 1 0 2000 10001 {calm} -> st 2 bal 0
        """, **FIVE)
    session("M8", """
        O 5 -> ok
        F 3 8 16 * -> re 3 8 16 *
        F 3 11 65 * -> re 3 11 1 *
        2: S 1 100000 0 2000 10001 {calm} -> st 192 bal 0
        S 1 1 0 2000 10001 {calm} -> st 2 bal 0
        """, **FIVE)
    session("M9", """
        O 5 -> ok
        F 3 8 31 * -> re 3 8 31 *
        F 3 11 65 * -> re 3 11 1 *
        17: S 1 100000 0 2000 10001 {calm} -> st 192 bal 0
        S 1 1 0 2000 10001 {calm} -> st 2 bal 0
        """, **FIVE)
    session("M10", """
        O 5 -> ok
        30: S 1 100000 1 2000 -60001 {calm} -> st 192 bal 0
        30: S 1 100000 0 2000 -500000 {calm} -> st 192 bal 0
        """, **FIVE)
    session("M11", """
        O 5 -> ok
        S 1 100000 1 2000 60000 {calm} -> st 192 bal 0
        S 1 20000 1 2000 60000 {calm} -> st 192 bal 0
        S 1 1 1 2000 60000 {calm} -> st 2 bal 0
        S 1 1 1 2000 60001 {calm} -> st 3 bal 0
        """, **FIVE)
    session("M12", """
        O 8 -> ok
        6: S 1 100000 0 2000 0 {high} -> st 192 bal 0
        S 1 100000 0 2000 0 {high} -> st 68 bal 132
        R -> ln 1 chg 0 dsg 1 at 1 3
        """, high="4000 4000 4151 4000 4000 4000 4151 4151")


def run_cases():
    """01, When a fault latches, and Errors a good mechanic would make."""
    session("a refused sample neither counts nor breaks a stretch", """
        O 5 -> ok
        3: S 1 100000 0 2000 0 {one} -> st 192 bal 0
        S 1 100000 0 2000 0 4151 5001 4000 4000 4000 -> no 5
        S 1 0 0 2000 0 {calm} -> no 4
        S 1 100000 0 2000 0 4000 4000 4000 4000 -> no 3
        S 1 100000 2 2000 0 {calm} -> no 5
        3: S 1 100000 0 2000 0 {one} -> st 192 bal 0
        S 1 100000 0 2000 0 {one} -> st 68 bal 1
        """, **FIVE)
    session("the last microsecond", """
        O 5 -> ok
        5: S 1 100000 0 2000 0 {one} -> st 192 bal 0
        S 1 99999 0 2000 0 {one} -> st 192 bal 0
        S 1 1 0 2000 0 {one} -> st 192 bal 0
        S 1 1 0 2000 0 {one} -> st 68 bal 1
        """, **FIVE)
    session("one sample at the level breaks the stretch", """
        O 5 -> ok
        6: S 1 100000 0 2000 0 {one} -> st 192 bal 0
        S 1 100000 0 2000 0 4150 4000 4000 4000 4000 -> st 192 bal 0
        6: S 1 100000 0 2000 0 {one} -> st 192 bal 0
        S 1 100000 0 2000 0 {one} -> st 68 bal 1
        """, **FIVE)
    session("two cells take turns", """
        O 5 -> ok
        6: S 1 100000 0 2000 0 {one} -> st 192 bal 0
        6: S 1 100000 0 2000 0 {two} -> st 192 bal 0
        6: S 1 100000 0 2000 0 {one} -> st 192 bal 0
        6: S 1 100000 0 2000 0 {two} -> st 192 bal 0
        """, **FIVE)
    session("two cells overlap: the second has its own run", """
        O 5 -> ok
        5: S 1 100000 0 2000 0 {one} -> st 192 bal 0
        S 1 100000 0 2000 0 {both} -> st 192 bal 0
        5: S 1 100000 0 2000 0 {two} -> st 192 bal 0
        S 1 100000 0 2000 0 {two} -> st 68 bal 2
        """, **FIVE)
    session("a run goes on while its fault is latched", """
        O 5 -> ok
        3: S 1 100000 0 2000 0 {one} -> st 192 bal 0
        3: S 1 100000 0 2000 0 {both} -> st 192 bal 0
        3: S 1 100000 0 2000 0 {both} -> st 68 bal 1
        S 1 100000 0 2000 0 {both} -> st 68 bal 2
        R -> ln 1 chg 0 dsg 1 at 1 1
        S 1 100000 0 2000 0 4049 4100 4000 4000 4000 -> st 68 bal 2
        R -> ln 1 chg 0 dsg 1 at 1 2
        """, **FIVE)
    session("a stack of two: another board's samples are not in the stretch", """
        O 5 5 -> ok
        6: S 1 100000 0 2000 0 {one} -> st 192 bal 0
        5: S 2 100000 0 2000 0 {calm} -> st 192 bal 0
        S 1 100000 0 2000 0 {one} -> st 68 bal 1
        6: S 2 100000 0 2000 0 {one} -> st 192 bal 0
        S 2 100000 0 2000 0 {one} -> st 68 bal 1
        R -> ln 1 chg 0 dsg 1 at 1 1
        """, **FIVE)
    session("programming unlike sets starts every run over", """
        O 5 -> ok
        6: S 1 100000 0 2000 0 {one} -> st 192 bal 0
        F 3 10 1 * -> re 3 10 1 *
        F 3 11 65 * -> re 3 11 1 *
        6: S 1 100000 0 2000 0 {one} -> st 192 bal 0
        S 1 100000 0 2000 0 {one} -> st 68 bal 1
        """, **FIVE)
    session("programming equal sets starts nothing over", """
        O 5 -> ok
        6: S 1 100000 0 2000 0 {one} -> st 192 bal 0
        F 3 11 65 234 -> re 3 11 0 42
        S 1 100000 0 2000 0 {one} -> st 68 bal 1
        """, **FIVE)
    session("staging alone starts nothing over and changes no level", """
        O 5 -> ok
        6: S 1 100000 0 2000 0 {one} -> st 192 bal 0
        F 3 6 255 * -> re 3 6 255 *
        S 1 100000 0 2000 0 {one} -> st 68 bal 1
        """, **FIVE)


OV_LEVELS = (4150, 4200, 4250, 4300, 4350, 4400, 4450, 4500)
OV_DELAYS_MS = (500, 750, 1000, 1250, 1500, 1750, 2000, 2250)
OV_STEPS = (100, 200, 300, 0)
UV_LEVELS = (1400, 1500, 1600, 1700, 1800, 1900, 2000, 2100,
             2200, 2300, 2400, 2500, 2600, 2700, 2800, 2900)
# one row for each hysteresis code
UV_RELEASES = (
    (1600, 1700, 1800, 1900, 2000, 2100, 2200, 2300,
     2400, 2500, 2600, 2700, 2800, 2900, 3000, 3100),
    (1800, 1900, 2000, 2100, 2200, 2300, 2400, 2500,
     2600, 2700, 2800, 2900, 3000, 3100, 3200, 3300),
    (2200, 2300, 2400, 2500, 2600, 2700, 2800, 2900,
     3000, 3100, 3200, 3300, 3300, 3300, 3300, 3300),
    (2600, 2700, 2800, 2900, 3000, 3100, 3200, 3300,
     3300, 3300, 3300, 3300, 3300, 3300, 3300, 3300),
)
UV_DELAYS_MS = (0, 1.25, 2.5, 5, 10, 15, 20, 30,
                1000, 2000, 3000, 4000, 5000, 6000, 7000, 8000)
OCD_DELAYS_MS = (20, 40, 60, 80, 100, 120, 140, 160,
                 180, 200, 220, 240, 260, 280, 300, 320,
                 100, 200, 300, 400, 500, 600, 700, 800,
                 900, 1000, 1100, 1200, 1300, 1400, 1500, 1600)
OCD_LEVELS_MV = (10, 15, 20, 25, 30, 35, 40, 45, 50, 55, 60, 65, 70, 75, 80, 85)
SCD_LEVELS_MV = (60, 65, 70, 75, 80, 85, 90, 95, 100, 105, 110, 115, 120, 125, 130, 135)
SCD_DELAYS_US = (0, 60, 120, 180, 240, 300, 360, 420, 480, 540, 600, 660, 720, 780, 840, 900)


def settings_tables():
    """01, Frames and registers: every byte of every settings register."""
    for byte in range(256):
        high, low = divmod(byte, 16)
        six = Settings((byte, 0, 0, 0, 0))
        expect(f"OV level of {byte}", OV_LEVELS[byte % 8], six.ov_level)
        expect(f"OV release of {byte}",
               OV_LEVELS[byte % 8] - OV_STEPS[byte // 8 % 4], six.ov_release)
        expect(f"OV delay of {byte}", OV_DELAYS_MS[byte // 32] * 1000, six.ov_delay)
        nine = Settings((0, 0, 0, byte, 0))
        expect(f"OCD level of {byte}", OCD_LEVELS_MV[low] * 1000, nine.ocd_level)
        expect(f"UV delay of {byte}", UV_DELAYS_MS[high] * 1000, nine.uv_delay)
        ten = Settings((0, 0, 0, 0, byte))
        expect(f"SCD level of {byte}", SCD_LEVELS_MV[low] * 1000, ten.scd_level)
        expect(f"SCD delay of {byte}", SCD_DELAYS_US[high], ten.scd_delay)
        if high < 4:
            seven = Settings((0, byte, 0, 0, 0))
            expect(f"UV level of {byte}", UV_LEVELS[low], seven.uv_level)
            expect(f"UV release of {byte}", UV_RELEASES[high][low], seven.uv_release)
        if byte < 32:
            eight = Settings((0, 0, byte, 0, 0))
            expect(f"OCD delay of {byte}", OCD_DELAYS_MS[byte] * 1000, eight.ocd_delay)


def fault_cases():
    """01, the fault table."""
    session("hysteresis of 0: a cell at the level leaves everything as it was", """
        O 5 -> ok
        F 3 6 24 * -> re 3 6 24 *
        F 3 11 65 * -> re 3 11 1 *
        6: S 1 100000 0 2000 0 {one} -> st 192 bal 0
        S 1 100000 0 2000 0 {one} -> st 68 bal 1
        9: S 1 100000 0 2000 0 4150 4150 4150 4150 4150 -> st 68 bal 1
        S 1 100000 0 2000 0 4149 4149 4149 4149 4149 -> st 192 bal 0
        """, **FIVE)
    session("OV byte 255: level 4500, delay 2250 ms", """
        O 5 -> ok
        F 3 6 255 * -> re 3 6 255 *
        F 3 11 65 * -> re 3 11 1 *
        30: S 1 100000 0 2000 0 4500 4500 4500 4500 4500 -> st 192 bal 0
        23: S 1 100000 0 2000 0 4000 4501 4000 4000 4000 -> st 192 bal 0
        S 1 50000 0 2000 0 4000 4501 4000 4000 4000 -> st 192 bal 0
        S 1 1 0 2000 0 4000 4501 4000 4000 4000 -> st 68 bal 2
        """, **FIVE)
    session("OV byte 17: level 4200, hysteresis 300", """
        O 5 -> ok
        F 3 6 17 * -> re 3 6 17 *
        F 3 11 65 * -> re 3 11 1 *
        6: S 1 100000 0 2000 0 4201 3800 3800 3800 3800 -> st 192 bal 0
        S 1 100000 0 2000 0 4201 3800 3800 3800 3800 -> st 68 bal 1
        S 1 100000 0 2000 0 3900 3800 3800 3800 3800 -> st 68 bal 1
        S 1 100000 0 2000 0 3899 3900 3899 3899 3899 -> st 68 bal 0
        S 1 100000 0 2000 0 3899 3899 3899 3899 3899 -> st 192 bal 0
        """)
    session("UV delay 1.25 ms", """
        O 5 -> ok
        F 3 9 16 * -> re 3 9 16 *
        F 3 11 65 * -> re 3 11 1 *
        S 1 100000 0 2000 0 4000 0 4000 4000 4000 -> st 192 bal 0
        S 1 1250 0 2000 0 4000 0 4000 4000 4000 -> st 192 bal 0
        S 1 1 0 2000 0 4000 0 4000 4000 4000 -> st 136 bal 0
        """)
    session("UV cells take turns", """
        O 5 -> ok
        F 3 9 16 * -> re 3 9 16 *
        F 3 11 65 * -> re 3 11 1 *
        S 1 1000 0 2000 0 4000 0 4000 4000 4000 -> st 192 bal 0
        S 1 1250 0 2000 0 4000 0 4000 4000 4000 -> st 192 bal 0
        S 1 1000 0 2000 0 4000 4000 0 4000 4000 -> st 192 bal 0
        S 1 1250 0 2000 0 4000 4000 0 4000 4000 -> st 192 bal 0
        S 1 1250 0 2000 0 4000 0 4000 4000 4000 -> st 192 bal 0
        """)
    session("UV delay 8 s and OCD level 85 mV, SCD level 135 mV after 900 us", """
        O 5 -> ok
        F 3 9 255 * -> re 3 9 255 *
        F 3 10 255 * -> re 3 10 255 *
        F 3 11 65 * -> re 3 11 1 *
        81: S 1 100000 0 2000 85000 4000 0 4000 4000 4000 -> st 192 bal 0
        S 1 1 0 2000 85000 4000 0 4000 4000 4000 -> st 136 bal 0
        S 1 1 0 2000 135001 {calm} -> st 192 bal 0
        S 1 900 0 2000 135001 {calm} -> st 192 bal 0
        S 1 1 0 2000 135001 {calm} -> st 1 bal 0
        S 1 19098 0 2000 135001 {calm} -> st 1 bal 0
        S 1 1 0 2000 135001 {calm} -> st 1 bal 0
        S 1 1 0 2000 135001 {calm} -> st 3 bal 0
        S 1 1 0 2000 85001 {calm} -> st 2 bal 0
        S 1 1 0 2000 85000 {calm} -> st 192 bal 0
        """, **FIVE)
    # runs of 0, 60 and 61 us; at the factory's byte again the delay is zero, and a run of 0 is enough
    session("SCD delay of 60 us, and none", """
        O 5 -> ok
        F 3 10 16 * -> re 3 10 16 *
        F 3 11 65 * -> re 3 11 1 *
        S 1 100000 0 2000 60001 {calm} -> st 192 bal 0
        S 1 60 0 2000 60001 {calm} -> st 192 bal 0
        S 1 1 0 2000 60001 {calm} -> st 1 bal 0
        S 1 1 0 2000 10000 {calm} -> st 192 bal 0
        F 3 10 0 * -> re 3 10 0 *
        F 3 11 65 * -> re 3 11 2 *
        S 1 1 0 2000 60001 {calm} -> st 1 bal 0
        """, **FIVE)
    session("the load holds a current fault", """
        O 5 -> ok
        S 1 1 1 2000 500000 {calm} -> st 1 bal 0
        S 1 1 1 2000 0 {calm} -> st 1 bal 0
        S 1 1 0 2000 60001 {calm} -> st 1 bal 0
        S 1 1 0 2000 60000 {calm} -> st 192 bal 0
        S 1 20000 0 2000 60000 {calm} -> st 2 bal 0
        S 1 1 1 2000 10000 {calm} -> st 2 bal 0
        S 1 1 0 2000 10001 {calm} -> st 2 bal 0
        S 1 1 0 2000 10000 {calm} -> st 192 bal 0
        """, **FIVE)
    session("overtemperature", """
        O 5 -> ok
        S 1 1 0 975 0 {calm} -> st 192 bal 0
        2: S 1 1 0 974 0 {calm} -> st 16 bal 0
        2: S 1 1 0 975 0 {calm} -> st 192 bal 0
        S 1 1 0 0 0 {calm} -> st 16 bal 0
        S 1 1 0 5000 0 {calm} -> st 192 bal 0
        """, **FIVE)
    session("all five at once", """
        O 5 -> ok
        6: S 1 0 0 0 0 {calm} -> no 4
        S 1 1 1 0 500000 5000 0 0 0 0 -> st 25 bal 0
        5: S 1 100000 1 0 500000 5000 0 0 0 0 -> st 27 bal 0
        S 1 100000 1 0 500000 5000 0 0 0 0 -> st 31 bal 1
        F 2 0 0 214 -> re 2 0 31 *
        R -> ln 1 chg 0 dsg 0 at 1 1
        S 1 1 0 975 10000 {calm} -> st 192 bal 0
        """, **FIVE)


def bleeding_cases():
    """01, Bleeding and Whole-stack reading; 02, ticket 2: from the top down,
    two others between any two. Five at once give cells 5 and 2, 16 and 2; ten
    give 10, 7, 4 and 1, 512, 64, 8 and 1."""
    session("all five, all ten", """
        O 5 10 -> ok
        6: S 1 100000 0 2000 0 {five} -> st 192 bal 0
        S 1 100000 0 2000 0 {five} -> st 68 bal 18
        6: S 2 100000 0 2000 0 {five} {five} -> st 192 bal 0
        S 2 100000 0 2000 0 {five} {five} -> st 68 bal 585
        """, five="4200 4200 4200 4200 4200")
    # 7 is flagged and not bled, so it shuts nothing out: 8 and 5, 128 and 16
    session("8, 6 and 5; 8, 7, 6 and 5; 6 alone once 8 and 5 let go", """
        O 8 8 -> ok
        6: S 1 100000 0 2000 0 {apart} -> st 192 bal 0
        S 1 100000 0 2000 0 {apart} -> st 68 bal 144
        R -> ln 1 chg 0 dsg 1 at 1 5
        S 1 1 0 2000 0 4000 4000 4000 4000 4000 4151 4000 4000 -> st 68 bal 32
        6: S 2 100000 0 2000 0 {four} -> st 192 bal 0
        S 2 100000 0 2000 0 {four} -> st 68 bal 144
        """, apart="4000 4000 4000 4000 4151 4151 4000 4151",
            four="4000 4000 4000 4000 4151 4151 4151 4151")
    session("southernmost board, lowest flagged cell, line and pack", """
        O 5 6 5 -> ok
        R -> ln 0 chg 1 dsg 1 at 0 0
        S 3 1 0 2000 0 0 4000 4000 4000 4000 -> st 136 bal 0
        R -> ln 1 chg 1 dsg 0 at 0 0
        6: S 3 100000 0 2000 0 4000 4000 4000 4151 4000 -> st 192 bal 0
        S 3 100000 0 2000 0 4000 4000 4000 4151 4000 -> st 68 bal 8
        R -> ln 1 chg 0 dsg 1 at 3 4
        6: S 2 100000 0 2000 0 4000 4000 4000 4000 4151 4151 -> st 192 bal 0
        S 2 100000 0 2000 0 4000 4000 4000 4000 4151 4151 -> st 68 bal 32
        R -> ln 1 chg 0 dsg 1 at 2 5
        S 3 1 0 2000 0 {calm} -> st 192 bal 0
        R -> ln 1 chg 0 dsg 1 at 2 5
        S 2 1 0 974 0 {calm} 4000 -> st 16 bal 0
        R -> ln 1 chg 0 dsg 0 at 0 0
        S 2 1 0 975 0 {calm} 4000 -> st 192 bal 0
        R -> ln 0 chg 1 dsg 1 at 0 0
        """, **FIVE)
    session("latches and flags outlast a programming", """
        O 5 -> ok
        6: S 1 100000 0 2000 0 {one} -> st 192 bal 0
        S 1 100000 0 2000 0 {one} -> st 68 bal 1
        F 3 6 7 214 -> re 3 6 7 214
        F 3 11 65 234 -> re 3 11 1 45
        F 2 0 0 214 -> re 2 0 68 *
        R -> ln 1 chg 0 dsg 1 at 1 1
        S 1 1 0 2000 0 4400 4000 4000 4000 4000 -> st 68 bal 1
        S 1 1 0 2000 0 4399 4000 4000 4000 4000 -> st 192 bal 0
        """, **FIVE)


def frame_cases():
    """01, Frames and registers, and the order of refusals."""
    session("reads give the working byte, writes echo", """
        O 5 -> ok
        F 3 6 7 214 -> re 3 6 7 214
        F 2 6 0 168 -> re 2 6 0 168
        F 2 11 0 * -> re 2 11 0 *
        F 3 11 65 234 -> re 3 11 1 45
        F 2 6 0 168 -> re 2 6 7 *
        F 2 11 0 * -> re 2 11 1 *
        """)
    session("three cycles", """
        O 5 5 -> ok
        F 5 8 4 * -> re 5 8 4 *
        F 5 11 65 * -> re 5 11 1 *
        F 5 8 16 * -> re 5 8 16 *
        F 5 11 65 * -> re 5 11 2 *
        F 5 8 16 * -> re 5 8 16 *
        F 5 11 65 * -> re 5 11 2 *
        F 5 8 0 * -> re 5 8 0 *
        F 5 11 65 * -> re 5 11 3 *
        F 5 11 65 * -> re 5 11 3 *
        F 5 10 9 * -> re 5 10 9 *
        2: F 5 11 65 * -> no 11
        F 4 10 0 * -> re 4 10 0 *
        F 5 10 0 * -> re 5 10 0 *
        F 5 11 65 * -> re 5 11 3 *
        F 4 11 0 * -> re 4 11 3 *
        F 2 11 0 * -> re 2 11 0 *
        """)
    session("order 6, 8, 2, 9, 10", """
        O 5 -> ok
        F -> no 6
        F 2 0 0 -> no 6
        F 2 0 0 214 0 -> no 6
        F 2 0 0 213 -> no 8
        F 200 99 9 0 -> no 8
        F 0 0 0 0 -> no 2
        F 1 11 65 * -> no 2
        F 4 99 1 * -> no 2
        F 255 0 0 * -> no 2
        F 2 12 0 * -> no 9
        F 2 5 7 * -> no 9
        F 3 0 0 * -> no 9
        F 3 0 255 * -> no 9
        F 3 1 65 * -> no 9
        F 2 255 0 * -> no 9
        F 2 0 1 * -> no 10
        F 2 6 255 * -> no 10
        F 2 11 65 * -> no 10
        F 3 7 64 * -> no 10
        F 3 7 128 * -> no 10
        F 3 7 63 * -> re 3 7 63 *
        F 3 8 32 * -> no 10
        F 3 8 31 * -> re 3 8 31 *
        F 3 11 0 42 -> no 10
        F 3 11 64 * -> no 10
        F 3 11 1 45 -> no 10
        F 2 7 0 * -> re 2 7 0 *
        F 2 8 0 * -> re 2 8 0 *
        """)


def crossed_cases():
    """02, ticket 1: the SCD level has to be above the OCD level.

    OCD code 9 is 10 + 45 = 55 mV, 10 is 60, 11 is 65 and 15 is 85; SCD code 0
    is 60 mV, 4 is 80, 5 is 85 and 6 is 90. Bits 7 to 4 of both bytes are delays.
    """
    session("55, 60 and 65 mV under 60", """
        O 5 -> ok
        F 3 9 10 * -> re 3 9 10 *
        F 3 11 65 234 -> no 13
        F 2 9 0 * -> re 2 9 0 *
        F 2 11 0 * -> re 2 11 0 *
        F 3 9 11 * -> re 3 9 11 *
        F 3 11 65 234 -> no 13
        F 2 9 0 * -> re 2 9 0 *
        F 2 11 0 * -> re 2 11 0 *
        F 3 9 9 * -> re 3 9 9 *
        F 3 11 65 234 -> re 3 11 1 *
        F 2 9 0 * -> re 2 9 9 *
        F 2 11 0 * -> re 2 11 1 *
        """)
    session("85 mV under 80, 85 and 90; the delays do not matter", """
        O 5 -> ok
        F 3 9 15 * -> re 3 9 15 *
        F 3 10 244 * -> re 3 10 244 *
        F 3 11 65 234 -> no 13
        F 3 10 245 * -> re 3 10 245 *
        F 3 11 65 234 -> no 13
        F 3 10 6 * -> re 3 10 6 *
        F 3 11 65 234 -> re 3 11 1 *
        """)
    # another value in register 11 is 10, and 13 comes before 11: the fourth differing set is crossed, then only worn
    session("10, 13, 11", """
        O 5 -> ok
        F 3 9 255 * -> re 3 9 255 *
        F 3 11 64 * -> no 10
        F 2 11 65 * -> no 10
        F 3 11 65 234 -> no 13
        F 3 10 15 * -> re 3 10 15 *
        F 3 11 65 234 -> re 3 11 1 *
        F 3 10 14 * -> re 3 10 14 *
        F 3 11 65 234 -> re 3 11 2 *
        F 3 10 13 * -> re 3 10 13 *
        F 3 11 65 234 -> re 3 11 3 *
        F 3 10 5 * -> re 3 10 5 *
        F 3 11 65 234 -> no 13
        F 3 11 66 * -> no 10
        F 3 10 6 * -> re 3 10 6 *
        F 3 11 65 234 -> no 11
        F 3 10 13 * -> re 3 10 13 *
        F 3 11 65 234 -> re 3 11 3 *
        """)
    # six samples of 100 ms behind the first are 600 ms, past the OV delay of 500: no run starts over where 13 was given
    session("13 leaves the runs, and is the named board's alone", """
        O 5 5 -> ok
        3: S 1 100000 0 2000 0 {one} -> st 192 bal 0
        F 3 9 15 * -> re 3 9 15 *
        F 3 11 65 234 -> no 13
        3: S 1 100000 0 2000 0 {one} -> st 192 bal 0
        S 1 100000 0 2000 0 {one} -> st 68 bal 1
        F 5 11 65 * -> re 5 11 0 *
        F 5 6 1 * -> re 5 6 1 *
        F 5 11 65 * -> re 5 11 1 *
        F 3 11 65 234 -> no 13
        """, **FIVE)


# 02, ticket 7: the registers of the tallies
LOW_BYTES, HIGH_BYTES = (16, 17, 18, 19, 20), (24, 25, 26, 27, 28)


def tallied(address, *five):
    """Lines that read the tallies of SCD, OCD, OV, UV and overtemperature, all low bytes before the high ones."""
    bytes_read = [*zip(LOW_BYTES, (number % 256 for number in five)), *zip(HIGH_BYTES, (number // 256 for number in five))]
    return "\n".join(f"F {address} {register} 0 * -> re {address} {register} {byte} *" for register, byte in bytes_read)


def tally_cases():
    """02, ticket 7: up by one where a fault goes from unlatched to latched, and nowhere else."""
    # each fault latches once and stays for some samples; letting go counts nothing, and overtemperature comes back
    session("each fault", f"""
        O 5 -> ok
        {tallied(2, 0, 0, 0, 0, 0)}
        S 1 1 1 2000 60001 {{calm}} -> st 1 bal 0
        {tallied(2, 1, 0, 0, 0, 0)}
        3: S 1 1 1 2000 60001 {{calm}} -> st 1 bal 0
        S 1 1 0 2000 0 {{calm}} -> st 192 bal 0
        {tallied(2, 1, 0, 0, 0, 0)}
        S 1 1 0 2000 10001 {{calm}} -> st 192 bal 0
        S 1 20000 0 2000 10001 {{calm}} -> st 192 bal 0
        {tallied(2, 1, 0, 0, 0, 0)}
        3: S 1 1 0 2000 10001 {{calm}} -> st 2 bal 0
        {tallied(2, 1, 1, 0, 0, 0)}
        S 1 1 0 2000 0 {{calm}} -> st 192 bal 0
        6: S 1 100000 0 2000 0 {{one}} -> st 192 bal 0
        3: S 1 100000 0 2000 0 {{one}} -> st 68 bal 1
        {tallied(2, 1, 1, 1, 0, 0)}
        S 1 1 0 2000 0 {{calm}} -> st 192 bal 0
        3: S 1 1 0 2000 0 4000 4000 1399 4000 4000 -> st 136 bal 0
        {tallied(2, 1, 1, 1, 1, 0)}
        S 1 1 0 2000 0 {{calm}} -> st 192 bal 0
        3: S 1 1 0 974 0 {{calm}} -> st 16 bal 0
        {tallied(2, 1, 1, 1, 1, 1)}
        S 1 1 0 975 0 {{calm}} -> st 192 bal 0
        S 1 1 0 974 0 {{calm}} -> st 16 bal 0
        {tallied(2, 1, 1, 1, 1, 2)}
        """, **FIVE)
    # SCD, UV and overtemperature at once, OCD behind 20 ms, OV behind 500; all let go at one sample, and two come back at one
    session("several in one sample", f"""
        O 5 -> ok
        S 1 1 1 0 500000 5000 0 0 0 0 -> st 25 bal 0
        {tallied(2, 1, 0, 0, 1, 1)}
        S 1 100000 1 0 500000 5000 0 0 0 0 -> st 27 bal 0
        {tallied(2, 1, 1, 0, 1, 1)}
        4: S 1 100000 1 0 500000 5000 0 0 0 0 -> st 27 bal 0
        S 1 100000 1 0 500000 5000 0 0 0 0 -> st 31 bal 1
        {tallied(2, 1, 1, 1, 1, 1)}
        S 1 1 0 975 10000 {{calm}} -> st 192 bal 0
        {tallied(2, 1, 1, 1, 1, 1)}
        S 1 1 0 2000 60001 0 4000 4000 4000 4000 -> st 9 bal 0
        {tallied(2, 2, 1, 1, 2, 1)}
        """, **FIVE)
    # the first sample under the level lets OV go and latches UV; a second cell past a level is no second latching
    session("one goes as another comes; a fault is not a cell", f"""
        O 5 -> ok
        6: S 1 100000 0 2000 0 {{both}} -> st 192 bal 0
        S 1 100000 0 2000 0 {{both}} -> st 68 bal 2
        {tallied(2, 0, 0, 1, 0, 0)}
        S 1 1 0 2000 0 1399 1399 4000 4000 4000 -> st 136 bal 0
        S 1 1 0 2000 0 4000 4000 4000 1399 4000 -> st 136 bal 0
        {tallied(2, 0, 0, 1, 1, 0)}
        """, **FIVE)
    session("refused samples and other boards", f"""
        O 5 5 -> ok
        S 1 0 1 974 60001 {{calm}} -> no 4
        S 1 1 2 974 60001 {{calm}} -> no 5
        S 1 1 1 974 60001 {{calm}} 4000 -> no 3
        S 3 1 1 974 60001 {{calm}} -> no 2
        {tallied(2, 0, 0, 0, 0, 0)}
        S 2 1 1 2000 60001 {{calm}} -> st 1 bal 0
        S 2 0 0 2000 0 {{calm}} -> no 4
        S 2 1 1 2000 60001 {{calm}} -> st 1 bal 0
        S 1 1 0 974 0 {{calm}} -> st 16 bal 0
        {tallied(2, 0, 0, 0, 0, 1)}
        {tallied(4, 1, 0, 0, 0, 0)}
        O 5 5 6 4 -> no 1
        {tallied(4, 1, 0, 0, 0, 0)}
        O 5 5 -> ok
        {tallied(2, 0, 0, 0, 0, 0)}
        {tallied(4, 0, 0, 0, 0, 0)}
        """, **FIVE)
    # equal sets, a spent cycle, crossed levels, and no cycle left; the latch outlasts them and counts no second time
    session("programming leaves the tallies", f"""
        O 5 -> ok
        S 1 1 1 2000 60001 {{calm}} -> st 1 bal 0
        S 1 1 0 2000 0 {{calm}} -> st 192 bal 0
        S 1 1 1 974 60001 {{calm}} -> st 17 bal 0
        F 3 11 65 234 -> re 3 11 0 *
        {tallied(2, 2, 0, 0, 0, 1)}
        F 3 8 1 * -> re 3 8 1 *
        F 3 11 65 234 -> re 3 11 1 *
        {tallied(2, 2, 0, 0, 0, 1)}
        2: S 1 1 1 974 60001 {{calm}} -> st 17 bal 0
        {tallied(2, 2, 0, 0, 0, 1)}
        F 3 9 10 54 -> re 3 9 10 54
        F 3 11 65 234 -> no 13
        F 3 9 1 * -> re 3 9 1 *
        F 3 11 65 234 -> re 3 11 2 *
        F 3 9 2 * -> re 3 9 2 *
        F 3 11 65 234 -> re 3 11 3 *
        F 3 9 3 * -> re 3 9 3 *
        F 3 11 65 234 -> no 11
        {tallied(2, 2, 0, 0, 0, 1)}
        S 1 1 0 974 0 {{calm}} -> st 16 bal 0
        S 1 1 1 974 60001 {{calm}} -> st 17 bal 0
        {tallied(2, 3, 0, 0, 0, 1)}
        """, **FIVE)
    # 255 is one byte, 256 two: each byte is of the tally at its own read, whichever was read before
    often = "S 1 1 1 2000 60001 {calm} -> st 1 bal 0\nS 1 1 0 2000 0 {calm} -> st 192 bal 0\n"
    session("past one byte", f"""
        O 5 -> ok
        {often * 255}{tallied(2, 255, 0, 0, 0, 0)}
        F 2 16 0 * -> re 2 16 255 *
        {often}F 2 24 0 * -> re 2 24 1 *
        F 2 16 0 * -> re 2 16 0 *
        {often}F 2 16 0 * -> re 2 16 1 *
        {often * 255}F 2 24 0 * -> re 2 24 2 *
        {tallied(2, 512, 0, 0, 0, 0)}
        """, **FIVE)


def byte_read(stack, register):
    """What a read of that register of board 1 gives."""
    reply = bytearray(4)
    stack.frame([2, register, 0, long_division([2, register, 0])], reply)
    return reply[2]


def tally_tops():
    """02, ticket 7: a tally stops at 65,535, by itself; the others go on."""
    for latched, wanted in ((0, 0), (1, 1), (65534, 65534), (65535, 65535), (65536, 65535), (65537, 65535), (131071, 65535),
                            (131073, 65535)):
        latchings = [{"SCD", "UV"}] * latched + [set()] * 3 + [{"UV"}]
        expect(f"tally of {latched} latchings", wanted, tally(latchings, "SCD"))
        expect(f"tally of {latched} latchings and one", min(latched + 1, 65535), tally(latchings, "UV"))
        expect(f"tally of none beside {latched}", 0, tally(latchings, "OV"))
    hot, cool, both = (Sample(1, 0, thermistor, shunt, (4000,) * 5) for thermistor, shunt in ((974, 0), (975, 0), (974, 60001)))
    stack = Stack(stand_alone([5]))
    for _ in range(65534):
        stack.sample(1, hot)
        stack.sample(1, cool)
    for sample, wanted in ((both, (1, 255, 0, 255)), (cool, (1, 255, 0, 255)), (hot, (1, 255, 0, 255)), (cool, (1, 255, 0, 255)),
                           (both, (2, 255, 0, 255))):
        stack.sample(1, sample)
        expect("tallies about the stop", wanted, tuple(byte_read(stack, register) for register in (16, 20, 24, 28)))


def tally_registers():
    """02, ticket 7: registers 16 to 20 and 24 to 28 can be read and not written; 9 goes before 10."""
    for register in LOW_BYTES + HIGH_BYTES:
        told = 2 if register == 16 else 0
        session(f"register {register}", f"""
            O 5 -> ok
            S 1 1 1 2000 60001 {{calm}} -> st 1 bal 0
            S 1 1 0 2000 0 {{calm}} -> st 192 bal 0
            S 1 1 1 2000 60001 {{calm}} -> st 1 bal 0
            F 2 {register} 0 -> no 6
            F 4 {register} 0 * -> no 2
            F 5 {register} 1 * -> no 2
            F 3 {register} 0 * -> no 9
            F 3 {register} 1 * -> no 9
            F 3 {register} 65 * -> no 9
            F 3 {register} 255 * -> no 9
            F 2 {register} 1 * -> no 10
            F 2 {register} 65 * -> no 10
            F 2 {register} 255 * -> no 10
            2: F 2 {register} 0 * -> re 2 {register} {told} *
            {tallied(2, 2, 0, 0, 0, 0)}
            """, **FIVE)


def journal_cases():
    """02, ticket 8: numbers about their top, the order in one sample, and the lent entries, which the bench knows nothing of."""
    for place, wanted in ((1, 1), (2, 2), (65536, 65536), (4294967294, 4294967294), (4294967295, 4294967295),
                          (4294967296, 4294967295), (8589934592, 4294967295)):
        expect(f"the number of sample {place}", wanted, sample_number(place))
    expect("no latching", [], journal([{}, {}]))
    expect("the order in one sample", [(0, 0, 2), (1, 0, 2), (2, 5, 2), (3, 1, 2), (4, 0, 2), (2, 3, 4)],
           journal([{}, {"OT": 0, "UV": 1, "OV": 5, "OCD": 0, "SCD": 0}, {}, {"OV": 3}]))
    stack, lent = Stack(stand_alone([5, 5])), ["a", "b", "c", "d"]
    expect("an empty journal", 0, stack.listing(1, lent))
    expect("an empty journal needs no room", 0, stack.listing(1, []))
    stack.sample(1, Sample(1, 1, 974, 60001, (4000, 4000, 1399, 1399, 4000)))
    for number, room, wanted in ((0, 4, 2), (3, 4, 2), (3, 0, 2), (1, 0, 14), (1, 2, 14)):
        some = lent[:room]
        expect(f"board {number} with room for {room}", wanted, refusal_of(stack.listing, number, some))
        expect("the entries after a refusal", lent[:room], some)
    expect("three entries", 3, stack.listing(1, lent))
    expect("the entry behind them stays", [(0, 0, 1), (3, 3, 1), (4, 0, 1), "d"], lent)
    exact = [None] * 3
    expect("exact room", 3, stack.listing(1, exact))
    expect("and what it holds", lent[:3], exact)
    expect("the other board", 0, stack.listing(2, lent))
    expect("which leaves every entry", [(0, 0, 1), (3, 3, 1), (4, 0, 1), "d"], lent)


def row_of(marks, first):
    """A stack with the three kinds in turn and a latch on each board that has an x.

    A cell of 1399 mV is under every UV level at once, and 3600 mV lets a garden board's OV latch go.
    """
    kinds = Plan(STAND_ALONE, 5), Plan(HOST, 5), Plan(GARDEN, 5, 0, 1)
    stack = Stack([kinds[(first + place) % 3] for place in range(len(marks))])
    for number, mark in enumerate(marks, 1):
        stack.sample(number, Sample(1, 0, 2000, 0, (1399 if mark == "x" else 3600, 3600, 3600, 3600, 3600)))
    return stack


def up_cases():
    """02, ticket 9: every row of up to seven boards with and without latches; in sixteen, one latch, or all from a place on."""
    rows = {".": (0, 1), "x": (1, 1), "..": (0, 2), "x.": (1, 1), ".x": (1, 2), "xx": (1, 1), "." * 16: (0, 16), "x" * 16: (1, 1)}
    for size in range(1, 7):
        for rest in map("".join, itertools.product(".x", repeat=size)):
            # one board more at the south end: the first if it has a latch, else it is passed by
            rows["x" + rest] = 1, 1
            rows["." + rest] = rows[rest][0], rows[rest][1] + 1
    for place in range(16):
        rows["." * place + "x" + "." * (15 - place)] = 1, place + 1
        rows["." * place + "x" * (16 - place)] = 1, place + 1
    for turn, (marks, wanted) in enumerate(rows.items()):
        stack = row_of(marks, turn)
        expect(f"the latches {marks}", wanted, stack.up())
        expect(f"the line of {marks}", wanted[0], stack.reading()[0])


def unknown_registers():
    """01, Refusal numbers: 9 for every register that is not in the map."""
    for register in (*range(1, 6), *range(12, 16), *range(21, 24), *range(29, 256)):
        for address in (2, 3):
            session(f"register {register}", f"""
                O 5 -> ok
                F {address} {register} 0 * -> no 9
                F {address} {register} 65 * -> no 9
                """)
    # 02, ticket 3: register 1 is a host board's, so that here no value is looked at
    for value in (1, 6, 7, 8, 65, 255):
        for address in (2, 3):
            session(f"register 1 with {value}", f"""
                O 5 -> ok
                F {address} 1 {value} * -> no 9
                F 2 0 0 214 -> re 2 0 192 152
                """)


def sample_refusals():
    """01, Refusal numbers: 2, 3, 4, 5 and both sides of each bound."""
    session("samples", """
        O 5 6 -> ok
        S 0 0 2 5001 500001 1 -> no 2
        S 3 0 2 5001 500001 1 -> no 2
        S 2147483647 1 0 2000 0 {calm} -> no 2
        S 1 0 2 5001 500001 5001 -> no 3
        S 1 1 0 2000 0 -> no 3
        S 2 1 0 2000 0 {calm} -> no 3
        S 1 1 0 2000 0 {calm} 4000 -> no 3
        S 1 0 2 5001 500001 5001 1 1 1 1 -> no 4
        S 1 100001 2 5001 500001 5001 1 1 1 1 -> no 4
        S 1 2147483647 0 2000 0 {calm} -> no 4
        S 1 1 0 2000 0 4000 4000 4000 4000 5001 -> no 5
        S 1 1 0 2000 0 4000 4000 4000 2147483647 4000 -> no 5
        S 1 1 0 5001 0 {calm} -> no 5
        S 1 1 0 2000 500001 {calm} -> no 5
        S 1 1 0 2000 -500001 {calm} -> no 5
        S 1 1 0 2000 -2147483647 {calm} -> no 5
        S 1 1 2 2000 0 {calm} -> no 5
        S 1 1 2147483647 2000 0 {calm} -> no 5
        S 1 100000 1 5000 -500000 5000 4000 4000 4000 1400 -> st 192 bal 0
        S 1 1 0 5000 500000 {calm} -> st 1 bal 0
        F 2 0 0 214 -> re 2 0 1 *
        """, **FIVE)


def opening_cases():
    """01, The bench program: openings and what comes before one."""
    session("before a good opening", """
        R -> no 1
        S 9 0 9 9 9 -> no 1
        F -> no 1
        F 256 -> no 12
        R 1 -> no 12
        O -> no 1
        O 4 -> no 1
        O 11 -> no 1
        O 5 5 0 -> no 1
        O 255 -> no 1
        O 256 -> no 1
        O 261 -> no 1
        O 517 -> no 1
        O 5 261 -> no 1
        O 65541 -> no 1
        R -> no 1
        O 5 10 -> ok
        R -> ln 0 chg 1 dsg 1 at 0 0
        """)
    session("openings over a stack that has a latch", """
        O 5 -> ok
        S 1 1 0 974 0 {calm} -> st 16 bal 0
        F 3 11 66 * -> no 10
        O 5 5 5 5 5 5 5 5 5 5 5 5 5 5 5 5 5 -> no 1
        O 5 11 -> no 1
        O 4 5 -> no 1
        O 5 11 5 -> no 1
        O 2147483647 -> no 1
        O 2147483648 -> no 12
        R -> ln 1 chg 0 dsg 0 at 0 0
        O 5 5 5 5 5 5 5 5 5 5 5 5 5 5 5 5 -> ok
        R -> ln 0 chg 1 dsg 1 at 0 0
        S 16 1 0 974 0 {calm} -> st 16 bal 0
        S 17 1 0 974 0 {calm} -> no 2
        F 32 0 0 * -> re 32 0 16 *
        F 34 0 0 * -> no 2
        F 66 0 0 * -> no 2
        F 130 0 0 * -> no 2
        """, **FIVE)


RAW_LINES = (
    (b"", 12), (b" ", 12), (b"X", 12), (b"o 5", 12), (b"r", 12), (b"R ", 12),
    (b" R", 12), (b"R\r", 12), (b"\tR", 12), (b"R\0", 12), (b"\xff", 12),
    (b"RR", 12), (b"O5", 12), (b"O ", 12), (b"O  5", 12), (b"O 5 ", 12),
    (b"O 05", 12), (b"O 00", 12), (b"O -5", 12), (b"O +5", 12), (b"O 5,5", 12),
    (b"O 5\t5", 12), (b"O 5\x00", 12), (b"O \xb2", 12), (b"O 0x5", 12),
    (b"O 5.0", 12), (b"O", 1), (b"O 0", 1), (b"O 5 4", 1),
    (b"O 99999999999999999999", 12), (b"O 4294967301", 12),
    (b"O 18446744073709551621", 12), (b"F 256", 12), (b"F -1", 12),
    (b"L", 12), (b"L 1", 12), (b"L 1 0", 12), (b"L 1 128", 12), (b"U", 12), (b"U 1", 12),
    (b"W", 12), (b"W 0", 12), (b"W 46", 12), (b"W 65535", 12), (b"D", 12),
    (b"C", 12), (b"C 00", 12), (b"C 01000100000000000005", 12),
    (b"F 2 0 0 0214", 12), (b"F" + b" 0" * 16, 6), (b"F" + b" 0" * 17, 12),
    (b"S", 12), (b"S 1 1 0 2000", 12), (b"S 1 1 0 2000 0", 3),
    (b"S 1 1 0 2000 -0" + b" 1" * 5, 12), (b"S 1 1 0 2000 -01" + b" 1" * 5, 12),
    (b"S 1 1 0 2000 -" + b" 1" * 5, 12), (b"S 1 1 0 2000 +1" + b" 1" * 5, 12),
    (b"S 1 1 0 2000 --1" + b" 1" * 5, 12), (b"S 1 1 0 2000 - 1" + b" 1" * 5, 12),
    (b"S 1 1 0 -2000 0" + b" 1" * 5, 12), (b"S -1 1 0 2000 0" + b" 1" * 5, 12),
    (b"S 1 1 0 2000 0 -1" + b" 1" * 4, 12),
    (b"S 1 1 0 2000 -2147483648" + b" 1" * 5, 12),
    (b"S 1 1 0 2000 2147483648" + b" 1" * 5, 12),
    (b"S 1 1 0 2000 -2147483647" + b" 1" * 5, 5),
    (b"S 1 1 0 2000 0" + b" 1" * 11, 3), (b"S 1 1 0 2000 0" + b" 1" * 16, 3),
    (b"S 1 1 0 2000 0" + b" 1" * 17, 12),
    # 200 and 201 bytes: the first is judged by its counts
    (b"O 10" + b" 5" * 98, 1), (b"O" + b" 5" * 100, 12), (b"R" * 200, 12),
    (b"O" + b" 5" * 500, 12),
    # 6 + 16 * 11 + 18 = 200 bytes, and one digit more
    (b"S 1 1 " + b"0 " + b"1111111 " + b"11111111" + b" 1111111111" * 16, 3),
    (b"S 1 1 " + b"0 " + b"1111111 " + b"111111111" + b" 1111111111" * 16, 12),
)


def raw_lines():
    """01, The bench program: shapes of lines, before and after an opening."""
    for line, number in RAW_LINES:
        bench = Bench()
        early = b"no 12" if number == 12 else b"no 1"
        expect(f"{line!r} at the start", early, bench.answer(line))
        expect("opening", b"ok", bench.answer(b"O 5"))
        expect(f"{line!r} on a stack", b"no %d" % number, bench.answer(line))
        expect(f"state after {line!r}", b"ln 0 chg 1 dsg 1 at 0 0", bench.answer(b"R"))


def input_cases():
    """01, The bench program: what a line of the input is."""
    for data, wanted in (
            (b"", b""), (b"\n", b"no 12\n"), (b"\n\n", b"no 12\nno 12\n"),
            (b"R", b"no 1\n"), (b"R\n", b"no 1\n"), (b"R\n\n", b"no 1\nno 12\n"),
            (b"O 5\r\nR\r\n", b"no 12\nno 12\n"), (b"R\rR", b"no 12\n"),
            (b"O 5\nR\0\nR", b"ok\nno 12\nln 0 chg 1 dsg 1 at 0 0\n"),
            (b"O 5\x0bR\n", b"no 12\n"), (b"\x00", b"no 12\n"), (b"\xe2\x80\xa8", b"no 12\n"),
            (b"O" + b" 5" * 600 + b"\nR\n", b"no 12\nno 1\n")):
        expect(f"input {data[:30]!r}", wanted, Bench().answers(data))


def refusal_of(act, *args):
    """The number an act of the library is refused with, or None."""
    try:
        act(*args)
    except Refusal as refusal:
        return refusal.number
    return None


def buffer_cases():
    """01, Frames: the lent buffer, which the bench itself cannot vary."""
    stack = Stack(stand_alone([5]))
    expect("three bytes, no buffer", 6, refusal_of(stack.frame, [2, 0, 0], bytearray()))
    expect("bad check, no buffer", 7, refusal_of(stack.frame, [2, 0, 0, 0], bytearray(3)))
    buffer = bytearray(b"\x09" * 6)
    expect("bad check", 8, refusal_of(stack.frame, [2, 0, 0, 0], buffer))
    expect("buffer after a refusal", bytearray(b"\x09" * 6), buffer)
    expect("a read", None, refusal_of(stack.frame, [2, 0, 0, 214], buffer))
    expect("later bytes stay", bytearray([2, 0, 192, 152, 9, 9]), buffer)


def kind_cases():
    """02, tickets 3 and 5: a kind that there is not is refused as a cell count is; each kind has its own range of cells."""
    for number, kind in enumerate((STAND_ALONE, HOST, GARDEN)):
        expect(f"the number of kind {number}", number, kind)
    plain = [Plan(kind, cells) for kind in (STAND_ALONE, HOST) for cells in range(5, 11)]
    garden = [Plan(GARDEN, cells, row, trigger) for cells in (3, 4, 5) for row in (0, 1, 2) for trigger in (1, 2, 128, 254, 255)]
    wrong = [Plan(kind, cells) for kind in (STAND_ALONE, HOST) for cells in (0, 1, 3, 4, 11, 12, 255, 256, 261)]
    wrong += [Plan(GARDEN, cells, 0, 1) for cells in (0, 1, 2, 6, 10, 256, 259)]
    wrong += [Plan(GARDEN, 3, row, 1) for row in (3, 4, 255, 256, 65536)]
    wrong += [Plan(GARDEN, 3, 0, trigger) for trigger in (0, 256, 257, 65537)]
    wrong += [Plan(GARDEN, 5), Plan(3, 5), Plan(3, 5, 0, 1), Plan(255, 5)]
    for plans, number in ((plain, None), (garden, None), (wrong, 1)):
        for plan in plans:
            expect(f"{plan}", number, refusal_of(Stack, [plan]))
            expect(f"{plan} behind others", number, refusal_of(Stack, [plain[0], garden[0], plan]))
            expect(f"{plan} before others", number, refusal_of(Stack, [plan, plain[-1], garden[-1]]))
            expect(f"{plan}, seventeen of them", 1, refusal_of(Stack, [plan] * 17))
    for plan in plain[-1], garden[0]:
        expect(f"{plan}, sixteen of them", None, refusal_of(Stack, [plan] * 16))
    expect("no board", 1, refusal_of(Stack, []))


# 02, ticket 5, for each row: the level and where the fault lets go, level less and level plus hysteresis
GARDEN_ROWS = (
    (4200, 4000, 2900, 3300),
    (4250, 4050, 2800, 3200),
    (4275, 4175, 2000, 2200),
)


def count_cases():
    """02, ticket 5: the counts, by hand and as the largest surplus of ups over downs on any stretch that ends here."""
    for text, wanted in (("", 0), ("+", 1), ("-", 0), ("+-", 0), ("-+", 1), ("++-", 1), ("---+", 1), ("+--+", 1), ("+-+-+-", 0),
                         ("++-++-++", 4), ("+++---+", 1), ("+" * 255, 255), ("+" * 254 + "-+", 254), ("+" * 300 + "-" * 299, 1)):
        expect(f"count of {text[-12:]}", wanted, count(text, lambda step: step == "+"))
    for steps in itertools.chain.from_iterable(itertools.product((1, -1), repeat=size) for size in range(11)):
        surplus = max(sum(steps[at:]) for at in range(len(steps) + 1))
        expect(f"count of {steps}", surplus, count(steps, lambda step: step == 1))


def garden_levels():
    """02, ticket 5: every row's levels and bands, one millivolt to both sides; load removal."""
    for row, (over, over_back, under, under_back) in enumerate(GARDEN_ROWS):
        device = first_record(Plan(GARDEN, 3, row, 1)).device
        for off in (-1, 0, 1):
            name = f"row {row}, {off} mV off"
            expect(f"OV, {name}", off == 1, past("OV", over + off, device))
            expect(f"UV, {name}", off == -1, past("UV", under + off, device))
            for place in range(3):
                cells = [3500] * 3
                cells[place] = over_back + off
                for load in (0, 1):
                    expect(f"inside OV, {name}", off == -1, inside("OV", Sample(1, load, 2000, 0, cells), device))
                cells[place] = under_back + off
                for load, free in ((0, True), (1, row == 2)):
                    got = inside("UV", Sample(1, load, 2000, 0, cells), device)
                    expect(f"inside UV, {name}, load {load}", off == 1 and free, got)


def main():
    """Run all; exit 1 if anything differs."""
    for part in (paper_session, crc_values, settings_tables, marked_cases, run_cases,
                 fault_cases, bleeding_cases, frame_cases, crossed_cases, tally_cases, tally_tops,
                 tally_registers, journal_cases, up_cases, unknown_registers, sample_refusals, opening_cases,
                 raw_lines, input_cases, buffer_cases, kind_cases, count_cases, garden_levels):
        part()
    sys.exit(1 if FAILED else 0)


if __name__ == "__main__":
    main()
