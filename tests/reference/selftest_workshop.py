#!/usr/bin/env python3
"""Self test of the workshop's reference: every expected answer was worked out by hand, from the page.

Sessions are written as in selftest.py. What the two programs share, the boards
and their rules, is worked there.
"""

import sys

sys.dont_write_bytecode = True

from recording import (FRAME, MOST_BYTES, READING, SAMPLE, Act, Damaged, Recording, first_wrong, frame_body,  # noqa: E402
                       read_back, reading_body, sample_body)
from reference import HOST, STAND_ALONE, Plan, Refusal, split_lines  # noqa: E402
from selftest import FAILED, FIVE, GARDEN_ROWS, HIGH_BYTES, LOW_BYTES, expect, session, tallied  # noqa: E402
from workshop import Workshop  # noqa: E402


def told(name, text, **cells):
    """A session of the workshop, line by line."""
    session(name, text, Workshop, **cells)


def openings():
    """O and X: the number of boards, their cells, and what a refusal leaves."""
    told("boards by kind", """
        R -> no 1
        X -> no 1
        X s4 -> no 1
        X s11 -> no 1
        R -> no 1
        X s5 -> ok
        S 1 1000 0 974 0 {calm} -> st 16 bal 0
        X s5 s4 -> no 1
        X s10 s5 s11 -> no 1
        X -> no 1
        O -> no 1
        X s0 -> no 1
        X s261 -> no 1
        X s2147483647 -> no 1
        X s2147483648 -> no 12
        X h4 -> no 1
        X h11 -> no 1
        X h0 -> no 1
        X h256 -> no 1
        X h261 -> no 1
        X h517 -> no 1
        X s5 h4 -> no 1
        X h5 s11 -> no 1
        X h2147483647 -> no 1
        X h2147483648 -> no 12
        R -> ln 1 chg 0 dsg 0 at 0 0
        S 2 1000 0 2000 0 {calm} -> no 2
        X s5 s10 -> ok
        R -> ln 0 chg 1 dsg 1 at 0 0
        S 2 1000 0 2000 0 {calm} -> no 3
        S 2 1000 0 2000 0 {calm} {calm} -> st 192 bal 0
        O 6 -> ok
        S 2 1000 0 2000 0 {calm} -> no 2
        S 1 1000 0 2000 0 {calm} 4000 -> st 192 bal 0
        """, **FIVE)
    told("sixteen boards and seventeen", """
        X{s16} -> ok
        S 16 1000 0 2000 0 {calm} -> st 192 bal 0
        S 17 1000 0 2000 0 {calm} -> no 2
        X{s17} -> no 1
        O{o17} -> no 1
        S 16 1000 0 974 0 {calm} -> st 16 bal 0
        X{s17} s -> no 12
        X{s17} h -> no 12
        X{s17} s4 -> no 1
        X{h17} -> no 1
        R -> ln 1 chg 0 dsg 0 at 0 0
        O{o16} -> ok
        R -> ln 0 chg 1 dsg 1 at 0 0
        X{h16} -> ok
        S 16 1000 0 2000 0 {calm} {calm} -> st 0 bal 0
        """, s16=" s5" * 16, s17=" s5" * 17, o16=" 5" * 16, o17=" 5" * 17, h16=" h10" * 16, h17=" h10" * 17, **FIVE)


def long_lists():
    """More cells and bytes than the bench reads are judged by the table."""
    told("long lists", """
        S 1 0 9 9 9{cells} -> no 1
        F{bytes} -> no 1
        O 10 -> ok
        S 1 1000 0 2000 0{cells} -> no 3
        S 1 1000 0 2000 0{cells} 01 -> no 12
        F{bytes} -> no 6
        F{bytes} 256 -> no 12
        F@0{bytes} -> no 6
        """, cells=" 4000" * 17, bytes=" 255" * 17)


def rooms():
    """F@N: 1, 6, 7, 8, 2, 9, 10, 13, 11 in this order."""
    told("rooms", """
        F@0 -> no 1
        F@4 2 0 0 214 -> no 1
        O 5 -> ok
        F@4 2 0 0 214 -> re 2 0 192 152
        F 2 0 0 214 -> re 2 0 192 152
        F@5 2 0 0 214 -> re 2 0 192 152
        F@9 2 0 0 214 -> re 2 0 192 152
        F@2147483647 2 0 0 214 -> re 2 0 192 152
        F@2147483648 2 0 0 214 -> no 12
        F@3 2 0 0 214 -> no 7
        F@0 2 0 0 214 -> no 7
        F@3 2 0 0 0 -> no 7
        F@3 2 0 0 -> no 6
        F@0 -> no 6
        F@3 4 99 1 * -> no 7
        F@4 2 0 0 215 -> no 8
        F@4 4 0 0 * -> no 2
        F@4 3 0 0 * -> no 9
        F@4 2 6 1 * -> no 10
        F@3 3 6 7 214 -> no 7
        F@4 3 11 65 234 -> re 3 11 0 *
        F@4 3 6 7 214 -> re 3 6 7 214
        F@3 3 11 65 234 -> no 7
        F@8 3 11 65 234 -> re 3 11 1 *
        F@8 2 6 0 168 -> re 2 6 7 *
        """)
    # OCD code 10 is 60 mV and SCD code 0 too; two more cycles, then a set that is crossed and would be the fourth
    told("crossed levels", """
        X s5 -> ok
        F@9 3 9 10 54 -> re 3 9 10 54
        F@3 3 11 65 234 -> no 7
        F@4 3 11 64 * -> no 10
        F@4 3 11 65 234 -> no 13
        F 3 11 65 234 -> no 13
        F@9 2 11 0 * -> re 2 11 0 *
        F 3 10 1 * -> re 3 10 1 *
        F@9 3 11 65 234 -> re 3 11 1 *
        F 3 10 2 * -> re 3 10 2 *
        F 3 11 65 234 -> re 3 11 2 *
        F 3 10 3 * -> re 3 10 3 *
        F 3 11 65 234 -> re 3 11 3 *
        F 3 10 0 * -> re 3 10 0 *
        F@4 3 11 65 234 -> no 13
        F 3 10 4 * -> re 3 10 4 *
        F@4 3 11 65 234 -> no 11
        F 3 10 3 * -> re 3 10 3 *
        F@4 3 11 65 234 -> re 3 11 3 *
        """)


def host_register():
    """02, ticket 3: register 1 is there on host boards; its bits are the switches, as long as nothing is latched."""
    told("register 1 on both kinds", """
        X h5 s5 -> ok
        F 2 1 0 * -> re 2 1 0 *
        F 2 0 0 214 -> re 2 0 0 *
        S 1 1000 0 2000 0 {calm} -> st 0 bal 0
        R -> ln 0 chg 0 dsg 0 at 0 0
        F 3 1 2 * -> re 3 1 2 *
        F 2 0 0 214 -> re 2 0 64 *
        R -> ln 0 chg 0 dsg 1 at 0 0
        F 3 1 4 * -> re 3 1 4 *
        F 2 0 0 214 -> re 2 0 128 *
        R -> ln 0 chg 1 dsg 0 at 0 0
        F 3 1 1 * -> re 3 1 1 *
        S 1 1000 0 2000 0 {calm} -> st 0 bal 0
        F 3 1 7 * -> re 3 1 7 *
        F 2 1 0 * -> re 2 1 7 *
        S 1 1000 0 2000 0 {calm} -> st 192 bal 0
        R -> ln 0 chg 1 dsg 1 at 0 0
        F 3 1 8 * -> no 10
        F 3 1 9 * -> no 10
        F 3 1 128 * -> no 10
        F 3 1 255 * -> no 10
        F 2 1 1 * -> no 10
        F 2 1 7 * -> no 10
        F 2 1 8 * -> no 10
        F 2 1 0 * -> re 2 1 7 *
        F 2 0 0 214 -> re 2 0 192 *
        F 4 1 0 * -> no 9
        F 4 1 8 * -> no 9
        F 5 1 0 * -> no 9
        F 5 1 7 * -> no 9
        F 5 1 8 * -> no 9
        F 4 0 0 171 -> re 4 0 192 *
        """, **FIVE)
    told("the order of refusals, and the registers beside it", """
        X h5 -> ok
        F 3 1 8 -> no 6
        F@3 3 1 8 0 -> no 7
        F 3 1 8 0 -> no 8
        F 7 1 8 * -> no 2
        F 3 0 0 * -> no 9
        F 3 0 7 * -> no 9
        F 2 2 0 * -> no 9
        F 3 2 0 * -> no 9
        F 3 5 0 * -> no 9
        F 3 12 0 * -> no 9
        F@3 3 1 6 * -> no 7
        F 2 1 0 * -> re 2 1 0 *
        F@9 3 1 6 * -> re 3 1 6 *
        F@9 2 1 0 * -> re 2 1 6 *
        """)
    # it is not staged and not compared: equal settings spend nothing, and a spent cycle leaves it
    told("programming leaves register 1", """
        X h5 -> ok
        F 3 1 7 * -> re 3 1 7 *
        F 3 11 65 234 -> re 3 11 0 *
        F 3 6 7 * -> re 3 6 7 *
        F 3 11 65 234 -> re 3 11 1 *
        F 2 1 0 * -> re 2 1 7 *
        F 2 0 0 214 -> re 2 0 192 *
        F 3 1 0 * -> re 3 1 0 *
        F 2 6 0 * -> re 2 6 7 *
        F 3 11 65 234 -> re 3 11 1 *
        F 2 1 0 * -> re 2 1 0 *
        """)


def host_clears():
    """02, ticket 3: latched as on other boards, kept at every sample, cleared where b0 goes from 1 to 0.

    OV and UV stay at their level, the current faults go at theirs.
    """
    # level 4150, release 4050: the flag goes below 4050 as ever, the latch does not
    told("OV", """
        X h5 -> ok
        F 3 1 6 * -> re 3 1 6 *
        6: S 1 100000 0 2000 0 {one} -> st 192 bal 0
        S 1 100000 0 2000 0 {one} -> st 68 bal 1
        F 2 1 0 * -> re 2 1 2 *
        R -> ln 1 chg 0 dsg 1 at 1 1
        S 1 1 0 2000 0 4050 4000 4000 4000 4000 -> st 68 bal 1
        S 1 1 0 2000 0 4049 4049 4049 4049 4049 -> st 68 bal 0
        R -> ln 1 chg 0 dsg 1 at 0 0
        S 1 1 0 2000 0 4149 4149 4149 4149 4150 -> st 68 bal 0
        F 3 1 3 * -> re 3 1 3 *
        F 2 0 0 214 -> re 2 0 68 *
        F 3 1 2 * -> re 3 1 2 *
        F 2 0 0 214 -> re 2 0 68 *
        S 1 1 0 2000 0 4149 4149 4151 4149 4149 -> st 68 bal 0
        F 3 1 3 * -> re 3 1 3 *
        F 3 1 2 * -> re 3 1 2 *
        F 2 0 0 214 -> re 2 0 68 *
        S 1 1 1 2000 0 4149 4149 4149 4149 4149 -> st 68 bal 0
        F 3 1 2 * -> re 3 1 2 *
        F 2 0 0 214 -> re 2 0 68 *
        2: F 3 1 3 * -> re 3 1 3 *
        F 2 0 0 214 -> re 2 0 68 *
        F 3 1 2 * -> re 3 1 2 *
        F 2 0 0 214 -> re 2 0 64 *
        F 2 1 0 * -> re 2 1 2 *
        R -> ln 0 chg 0 dsg 1 at 0 0
        F 3 1 6 * -> re 3 1 6 *
        F 2 0 0 214 -> re 2 0 192 *
        """, **FIVE)
    # level 1400, release 1600, no delay; the last write clears and sets the bit
    told("UV", """
        X h5 -> ok
        F 3 1 6 * -> re 3 1 6 *
        S 1 1 0 2000 0 4000 4000 4000 4000 1399 -> st 136 bal 0
        F 2 1 0 * -> re 2 1 4 *
        S 1 1 0 2000 0 {calm} -> st 136 bal 0
        S 1 1 0 2000 0 4000 4000 4000 4000 1400 -> st 136 bal 0
        F 3 1 5 * -> re 3 1 5 *
        F 3 1 4 * -> re 3 1 4 *
        F 2 0 0 214 -> re 2 0 136 *
        S 1 1 0 2000 0 1399 4000 4000 4000 4000 -> st 136 bal 0
        F 3 1 5 * -> re 3 1 5 *
        F 3 1 4 * -> re 3 1 4 *
        F 2 0 0 214 -> re 2 0 136 *
        S 1 1 1 2000 0 1401 4000 4000 4000 4000 -> st 136 bal 0
        F 3 1 5 * -> re 3 1 5 *
        F 2 0 0 214 -> re 2 0 136 *
        F 3 1 6 * -> re 3 1 6 *
        F 2 0 0 214 -> re 2 0 192 *
        """, **FIVE)
    # 60,000 with the load attached is over; each clear but the last leaves both bits at 0
    told("SCD", """
        X h5 -> ok
        F 3 1 6 * -> re 3 1 6 *
        S 1 1000 1 2000 60001 {calm} -> st 1 bal 0
        F 2 1 0 * -> re 2 1 0 *
        S 1 1000 0 2000 0 {calm} -> st 1 bal 0
        S 1 1000 0 2000 60001 {calm} -> st 1 bal 0
        F 3 1 1 * -> re 3 1 1 *
        F 3 1 0 * -> re 3 1 0 *
        F 2 0 0 214 -> re 2 0 1 *
        S 1 1000 1 2000 60000 {calm} -> st 1 bal 0
        F 3 1 0 * -> re 3 1 0 *
        F 2 0 0 214 -> re 2 0 1 *
        F 3 1 1 * -> re 3 1 1 *
        F 2 0 0 214 -> re 2 0 1 *
        F 3 1 0 * -> re 3 1 0 *
        F 2 0 0 214 -> re 2 0 0 *
        R -> ln 0 chg 0 dsg 0 at 0 0
        S 1 1 1 2000 60001 {calm} -> st 1 bal 0
        S 1 1 1 2000 59999 {calm} -> st 1 bal 0
        F 3 1 1 * -> re 3 1 1 *
        F 3 1 6 * -> re 3 1 6 *
        F 2 0 0 214 -> re 2 0 192 *
        """, **FIVE)
    # level 10,000, and more than the delay of 20 ms behind the first sample
    told("OCD", """
        X h5 -> ok
        F 3 1 6 * -> re 3 1 6 *
        S 1 1 1 2000 10001 {calm} -> st 192 bal 0
        S 1 20000 1 2000 10001 {calm} -> st 192 bal 0
        S 1 1 1 2000 10001 {calm} -> st 2 bal 0
        F 2 1 0 * -> re 2 1 0 *
        S 1 1 0 2000 10000 {calm} -> st 2 bal 0
        S 1 1 0 2000 -500000 {calm} -> st 2 bal 0
        S 1 1 0 2000 10001 {calm} -> st 2 bal 0
        F 3 1 7 * -> re 3 1 7 *
        F 3 1 6 * -> re 3 1 6 *
        F 2 0 0 214 -> re 2 0 2 *
        S 1 1 1 2000 10000 {calm} -> st 2 bal 0
        F 2 1 0 * -> re 2 1 6 *
        F 3 1 7 * -> re 3 1 7 *
        F 3 1 6 * -> re 3 1 6 *
        F 2 0 0 214 -> re 2 0 192 *
        S 1 1 1 2000 10001 {calm} -> st 192 bal 0
        S 1 20001 1 2000 10001 {calm} -> st 2 bal 0
        S 1 1 1 2000 9999 {calm} -> st 2 bal 0
        F 3 1 1 * -> re 3 1 1 *
        F 3 1 0 * -> re 3 1 0 *
        F 2 0 0 214 -> re 2 0 0 *
        """, **FIVE)
    # 60,000 is over for SCD and not for OCD, whose run of 20 ms the clear of SCD has not touched
    told("one of two, and the runs", """
        X h5 -> ok
        F 3 1 6 * -> re 3 1 6 *
        S 1 1 0 2000 60001 {calm} -> st 1 bal 0
        S 1 20000 0 2000 60000 {calm} -> st 1 bal 0
        F 3 1 7 * -> re 3 1 7 *
        F 3 1 6 * -> re 3 1 6 *
        F 2 0 0 214 -> re 2 0 192 *
        S 1 1 0 2000 60001 {calm} -> st 3 bal 0
        F 2 1 0 * -> re 2 1 0 *
        S 1 1 1 2000 60000 {calm} -> st 3 bal 0
        F 3 1 7 * -> re 3 1 7 *
        F 3 1 6 * -> re 3 1 6 *
        F 2 0 0 214 -> re 2 0 2 *
        R -> ln 1 chg 0 dsg 0 at 0 0
        S 1 1 1 2000 10000 {calm} -> st 2 bal 0
        F 3 1 7 * -> re 3 1 7 *
        F 3 1 6 * -> re 3 1 6 *
        F 2 0 0 214 -> re 2 0 192 *
        """, **FIVE)


def host_levels():
    """02, ticket 3, and its reading: the last sample against the levels that work at the write."""
    # codes 2, 1 and 2 again: levels 4250, 4200, 4250. 4200 is under the first, at the second; a staged level is not asked.
    # The flag of cell 1 stays: 4200 is not lower than 4150
    told("OV levels moved", """
        X h5 -> ok
        F 3 6 2 * -> re 3 6 2 *
        F 3 11 65 234 -> re 3 11 1 *
        F 3 1 6 * -> re 3 1 6 *
        6: S 1 100000 0 2000 0 4251 4000 4000 4000 4000 -> st 192 bal 0
        S 1 100000 0 2000 0 4251 4000 4000 4000 4000 -> st 68 bal 1
        S 1 100000 0 2000 0 4200 4000 4000 4000 4000 -> st 68 bal 1
        F 3 6 1 * -> re 3 6 1 *
        F 3 11 65 234 -> re 3 11 2 *
        F 3 1 3 * -> re 3 1 3 *
        F 3 1 2 * -> re 3 1 2 *
        F 2 0 0 214 -> re 2 0 68 *
        F 3 6 2 * -> re 3 6 2 *
        F 3 1 3 * -> re 3 1 3 *
        F 3 1 2 * -> re 3 1 2 *
        F 2 0 0 214 -> re 2 0 68 *
        F 3 11 65 234 -> re 3 11 3 *
        F 2 0 0 214 -> re 2 0 68 *
        F 3 1 3 * -> re 3 1 3 *
        F 3 1 2 * -> re 3 1 2 *
        F 2 0 0 214 -> re 2 0 64 *
        R -> ln 0 chg 0 dsg 1 at 1 1
        """, **FIVE)
    # codes 1, 2 and 0: levels 1500, 1600, 1400, against a lowest cell of 1500
    told("UV levels moved", """
        X h5 -> ok
        F 3 1 6 * -> re 3 1 6 *
        S 1 1 0 2000 0 1399 4000 4000 4000 4000 -> st 136 bal 0
        S 1 1 0 2000 0 1500 4000 4000 4000 4000 -> st 136 bal 0
        F 3 7 1 * -> re 3 7 1 *
        F 3 11 65 234 -> re 3 11 1 *
        F 3 1 5 * -> re 3 1 5 *
        F 3 1 4 * -> re 3 1 4 *
        F 2 0 0 214 -> re 2 0 136 *
        F 3 7 2 * -> re 3 7 2 *
        F 3 11 65 234 -> re 3 11 2 *
        F 3 1 5 * -> re 3 1 5 *
        F 3 1 4 * -> re 3 1 4 *
        F 2 0 0 214 -> re 2 0 136 *
        F 3 7 0 * -> re 3 7 0 *
        F 3 11 65 234 -> re 3 11 3 *
        F 3 1 5 * -> re 3 1 5 *
        F 3 1 4 * -> re 3 1 4 *
        F 2 0 0 214 -> re 2 0 128 *
        """, **FIVE)
    # SCD codes 1 and 0 are 65 and 60 mV, OCD codes 1 and 0 are 15 and 10. The last shunt reads 65,000, then 15,000
    told("current levels moved", """
        X h5 -> ok
        F 3 1 6 * -> re 3 1 6 *
        S 1 1 1 2000 65000 {calm} -> st 1 bal 0
        F 3 1 7 * -> re 3 1 7 *
        F 3 1 6 * -> re 3 1 6 *
        F 2 0 0 214 -> re 2 0 1 *
        F 3 10 1 * -> re 3 10 1 *
        F 3 9 1 * -> re 3 9 1 *
        F 3 11 65 234 -> re 3 11 1 *
        F 3 1 7 * -> re 3 1 7 *
        F 3 1 6 * -> re 3 1 6 *
        F 2 0 0 214 -> re 2 0 192 *
        S 1 1 1 2000 15001 {calm} -> st 192 bal 0
        S 1 20001 1 2000 15001 {calm} -> st 2 bal 0
        S 1 1 1 2000 15000 {calm} -> st 2 bal 0
        F 3 9 0 * -> re 3 9 0 *
        F 3 11 65 234 -> re 3 11 2 *
        F 3 1 7 * -> re 3 1 7 *
        F 3 1 6 * -> re 3 1 6 *
        F 2 0 0 214 -> re 2 0 2 *
        F 3 9 1 * -> re 3 9 1 *
        F 3 11 65 234 -> re 3 11 3 *
        F 3 1 7 * -> re 3 1 7 *
        F 3 1 6 * -> re 3 1 6 *
        F 2 0 0 214 -> re 2 0 192 *
        """, **FIVE)


def host_bits():
    """02, ticket 3: a fault that latches clears the bits of the switches it forbids, at that sample only."""
    told("overtemperature", """
        X h5 -> ok
        F 3 1 7 * -> re 3 1 7 *
        S 1 1 0 974 0 {calm} -> st 16 bal 0
        F 2 1 0 * -> re 2 1 1 *
        F 3 1 7 * -> re 3 1 7 *
        F 2 0 0 214 -> re 2 0 16 *
        S 1 1 0 974 0 {calm} -> st 16 bal 0
        F 2 1 0 * -> re 2 1 7 *
        F 3 1 6 * -> re 3 1 6 *
        F 2 0 0 214 -> re 2 0 16 *
        S 1 1 0 975 0 {calm} -> st 192 bal 0
        F 2 1 0 * -> re 2 1 6 *
        S 1 1 0 974 0 {calm} -> st 16 bal 0
        F 2 1 0 * -> re 2 1 0 *
        S 1 1 0 975 0 {calm} -> st 0 bal 0
        """, **FIVE)
    # OV is latched as UV latches: the CHG bit, written under OV, stays. Both are over at 4149 and 1401
    told("bits under a latch", """
        X h5 -> ok
        F 3 1 6 * -> re 3 1 6 *
        6: S 1 100000 0 2000 0 {one} -> st 192 bal 0
        S 1 100000 0 2000 0 {one} -> st 68 bal 1
        F 3 1 6 * -> re 3 1 6 *
        F 2 0 0 214 -> re 2 0 68 *
        S 1 1 0 2000 0 {one} -> st 68 bal 1
        F 2 1 0 * -> re 2 1 6 *
        S 1 1 0 2000 0 4151 1399 4000 4000 4000 -> st 12 bal 1
        F 2 1 0 * -> re 2 1 4 *
        S 1 1 0 2000 0 4149 1401 4000 4000 4000 -> st 12 bal 1
        F 3 1 7 * -> re 3 1 7 *
        F 3 1 6 * -> re 3 1 6 *
        F 2 0 0 214 -> re 2 0 192 *
        R -> ln 0 chg 1 dsg 1 at 1 1
        """, **FIVE)
    # b0 at 1 through a latching; then a 0 that clears UV and takes both bits away
    told("only a write changes b0", """
        X h5 -> ok
        F 3 1 7 * -> re 3 1 7 *
        S 1 1 0 2000 0 1399 4000 4000 4000 4000 -> st 136 bal 0
        F 2 1 0 * -> re 2 1 5 *
        S 1 1 0 2000 0 {calm} -> st 136 bal 0
        F 3 1 0 * -> re 3 1 0 *
        F 2 0 0 214 -> re 2 0 0 *
        """, **FIVE)


def host_last_sample():
    """02, ticket 3: the last accepted sample; before any there is nothing to clear."""
    told("refused samples do not count", """
        X h5 -> ok
        F 3 1 1 * -> re 3 1 1 *
        F 3 1 0 * -> re 3 1 0 *
        F 2 0 0 214 -> re 2 0 0 *
        S 1 1 1 2000 60001 {calm} -> st 1 bal 0
        S 1 1 0 2000 0 4000 4000 4000 4000 -> no 3
        S 1 0 0 2000 0 {calm} -> no 4
        S 1 1 2 2000 0 {calm} -> no 5
        S 2 1 0 2000 0 {calm} -> no 2
        F 3 1 1 * -> re 3 1 1 *
        F 3 1 0 * -> re 3 1 0 *
        F 2 0 0 214 -> re 2 0 1 *
        S 1 1 1 2000 0 {calm} -> st 1 bal 0
        S 1 1 2 2000 60001 {calm} -> no 5
        F 3 1 1 * -> re 3 1 1 *
        F 3 1 8 * -> no 10
        F 2 0 0 214 -> re 2 0 1 *
        F 3 1 0 * -> re 3 1 0 *
        F 2 0 0 214 -> re 2 0 0 *
        """, **FIVE)


def host_rows():
    """02, ticket 3: both kinds in a row, each by its own rules; the page's own lines of its host board."""
    told("both kinds", """
        X s5 h5 s6 -> ok
        R -> ln 0 chg 0 dsg 0 at 0 0
        F 5 1 6 199 -> re 5 1 6 199
        R -> ln 0 chg 1 dsg 1 at 0 0
        S 2 1 1 2000 60001 {calm} -> st 1 bal 0
        S 1 1 1 2000 60001 {calm} -> st 1 bal 0
        S 1 1 0 2000 0 {calm} -> st 192 bal 0
        S 2 1 0 2000 0 {calm} -> st 1 bal 0
        R -> ln 1 chg 0 dsg 0 at 0 0
        F 5 1 7 192 -> re 5 1 7 192
        F 5 1 6 199 -> re 5 1 6 199
        R -> ln 0 chg 1 dsg 1 at 0 0
        S 3 1 0 2000 0 1399 {calm} -> st 136 bal 0
        R -> ln 1 chg 1 dsg 0 at 0 0
        S 3 1 0 2000 0 1601 {calm} -> st 192 bal 0
        F 5 1 4 * -> re 5 1 4 *
        R -> ln 0 chg 1 dsg 0 at 0 0
        X h5 -> ok
        F 2 1 0 * -> re 2 1 0 *
        """, **FIVE)
    told("the page's host board", """
        X s5 h5 -> ok
        F 5 1 6 199 -> re 5 1 6 199
        S 2 1000 0 2000 0 {calm} -> st 192 bal 0
        S 2 1000 1 2000 60001 {calm} -> st 1 bal 0
        S 2 1000 0 2000 0 {calm} -> st 1 bal 0
        F 5 1 7 192 -> re 5 1 7 192
        F 5 1 6 199 -> re 5 1 6 199
        F 4 0 0 171 -> re 4 0 192 229
        F 4 16 0 252 -> re 4 16 1 251
        """, **FIVE)


# samples of a board of three: inside every row's bands; past every OV level; past every UV level, with what trips other boards
# beside it; between OV level and band in every row; between UV level and band in rows 0 and 1
THREE = {
    "calm": "S 1 1 0 2000 0 3600 3600 3600",
    "loaded": "S 1 1 1 2000 0 3600 3600 3600",
    "over": "S 1 100000 0 2000 0 3600 4276 3600",
    "under": "S 1 1 1 0 500000 3600 1999 3600",
    "high": "S 1 1 0 2000 0 3600 3600 4180",
    "low": "S 1 1 0 2000 0 2950 3600 3600",
}


def garden_openings():
    """02, ticket 5: three to five cells, rows 0 to 2, triggers 1 to 255; the other kinds have their own range of cells."""
    told("garden boards opened and refused", """
        X g2/0/1 -> no 1
        X g3/3/1 -> no 1
        X g3/0/0 -> no 1
        R -> no 1
        {calm} -> no 1
        X g3/0/1 -> ok
        F 2 0 0 214 -> re 2 0 68 *
        R -> ln 1 chg 0 dsg 1 at 0 0
        {calm} -> st 192 bal 0
        R -> ln 0 chg 1 dsg 1 at 0 0
        X g0/0/1 -> no 1
        X g2/0/1 -> no 1
        X g6/0/1 -> no 1
        X g10/0/1 -> no 1
        X g259/0/1 -> no 1
        X g2147483647/0/1 -> no 1
        X g2147483648/0/1 -> no 12
        X g3/3/1 -> no 1
        X g3/256/1 -> no 1
        X g3/2147483647/1 -> no 1
        X g3/2147483648/1 -> no 12
        X g3/0/0 -> no 1
        X g3/0/256 -> no 1
        X g3/0/257 -> no 1
        X g3/0/2147483647 -> no 1
        X g3/0/2147483648 -> no 12
        X s5 g3/0/0 -> no 1
        X g3/0/1 s4 -> no 1
        X g3/0/1 h4 -> no 1
        X s3 -> no 1
        X h3 -> no 1
        O 3 -> no 1
        X{g17} -> no 1
        X{g17} g3 -> no 12
        R -> ln 0 chg 1 dsg 1 at 0 0
        X g5/2/255 g4/1/1 g3/0/254 -> ok
        {calm} -> no 3
        {calm} 3600 3600 -> st 68 bal 0
        S 2 1 0 2000 0 3600 3600 3600 -> no 3
        S 2 1 0 2000 0 3600 3600 3600 3600 -> st 192 bal 0
        S 3 1 0 2000 0 3600 3600 3600 3600 -> no 3
        S 3 1 0 2000 0 3600 3600 3600 -> st 68 bal 0
        X{g16} -> ok
        S 16 1 0 2000 0 3600 3600 3600 -> st 192 bal 0
        S 17 1 0 2000 0 3600 3600 3600 -> no 2
        R -> ln 1 chg 0 dsg 1 at 0 0
        """, g16=" g3/1/1" * 16, g17=" g3/1/1" * 17, **THREE)
    told("the page's garden board", """
        X s5 h5 g3/0/2 -> ok
        F 6 0 0 125 -> re 6 0 68 166
        S 3 1000 0 2000 0 3600 3600 3600 -> st 68 bal 0
        S 3 1000 0 2000 0 3600 3600 3600 -> st 192 bal 0
        """)


def garden_levels():
    """02, ticket 5: every row with trigger 1, one millivolt to both sides of each level and band, on each cell."""
    for row, (over, over_back, under, under_back) in enumerate(GARDEN_ROWS):
        for cell in range(3):
            head, tail = "S 1 1 0 2000 0" + " 3500" * cell, "3500 " * (2 - cell)
            told(f"row {row}, cell {cell + 1}", f"""
                X g3/{row}/1 -> ok
                {head} {over_back + 1} {tail} -> st 68 bal 0
                {head} {over_back} {tail} -> st 68 bal 0
                {head} {over_back - 1} {tail} -> st 192 bal 0
                {head} {over - 1} {tail} -> st 192 bal 0
                {head} {over} {tail} -> st 192 bal 0
                {head} {over + 1} {tail} -> st 68 bal 0
                {head} {over_back} {tail} -> st 68 bal 0
                {head} {over_back - 1} {tail} -> st 192 bal 0
                {head} {under + 1} {tail} -> st 192 bal 0
                {head} {under} {tail} -> st 192 bal 0
                {head} {under - 1} {tail} -> st 136 bal 0
                {head} {under_back - 1} {tail} -> st 136 bal 0
                {head} {under_back} {tail} -> st 136 bal 0
                {head} {under_back + 1} {tail} -> st 192 bal 0
                """)


def garden_counts():
    """02, ticket 5: up by one or down by one, never below zero, to the trigger and not past it."""
    # recovery from the start: 1, 2. OV: 1, 0, 1, 0, 1, 2; back: 1, 0, 1, 0, 1, 2; UV and its recovery the same
    told("trigger 2", """
        X g3/0/2 -> ok
        {calm} -> st 68 bal 0
        {calm} -> st 192 bal 0
        {over} -> st 192 bal 0
        {calm} -> st 192 bal 0
        {over} -> st 192 bal 0
        {high} -> st 192 bal 0
        {over} -> st 192 bal 0
        {over} -> st 68 bal 0
        {calm} -> st 68 bal 0
        {high} -> st 68 bal 0
        {calm} -> st 68 bal 0
        {over} -> st 68 bal 0
        {calm} -> st 68 bal 0
        {calm} -> st 192 bal 0
        {under} -> st 192 bal 0
        {calm} -> st 192 bal 0
        {under} -> st 192 bal 0
        {low} -> st 192 bal 0
        {under} -> st 192 bal 0
        {under} -> st 136 bal 0
        {calm} -> st 136 bal 0
        {low} -> st 136 bal 0
        {calm} -> st 136 bal 0
        {under} -> st 136 bal 0
        {calm} -> st 136 bal 0
        {calm} -> st 192 bal 0
        """, **THREE)
    told("samples that alternate", "X g3/1/2 -> ok\n"
         + "{calm} -> st 68 bal 0\n{high} -> st 68 bal 0\n" * 30
         + "{calm} -> st 68 bal 0\n{calm} -> st 192 bal 0\n"
         + "{over} -> st 192 bal 0\n{under} -> st 192 bal 0\n" * 30
         + "{under} -> st 136 bal 0\n"
         + "{calm} -> st 136 bal 0\n{low} -> st 136 bal 0\n" * 30, **THREE)
    # 1, 2, 1, 2, 3, and the same for OV with two steps down between
    told("a step down takes one away", """
        X g3/1/3 -> ok
        2: {calm} -> st 68 bal 0
        {high} -> st 68 bal 0
        {calm} -> st 68 bal 0
        {calm} -> st 192 bal 0
        2: {over} -> st 192 bal 0
        {high} -> st 192 bal 0
        {over} -> st 192 bal 0
        {calm} -> st 192 bal 0
        {over} -> st 192 bal 0
        {over} -> st 68 bal 0
        """, **THREE)
    told("never below zero", """
        X g3/0/2 -> ok
        9: {high} -> st 68 bal 0
        {calm} -> st 68 bal 0
        10: {calm} -> st 192 bal 0
        {over} -> st 192 bal 0
        10: {over} -> st 68 bal 0
        {calm} -> st 68 bal 0
        10: {calm} -> st 192 bal 0
        {under} -> st 192 bal 0
        10: {under} -> st 136 bal 0
        {calm} -> st 136 bal 0
        {calm} -> st 192 bal 0
        """, **THREE)
    # 254 up, one down, then two more up
    told("trigger 255", """
        X g3/2/255 -> ok
        254: {calm} -> st 68 bal 0
        {calm} -> st 192 bal 0
        254: {over} -> st 192 bal 0
        {over} -> st 68 bal 0
        254: {calm} -> st 68 bal 0
        {high} -> st 68 bal 0
        {calm} -> st 68 bal 0
        {calm} -> st 192 bal 0
        254: {under} -> st 192 bal 0
        {calm} -> st 192 bal 0
        {under} -> st 192 bal 0
        {under} -> st 136 bal 0
        """, **THREE)
    told("refused samples do not count", """
        X g3/0/2 -> ok
        {calm} -> st 68 bal 0
        S 2 1 0 2000 0 3600 3600 3600 -> no 2
        S 1 1 0 2000 0 3600 3600 -> no 3
        S 1 0 2 5001 500001 3600 3600 5001 -> no 4
        S 1 100001 0 2000 0 3600 3600 3600 -> no 4
        S 1 1 0 2000 0 3600 3600 5001 -> no 5
        S 1 1 0 5001 0 3600 3600 3600 -> no 5
        S 1 1 0 2000 500001 3600 3600 3600 -> no 5
        S 1 1 0 2000 -500001 3600 3600 3600 -> no 5
        S 1 1 2 2000 0 3600 3600 3600 -> no 5
        S 1 100000 1 5000 -500000 3999 3999 0 -> st 192 bal 0
        S 1 1 0 0 500000 5000 0 0 -> st 136 bal 0
        S 1 1 0 0 500000 5000 0 0 -> st 12 bal 0
        """, **THREE)


def garden_cells():
    """02, ticket 5: a count for each cell and fault; those of a fault are zero from its latching on."""
    told("cells take turns", """
        X g3/0/2 -> ok
        {calm} -> st 68 bal 0
        {calm} -> st 192 bal 0
        S 1 1 0 2000 0 4201 3600 3600 -> st 192 bal 0
        S 1 1 0 2000 0 3600 4201 3600 -> st 192 bal 0
        S 1 1 0 2000 0 3600 3600 4201 -> st 192 bal 0
        S 1 1 0 2000 0 2899 3600 3600 -> st 192 bal 0
        S 1 1 0 2000 0 3600 2899 3600 -> st 192 bal 0
        S 1 1 0 2000 0 4201 3600 2899 -> st 192 bal 0
        S 1 1 0 2000 0 4201 3600 3600 -> st 68 bal 0
        """, **THREE)
    # cell 1 trips with cell 2 at 2 and cell 3 at 1; afterwards each needs three of its own
    told("one trips while others have counted", """
        X g3/0/3 -> ok
        2: {calm} -> st 68 bal 0
        {calm} -> st 192 bal 0
        S 1 1 0 2000 0 4201 3600 3600 -> st 192 bal 0
        S 1 1 0 2000 0 4201 4201 3600 -> st 192 bal 0
        S 1 1 0 2000 0 4201 4201 4201 -> st 68 bal 0
        2: {calm} -> st 68 bal 0
        {calm} -> st 192 bal 0
        2: S 1 1 0 2000 0 3600 4201 4201 -> st 192 bal 0
        S 1 1 0 2000 0 3600 3600 4201 -> st 68 bal 0
        """, **THREE)
    # nothing is counted up while OV is latched, and nothing back while it is not
    told("zero while latched, and zero while not", """
        X g3/2/3 -> ok
        5: {over} -> st 68 bal 0
        2: {calm} -> st 68 bal 0
        {calm} -> st 192 bal 0
        7: {calm} -> st 192 bal 0
        2: {over} -> st 192 bal 0
        {over} -> st 68 bal 0
        2: {calm} -> st 68 bal 0
        {calm} -> st 192 bal 0
        """, **THREE)
    # OV back and UV up on the same samples; then OV up, with UV back by one, down by one, and back by two
    told("each fault by itself", """
        X g3/0/2 -> ok
        {under} -> st 68 bal 0
        {under} -> st 136 bal 0
        {over} -> st 136 bal 0
        S 1 1 0 2000 0 3600 4201 2899 -> st 12 bal 0
        {calm} -> st 12 bal 0
        S 1 1 0 2000 0 4100 3600 3600 -> st 68 bal 0
        """, **THREE)


def garden_load():
    """02, ticket 5: in rows with load removal a sample with the load on counts UV back down; OV never asks."""
    for row in (0, 1):
        told(f"row {row} under load", f"""
            X g3/{row}/2 -> ok
            {{loaded}} -> st 68 bal 0
            {{loaded}} -> st 192 bal 0
            {{under}} -> st 192 bal 0
            {{under}} -> st 136 bal 0
            9: {{loaded}} -> st 136 bal 0
            {{calm}} -> st 136 bal 0
            {{loaded}} -> st 136 bal 0
            {{calm}} -> st 136 bal 0
            {{calm}} -> st 192 bal 0
            """, **THREE)
    told("row 2 under load", """
        X g3/2/2 -> ok
        {under} -> st 68 bal 0
        {under} -> st 136 bal 0
        {loaded} -> st 136 bal 0
        {loaded} -> st 192 bal 0
        """, **THREE)


def garden_registers():
    """02, tickets 5 and 7: only register 0 and the tallies answer, and only to reads; 9 goes before 10."""
    told("order of refusals", """
        X g3/0/1 -> ok
        F 2 0 0 -> no 6
        F@3 2 0 0 214 -> no 7
        F 2 0 0 215 -> no 8
        F 4 0 0 171 -> no 2
        F 3 0 0 * -> no 9
        F 3 0 68 * -> no 9
        F 2 1 9 * -> no 9
        F 3 7 255 * -> no 9
        F 2 0 1 * -> no 10
        F 2 0 68 * -> no 10
        F@9 2 0 0 214 -> re 2 0 68 *
        """)
    for register in range(1, 256):
        there = register in LOW_BYTES + HIGH_BYTES
        told(f"register {register} of a garden board", f"""
            X g3/0/1 s5 -> ok
            F 2 {register} 0 * -> {f"re 2 {register} 0 *" if there else "no 9"}
            F 2 {register} 65 * -> no {10 if there else 9}
            F 3 {register} 0 * -> no 9
            F 3 {register} 6 * -> no 9
            F 3 {register} 65 * -> no 9
            F 2 0 0 214 -> re 2 0 68 *
            """)


def garden_rows():
    """02, ticket 5: beside other kinds; its latches count in the reading, and it never names a cell."""
    told("in a row of all kinds", """
        X s5 g3/0/1 h5 -> ok
        R -> ln 1 chg 0 dsg 0 at 0 0
        F 7 1 6 * -> re 7 1 6 *
        R -> ln 1 chg 0 dsg 1 at 0 0
        S 2 1 0 2000 0 3600 3600 3600 -> st 192 bal 0
        R -> ln 0 chg 1 dsg 1 at 0 0
        S 2 1 0 2000 0 3600 3600 2899 -> st 136 bal 0
        R -> ln 1 chg 1 dsg 0 at 0 0
        S 2 1 0 2000 0 4201 3600 2899 -> st 12 bal 0
        R -> ln 1 chg 0 dsg 0 at 0 0
        S 2 1 0 2000 0 3600 3600 3600 -> st 192 bal 0
        S 3 1 0 974 0 {calm} -> st 16 bal 0
        R -> ln 1 chg 0 dsg 0 at 0 0
        S 3 1 0 975 0 {calm} -> st 0 bal 0
        F 7 1 6 * -> re 7 1 6 *
        R -> ln 0 chg 1 dsg 1 at 0 0
        S 1 1 0 2000 0 3600 3600 3600 -> no 3
        S 2 1 0 2000 0 {calm} -> no 3
        F 5 1 6 199 -> no 9
        F 3 1 6 * -> no 9
        F 3 11 65 234 -> re 3 11 0 *
        F 5 11 65 151 -> no 9
        """, **FIVE)
    told("cells are named on other boards only", """
        X g5/0/1 s5 -> ok
        S 1 1 0 2000 0 {calm} -> st 68 bal 0
        9: S 1 100000 0 2000 0 5000 5000 5000 5000 5000 -> st 68 bal 0
        R -> ln 1 chg 0 dsg 1 at 0 0
        6: S 2 100000 0 2000 0 {two} -> st 192 bal 0
        S 2 100000 0 2000 0 {two} -> st 68 bal 2
        R -> ln 1 chg 0 dsg 1 at 2 2
        S 1 1 0 2000 0 3999 3999 3999 3999 3999 -> st 192 bal 0
        R -> ln 1 chg 0 dsg 1 at 2 2
        """, **FIVE)


def host_tallies():
    """02, ticket 7: a latch that stays counts once; one that is cleared by hand and sets again counts again."""
    # the short circuit goes and comes back under the latch; a clear that finds it still there clears and counts nothing
    told("SCD", f"""
        X h5 -> ok
        {tallied(2, 0, 0, 0, 0, 0)}
        S 1 1 1 2000 60001 {{calm}} -> st 1 bal 0
        {tallied(2, 1, 0, 0, 0, 0)}
        2: S 1 1 0 2000 0 {{calm}} -> st 1 bal 0
        S 1 1 1 2000 60001 {{calm}} -> st 1 bal 0
        F 3 1 1 * -> re 3 1 1 *
        F 3 1 0 * -> re 3 1 0 *
        F 2 0 0 214 -> re 2 0 1 *
        S 1 1 1 2000 60001 {{calm}} -> st 1 bal 0
        {tallied(2, 1, 0, 0, 0, 0)}
        S 1 1 0 2000 0 {{calm}} -> st 1 bal 0
        F 3 1 1 * -> re 3 1 1 *
        F 3 1 0 * -> re 3 1 0 *
        F 2 0 0 214 -> re 2 0 0 *
        {tallied(2, 1, 0, 0, 0, 0)}
        S 1 1 1 2000 60001 {{calm}} -> st 1 bal 0
        {tallied(2, 2, 0, 0, 0, 0)}
        F 3 8 1 * -> re 3 8 1 *
        F 3 11 65 234 -> re 3 11 1 *
        S 1 1 1 2000 60001 {{calm}} -> st 1 bal 0
        {tallied(2, 2, 0, 0, 0, 0)}
        """, **FIVE)
    # UV latches at once, OCD behind 20 ms and OV behind 500; overtemperature goes by itself. One clear takes the three others, of
    # which UV and OV come back; the flag of cell 1 stays at 4149
    told("the others", f"""
        X h5 -> ok
        S 1 1 0 2000 10001 4151 1399 4000 4000 4000 -> st 8 bal 0
        5: S 1 100000 0 2000 10001 4151 1399 4000 4000 4000 -> st 10 bal 0
        S 1 1 0 2000 10001 4151 1399 4000 4000 4000 -> st 14 bal 1
        {tallied(2, 0, 1, 1, 1, 0)}
        S 1 1 0 974 0 4149 1401 4000 4000 4000 -> st 30 bal 1
        S 1 1 0 975 0 4149 1401 4000 4000 4000 -> st 14 bal 1
        S 1 1 0 974 0 4149 1401 4000 4000 4000 -> st 30 bal 1
        {tallied(2, 0, 1, 1, 1, 2)}
        F 3 1 1 * -> re 3 1 1 *
        F 3 1 0 * -> re 3 1 0 *
        F 2 0 0 214 -> re 2 0 16 *
        {tallied(2, 0, 1, 1, 1, 2)}
        S 1 1 0 974 10001 4151 1399 4000 4000 4000 -> st 24 bal 1
        {tallied(2, 0, 1, 1, 2, 2)}
        5: S 1 100000 0 974 0 4151 1401 4000 4000 4000 -> st 24 bal 1
        S 1 1 0 974 0 4151 1401 4000 4000 4000 -> st 28 bal 1
        {tallied(2, 0, 1, 2, 2, 2)}
        """, **FIVE)


def garden_tallies():
    """02, ticket 7: a garden board has OV and UV to tally; the OV latch that it starts with is none."""
    # the last sample latches OV and lets UV go, for which it was inside twice
    told("tallies with trigger 2", f"""
        X g3/0/2 -> ok
        {tallied(2, 0, 0, 0, 0, 0)}
        {{over}} -> st 68 bal 0
        {{calm}} -> st 68 bal 0
        {{calm}} -> st 192 bal 0
        {tallied(2, 0, 0, 0, 0, 0)}
        {{over}} -> st 192 bal 0
        {tallied(2, 0, 0, 0, 0, 0)}
        3: {{over}} -> st 68 bal 0
        {tallied(2, 0, 0, 1, 0, 0)}
        {{calm}} -> st 68 bal 0
        {{calm}} -> st 192 bal 0
        {{under}} -> st 192 bal 0
        3: {{under}} -> st 136 bal 0
        {tallied(2, 0, 0, 1, 1, 0)}
        {{over}} -> st 136 bal 0
        {{over}} -> st 68 bal 0
        {tallied(2, 0, 0, 2, 1, 0)}
        """, **THREE)
    # the first sample lets OV go and latches UV; then both go and both come
    told("several in one sample", f"""
        X g3/0/1 -> ok
        {{under}} -> st 136 bal 0
        {tallied(2, 0, 0, 0, 1, 0)}
        {{calm}} -> st 192 bal 0
        S 1 1 0 0 500000 5000 0 0 -> st 12 bal 0
        {tallied(2, 0, 0, 1, 2, 0)}
        {{calm}} -> st 192 bal 0
        S 1 0 0 0 500000 5000 0 0 -> no 4
        {tallied(2, 0, 0, 1, 2, 0)}
        """, **THREE)
    often = "{over} -> st 68 bal 0\n{calm} -> st 192 bal 0\n"
    told("past one byte", f"""
        X g3/2/1 -> ok
        {{calm}} -> st 192 bal 0
        {often * 255}{tallied(2, 0, 0, 255, 0, 0)}
        {often}{tallied(2, 0, 0, 256, 0, 0)}
        """, **THREE)
    told("each board its own", f"""
        X s5 g3/0/1 h5 -> ok
        S 2 1 0 2000 0 3600 3600 3600 -> st 192 bal 0
        S 1 1 1 2000 60001 {{calm}} -> st 1 bal 0
        S 3 1 1 2000 60001 {{calm}} -> st 1 bal 0
        S 2 1 0 2000 0 4201 3600 3600 -> st 68 bal 0
        S 3 1 0 974 0 {{calm}} -> st 17 bal 0
        {tallied(2, 1, 0, 0, 0, 0)}
        {tallied(4, 0, 0, 1, 0, 0)}
        {tallied(6, 1, 0, 0, 0, 1)}
        """, **FIVE)


def listed(entries):
    """The answer that lists these entries, each a cause, a cell and a number."""
    return " ".join(["ls", str(len(entries))] + [str(number) for entry in entries for number in entry])


def journal_entries():
    """02, ticket 8: one entry for each latching, with its cause and the number of its sample."""
    # latched at samples 1 and 5; it stays at 2 and 3 and lets go at 4, which enter nothing
    told("SCD", """
        X s5 -> ok
        L 1 0 -> ls 0
        S 1 1 1 2000 60001 {calm} -> st 1 bal 0
        L 1 1 -> ls 1 0 0 1
        2: S 1 1 1 2000 60001 {calm} -> st 1 bal 0
        S 1 1 0 2000 0 {calm} -> st 192 bal 0
        L 1 1 -> ls 1 0 0 1
        S 1 1 1 2000 60001 {calm} -> st 1 bal 0
        L 1 2 -> ls 2 0 0 1 0 0 5
        """, **FIVE)
    # OCD behind 20 ms at sample 2; OV of cell 2 behind 500 ms, held from 4 on, at 10; UV of cell 4 at 12; heat, as UV goes, at 13
    told("the others", """
        X s5 -> ok
        S 1 1 0 2000 10001 {calm} -> st 192 bal 0
        L 1 0 -> ls 0
        S 1 20001 0 2000 10001 {calm} -> st 2 bal 0
        S 1 1 0 2000 0 {calm} -> st 192 bal 0
        6: S 1 100000 0 2000 0 {two} -> st 192 bal 0
        L 1 1 -> ls 1 1 0 2
        S 1 100000 0 2000 0 {two} -> st 68 bal 2
        S 1 1 0 2000 0 {calm} -> st 192 bal 0
        S 1 1 0 2000 0 4000 4000 4000 1399 4000 -> st 136 bal 0
        S 1 1 0 974 0 {calm} -> st 16 bal 0
        L 1 4 -> ls 4 1 0 2 2 2 10 3 4 12 4 0 13
        """, **FIVE)
    # OV has 500 ms at sample 6 and 600 at 7; OCD, held from 6 on, has 100 at 7
    told("OV and OCD in one sample", """
        X s5 -> ok
        5: S 1 100000 0 2000 0 {one} -> st 192 bal 0
        S 1 100000 0 2000 10001 {one} -> st 192 bal 0
        L 1 0 -> ls 0
        S 1 100000 0 2000 10001 {one} -> st 6 bal 1
        L 1 2 -> ls 2 1 0 7 2 1 7
        """, **FIVE)
    # the same, and at sample 7 the three that need no delay; all let go at 8, and UV and SCD come back at 9
    told("all five in one sample", """
        X s5 -> ok
        5: S 1 100000 0 2000 0 {one} -> st 192 bal 0
        S 1 100000 0 2000 10001 {one} -> st 192 bal 0
        S 1 100000 1 974 60001 4151 4000 1399 4000 4000 -> st 31 bal 1
        L 1 4 -> no 14
        L 1 5 -> ls 5 0 0 7 1 0 7 2 1 7 3 3 7 4 0 7
        S 1 1 0 975 10000 {calm} -> st 192 bal 0
        L 1 5 -> ls 5 0 0 7 1 0 7 2 1 7 3 3 7 4 0 7
        S 1 1 0 2000 60001 4000 4000 4000 4000 0 -> st 9 bal 0
        L 1 7 -> ls 7 0 0 7 1 0 7 2 1 7 3 3 7 4 0 7 0 0 9 3 5 9
        """, **FIVE)


def journal_cells():
    """02, ticket 8: the cell is the lowest that stood its delay at the sample, not the lowest past the level."""
    # cell 5 is over from sample 1 on, cell 2 from 2, cell 1 from 3: at 7 they have 600, 500 and 400 ms. That the others stand
    # at 8 and 9 is no latching; from the highest down 5 is bled, 4 and 3 are not flagged, 2 is, and 1 is too close to 2
    told("cells that join", """
        X s5 -> ok
        S 1 100000 0 2000 0 4000 4000 4000 4000 4151 -> st 192 bal 0
        S 1 100000 0 2000 0 4000 4151 4000 4000 4151 -> st 192 bal 0
        4: S 1 100000 0 2000 0 4151 4151 4000 4000 4151 -> st 192 bal 0
        S 1 100000 0 2000 0 4151 4151 4000 4000 4151 -> st 68 bal 16
        L 1 1 -> ls 1 2 5 7
        2: S 1 100000 0 2000 0 4151 4151 4000 4000 4151 -> st 68 bal 18
        L 1 1 -> ls 1 2 5 7
        """, **FIVE)
    # cells 2 and 4 together from sample 1, cell 1 behind them
    told("two that stand", """
        X s5 -> ok
        S 1 100000 0 2000 0 4000 4151 4000 4151 4000 -> st 192 bal 0
        5: S 1 100000 0 2000 0 4151 4151 4000 4151 4000 -> st 192 bal 0
        S 1 100000 0 2000 0 4151 4151 4000 4151 4000 -> st 68 bal 8
        L 1 1 -> ls 1 2 2 7
        """, **FIVE)
    # cell 1 is at the level on sample 4, so that its run is of 300 ms at 8, where cell 3, over from 2 on, has 600
    told("a run that was broken", """
        X s5 -> ok
        S 1 100000 0 2000 0 {one} -> st 192 bal 0
        2: S 1 100000 0 2000 0 4151 4000 4151 4000 4000 -> st 192 bal 0
        S 1 100000 0 2000 0 4150 4000 4151 4000 4000 -> st 192 bal 0
        3: S 1 100000 0 2000 0 4151 4000 4151 4000 4000 -> st 192 bal 0
        S 1 100000 0 2000 0 4151 4000 4151 4000 4000 -> st 68 bal 4
        L 1 1 -> ls 1 2 3 8
        """, **FIVE)
    # no delay: every cell under the level has stood, at sample 1 and again at 4; cell 1 comes under the latch, at 2
    told("UV without a delay", """
        X s10 -> ok
        S 1 1 0 2000 0 {calm} 4000 1399 1399 4000 1399 -> st 136 bal 0
        L 1 1 -> ls 1 3 7 1
        S 1 1 0 2000 0 1399 4000 4000 4000 4000 4000 1399 1399 4000 1399 -> st 136 bal 0
        L 1 1 -> ls 1 3 7 1
        S 1 1 0 2000 0 {calm} {calm} -> st 192 bal 0
        S 1 1 0 2000 0 {calm} 4000 4000 4000 4000 1399 -> st 136 bal 0
        L 1 2 -> ls 2 3 7 1 3 10 4
        """, **FIVE)
    # code 7 is 30 ms: at sample 3 cell 3 has 30,001 us and cell 1, which is the lower one, 1 us
    told("UV behind its delay", """
        X h5 -> ok
        F 3 9 112 * -> re 3 9 112 *
        F 3 11 65 234 -> re 3 11 1 *
        S 1 1 0 2000 0 4000 4000 1399 4000 4000 -> st 0 bal 0
        S 1 30000 0 2000 0 1399 4000 1399 4000 4000 -> st 0 bal 0
        L 1 0 -> ls 0
        S 1 1 0 2000 0 1399 4000 1399 4000 4000 -> st 8 bal 0
        L 1 1 -> ls 1 3 3 3
        """, **FIVE)


def journal_gardens():
    """02, ticket 8: on a garden board the lowest cell whose count reached the trigger; the latch it starts with is no entry."""
    # cell 2 has 2 at sample 4 and cell 1 has 1; at 8 both have 2
    told("trigger 2", """
        X g3/0/2 -> ok
        L 1 0 -> ls 0
        {calm} -> st 68 bal 0
        {calm} -> st 192 bal 0
        L 1 0 -> ls 0
        {over} -> st 192 bal 0
        S 1 1 0 2000 0 4201 4201 3600 -> st 68 bal 0
        L 1 1 -> ls 1 2 2 4
        {calm} -> st 68 bal 0
        {calm} -> st 192 bal 0
        S 1 1 0 2000 0 4201 4201 3600 -> st 192 bal 0
        S 1 1 0 2000 0 4201 4201 3600 -> st 68 bal 0
        L 1 2 -> ls 2 2 2 4 2 1 8
        """, **THREE)
    # cell 1 has 1, 0 and 1 at samples 4 to 6, cell 2 has 1 at 6, cell 3 has 1, 2 and 3
    told("a count that went down", """
        X g3/0/3 -> ok
        2: {calm} -> st 68 bal 0
        {calm} -> st 192 bal 0
        S 1 1 0 2000 0 2899 3600 2899 -> st 192 bal 0
        S 1 1 0 2000 0 2900 3600 2899 -> st 192 bal 0
        S 1 1 0 2000 0 2899 2899 2899 -> st 136 bal 0
        L 1 1 -> ls 1 3 3 6
        """, **THREE)
    # the first sample lets the OV latch of the start go; heat and current are nothing here
    told("OV and UV in one sample", """
        X g3/2/1 -> ok
        S 1 1 0 974 500000 3600 3600 3600 -> st 192 bal 0
        L 1 0 -> ls 0
        S 1 1 0 0 500000 1999 1999 4276 -> st 12 bal 0
        L 1 1 -> no 14
        L 1 2 -> ls 2 2 3 2 3 1 2
        {calm} -> st 192 bal 0
        {over} -> st 68 bal 0
        L 1 3 -> ls 3 2 3 2 3 1 2 2 2 4
        """, **THREE)
    told("UV under the OV latch of the start", """
        X g3/0/2 -> ok
        S 1 1 0 2000 0 4201 3600 2899 -> st 68 bal 0
        S 1 1 0 2000 0 4201 3600 2899 -> st 12 bal 0
        L 1 1 -> ls 1 3 3 2
        """)


def journal_numbers():
    """02, ticket 8: the number counts the board's accepted samples, the present one included, and never restarts."""
    # refused samples, other boards' samples, frames, readings and listings are none of board 1's samples
    told("accepted samples of that board", """
        X s5 h5 -> ok
        S 1 1 0 2000 0 {calm} -> st 192 bal 0
        S 1 0 0 974 0 {calm} -> no 4
        S 1 1 2 974 60001 {calm} -> no 5
        S 1 1 0 974 0 4000 -> no 3
        S 3 1 0 974 0 {calm} -> no 2
        3: S 2 1 0 2000 0 {calm} -> st 0 bal 0
        S 2 1 0 974 0 {calm} -> st 16 bal 0
        F 2 0 0 214 -> re 2 0 192 152
        R -> ln 1 chg 0 dsg 0 at 0 0
        L 1 0 -> ls 0
        S 1 1 0 974 0 {calm} -> st 16 bal 0
        L 1 1 -> ls 1 4 0 2
        L 2 1 -> ls 1 4 0 4
        X s5 h4 -> no 1
        L 2 1 -> ls 1 4 0 4
        X s5 h5 -> ok
        L 1 0 -> ls 0
        L 2 0 -> ls 0
        S 2 1 0 974 0 {calm} -> st 16 bal 0
        L 2 1 -> ls 1 4 0 1
        """, **FIVE)
    # equal sets, a spent cycle, crossed levels; the latch of SCD outlasts a cycle, which enters nothing; no cycle left
    told("programming leaves journal and number", """
        X s5 -> ok
        S 1 1 1 2000 60001 {calm} -> st 1 bal 0
        S 1 1 0 2000 0 {calm} -> st 192 bal 0
        F 3 11 65 234 -> re 3 11 0 *
        L 1 1 -> ls 1 0 0 1
        F 3 6 7 214 -> re 3 6 7 214
        F 3 11 65 234 -> re 3 11 1 *
        L 1 1 -> ls 1 0 0 1
        S 1 1 1 2000 60001 {calm} -> st 1 bal 0
        L 1 2 -> ls 2 0 0 1 0 0 3
        F 3 8 1 * -> re 3 8 1 *
        F 3 11 65 234 -> re 3 11 2 *
        S 1 1 1 2000 60001 {calm} -> st 1 bal 0
        L 1 2 -> ls 2 0 0 1 0 0 3
        F 3 9 10 54 -> re 3 9 10 54
        F 3 11 65 234 -> no 13
        F 3 9 1 * -> re 3 9 1 *
        F 3 11 65 234 -> re 3 11 3 *
        F 3 9 2 * -> re 3 9 2 *
        F 3 11 65 234 -> no 11
        S 1 1 0 2000 0 {calm} -> st 192 bal 0
        S 1 1 0 974 0 {calm} -> st 16 bal 0
        L 1 3 -> ls 3 0 0 1 0 0 3 4 0 6
        """, **FIVE)
    # a spent cycle starts cell 2's run over: at sample 9 it has 500 ms, and at 10 it has 600, as has cell 1 from 4 on
    told("a run that starts over", """
        X s5 -> ok
        3: S 1 100000 0 2000 0 {two} -> st 192 bal 0
        F 3 8 1 * -> re 3 8 1 *
        F 3 11 65 234 -> re 3 11 1 *
        6: S 1 100000 0 2000 0 {both} -> st 192 bal 0
        S 1 100000 0 2000 0 {both} -> st 68 bal 2
        L 1 1 -> ls 1 2 1 10
        """, **FIVE)


def journal_clears():
    """02, ticket 8: a clear enters nothing, and what latches again after it is entered again."""
    # the short circuit is still there at the first clear; SCD and heat at sample 5, in their order
    told("SCD on a host board", """
        X h5 -> ok
        S 1 1 1 2000 60001 {calm} -> st 1 bal 0
        S 1 1 0 2000 0 {calm} -> st 1 bal 0
        S 1 1 1 2000 60001 {calm} -> st 1 bal 0
        F 3 1 1 * -> re 3 1 1 *
        F 3 1 0 * -> re 3 1 0 *
        F 2 0 0 214 -> re 2 0 1 *
        L 1 1 -> ls 1 0 0 1
        S 1 1 0 2000 0 {calm} -> st 1 bal 0
        F 3 1 1 * -> re 3 1 1 *
        F 3 1 0 * -> re 3 1 0 *
        F 2 0 0 214 -> re 2 0 0 *
        L 1 1 -> ls 1 0 0 1
        S 1 1 1 974 60001 {calm} -> st 17 bal 0
        L 1 3 -> ls 3 0 0 1 0 0 5 4 0 5
        S 1 1 0 975 0 {calm} -> st 1 bal 0
        S 1 1 0 974 0 {calm} -> st 17 bal 0
        L 1 4 -> ls 4 0 0 1 0 0 5 4 0 5 4 0 7
        """, **FIVE)
    # cell 5 under, then over the level and cleared, then cell 2 under
    told("UV on a host board", """
        X h5 -> ok
        S 1 1 0 2000 0 4000 4000 4000 4000 1399 -> st 8 bal 0
        S 1 1 0 2000 0 4000 1399 4000 4000 1401 -> st 8 bal 0
        S 1 1 0 2000 0 4000 1401 4000 4000 1401 -> st 8 bal 0
        F 3 1 1 * -> re 3 1 1 *
        F 3 1 0 * -> re 3 1 0 *
        F 2 0 0 214 -> re 2 0 0 *
        S 1 1 0 2000 0 4000 1399 4000 4000 1399 -> st 8 bal 0
        L 1 2 -> ls 2 3 5 1 3 2 4
        """, **FIVE)


def journal_rooms():
    """02, ticket 8: refusals 1, 2, 14 in this order; an empty listing needs no room, and exact room is enough."""
    told("refusals", """
        L 1 0 -> no 1
        L 1 128 -> no 1
        L 0 0 -> no 1
        L 17 2147483647 -> no 1
        X s4 -> no 1
        L 1 128 -> no 1
        X s5 g3/0/1 -> ok
        L 0 0 -> no 2
        L 0 128 -> no 2
        L 3 0 -> no 2
        L 3 128 -> no 2
        L 257 128 -> no 2
        L 2147483647 0 -> no 2
        L 1 0 -> ls 0
        L 1 2147483647 -> ls 0
        L 2 0 -> ls 0
        S 1 1 1 974 60001 4000 1399 1399 4000 4000 -> st 25 bal 0
        L 1 0 -> no 14
        L 1 1 -> no 14
        L 1 2 -> no 14
        L 1 3 -> ls 3 0 0 1 3 2 1 4 0 1
        L 1 4 -> ls 3 0 0 1 3 2 1 4 0 1
        L 1 128 -> ls 3 0 0 1 3 2 1 4 0 1
        L 1 129 -> ls 3 0 0 1 3 2 1 4 0 1
        L 1 256 -> ls 3 0 0 1 3 2 1 4 0 1
        L 1 65536 -> ls 3 0 0 1 3 2 1 4 0 1
        L 1 2147483647 -> ls 3 0 0 1 3 2 1 4 0 1
        L 1 2147483648 -> no 12
        L 3 0 -> no 2
        L 2 0 -> ls 0
        L 1 2 -> no 14
        """)


def journal_floods():
    """02, ticket 8: the last 128 latchings, or all of them if fewer."""
    # heat at each odd sample: the latching k is of sample 2k - 1
    heat = "S 1 1 0 974 0 {calm} -> st 16 bal 0\nS 1 1 0 975 0 {calm} -> st 192 bal 0\n"
    first = [(4, 0, 2 * k - 1) for k in range(1, 129)]
    told("129 latchings", f"""
        X s5 s5 -> ok
        {heat * 127}L 1 126 -> no 14
        L 1 127 -> {listed(first[:127])}
        {heat}L 1 127 -> no 14
        L 1 128 -> {listed(first)}
        L 1 129 -> {listed(first)}
        {heat}L 1 127 -> no 14
        L 1 128 -> {listed(first[1:] + [(4, 0, 257)])}
        L 1 2147483647 -> {listed(first[1:] + [(4, 0, 257)])}
        {heat * 127}L 1 128 -> {listed([(4, 0, 257 + 2 * k) for k in range(128)])}
        {heat}L 1 128 -> {listed([(4, 0, 259 + 2 * k) for k in range(128)])}
        L 1 0 -> no 14
        L 2 0 -> ls 0
        """, **FIVE)
    # 127 of heat, then three at sample 255: the last two of them take the places of the first two
    told("across the end in one sample", f"""
        X s5 -> ok
        {heat * 127}S 1 1 1 974 60001 4000 1399 4000 4000 4000 -> st 25 bal 0
        L 1 128 -> {listed(first[2:127] + [(0, 0, 255), (3, 2, 255), (4, 0, 255)])}
        """, **FIVE)
    # a host clears after each; UV of cell 3 at each odd sample
    hand = ("S 1 1 0 2000 0 4000 4000 1399 4000 4000 -> st 8 bal 0\nS 1 1 0 2000 0 {calm} -> st 8 bal 0\n"
            "F 3 1 1 * -> re 3 1 1 *\nF 3 1 0 * -> re 3 1 0 *\n")
    told("on a host board", f"""
        X h5 -> ok
        {hand * 129}L 1 127 -> no 14
        L 1 128 -> {listed([(3, 3, 2 * k - 1) for k in range(2, 130)])}
        """, **FIVE)
    # OV and UV at each even sample: 65 times two are two too many
    both = "S 1 1 0 2000 0 1999 4276 3600 -> st 12 bal 0\n{calm} -> st 192 bal 0\n"
    told("on a garden board", f"""
        X g3/2/1 -> ok
        {{calm}} -> st 192 bal 0
        {both * 64}L 1 128 -> {listed([entry for k in range(1, 65) for entry in ((2, 2, 2 * k), (3, 1, 2 * k))])}
        {both}L 1 127 -> no 14
        L 1 128 -> {listed([entry for k in range(2, 66) for entry in ((2, 2, 2 * k), (3, 1, 2 * k))])}
        {{over}} -> st 68 bal 0
        L 1 128 -> {listed([(3, 1, 4)] + [entry for k in range(3, 66) for entry in ((2, 2, 2 * k), (3, 1, 2 * k))] + [(2, 2, 132)])}
        """, **THREE)


def page_journal():
    """The page's own listings, of the boards of its session."""
    told("the page's listings", """
        X s5 h5 g3/0/2 -> ok
        F 5 1 6 199 -> re 5 1 6 199
        S 2 1000 0 2000 0 {calm} -> st 192 bal 0
        S 2 1000 1 2000 60001 {calm} -> st 1 bal 0
        S 2 1000 0 2000 0 {calm} -> st 1 bal 0
        F 5 1 7 192 -> re 5 1 7 192
        F 5 1 6 199 -> re 5 1 6 199
        L 2 0 -> no 14
        L 2 128 -> ls 1 0 0 2
        L 4 128 -> no 2
        L 1 0 -> ls 0
        """, **FIVE)


def ups_along_a_row():
    """02, ticket 9: the southernmost board with a latch, or all of them where none has one; the line is the reading's."""
    # from the north to the south and back; what lies north of the first latch is nothing to the answer
    told("four boards", """
        X s5 h5 s5 h5 -> ok
        U -> up 0 4
        R -> ln 0 chg 0 dsg 0 at 0 0
        S 4 1 0 974 0 {calm} -> st 16 bal 0
        U -> up 1 4
        R -> ln 1 chg 0 dsg 0 at 0 0
        S 2 1 0 974 0 {calm} -> st 16 bal 0
        U -> up 1 2
        S 3 1 0 974 0 {calm} -> st 16 bal 0
        U -> up 1 2
        S 1 1 1 2000 60001 {calm} -> st 1 bal 0
        U -> up 1 1
        S 3 1 0 2000 0 {calm} -> st 192 bal 0
        U -> up 1 1
        S 1 1 0 2000 0 {calm} -> st 192 bal 0
        U -> up 1 2
        S 2 1 0 2000 0 {calm} -> st 0 bal 0
        U -> up 1 4
        R -> ln 1 chg 0 dsg 0 at 0 0
        S 4 1 0 2000 0 {calm} -> st 0 bal 0
        2: U -> up 0 4
        R -> ln 0 chg 0 dsg 0 at 0 0
        """, **FIVE)
    told("one board", """
        O 5 -> ok
        U -> up 0 1
        S 1 1 0 974 0 {calm} -> st 16 bal 0
        U -> up 1 1
        S 1 1 0 975 0 {calm} -> st 192 bal 0
        U -> up 0 1
        """, **FIVE)
    heat = "\n".join(f"S {number} 1 0 974 0 {{calm}} -> st 16 bal 0\nU -> up 1 {number}" for number in range(16, 0, -1))
    cool = "\n".join(f"S {number} 1 0 2000 0 {{calm}} -> st 192 bal 0\nU -> up 1 {number + 1}" for number in range(1, 16))
    told("sixteen boards", f"""
        O{" 5" * 16} -> ok
        U -> up 0 16
        R -> ln 0 chg 1 dsg 1 at 0 0
        {heat}
        R -> ln 1 chg 0 dsg 0 at 0 0
        {cool}
        R -> ln 1 chg 0 dsg 0 at 0 0
        S 16 1 0 2000 0 {{calm}} -> st 192 bal 0
        U -> up 0 16
        R -> ln 0 chg 1 dsg 1 at 0 0
        """, **FIVE)
    # with board 3 hot throughout: SCD, OCD past 20 ms, OV past 500 ms, UV, each alone on board 2 and gone again
    told("each fault", """
        O 5 5 5 -> ok
        S 3 1 0 974 0 {calm} -> st 16 bal 0
        S 2 1 1 2000 60001 {calm} -> st 1 bal 0
        U -> up 1 2
        S 2 1 1 2000 60000 {calm} -> st 1 bal 0
        U -> up 1 2
        S 2 1 0 2000 0 {calm} -> st 192 bal 0
        U -> up 1 3
        S 2 1 0 2000 10001 {calm} -> st 192 bal 0
        S 2 20000 0 2000 10001 {calm} -> st 192 bal 0
        U -> up 1 3
        S 2 1 0 2000 10001 {calm} -> st 2 bal 0
        U -> up 1 2
        S 2 1 0 2000 10000 {calm} -> st 192 bal 0
        U -> up 1 3
        6: S 2 100000 0 2000 0 {one} -> st 192 bal 0
        U -> up 1 3
        S 2 1 0 2000 0 {one} -> st 68 bal 1
        U -> up 1 2
        R -> ln 1 chg 0 dsg 0 at 2 1
        S 2 1 0 2000 0 {calm} -> st 192 bal 0
        U -> up 1 3
        S 2 1 0 2000 0 1399 4000 4000 4000 4000 -> st 136 bal 0
        U -> up 1 2
        S 2 1 0 2000 0 1600 4000 4000 4000 4000 -> st 136 bal 0
        U -> up 1 2
        S 2 1 0 2000 0 1601 4000 4000 4000 4000 -> st 192 bal 0
        U -> up 1 3
        """, **FIVE)


def ups_of_hosts():
    """02, ticket 9: a latch counts, and neither a switch that is off nor a flag does."""
    told("off and on without a latch", """
        X h5 s5 -> ok
        F 2 0 0 214 -> re 2 0 0 *
        U -> up 0 2
        R -> ln 0 chg 0 dsg 0 at 0 0
        S 1 1 0 2000 0 {calm} -> st 0 bal 0
        U -> up 0 2
        F 3 1 2 * -> re 3 1 2 *
        U -> up 0 2
        F 3 1 6 * -> re 3 1 6 *
        U -> up 0 2
        R -> ln 0 chg 1 dsg 1 at 0 0
        F 3 1 1 * -> re 3 1 1 *
        S 2 1 0 974 0 {calm} -> st 16 bal 0
        U -> up 1 2
        """, **FIVE)
    # a calm sample leaves the latch, the clear takes it, and both switches stay off
    told("a latch that stays, and its clear", """
        X s5 h5 s5 -> ok
        F 5 1 6 199 -> re 5 1 6 199
        S 2 1 1 2000 60001 {calm} -> st 1 bal 0
        U -> up 1 2
        S 2 1 0 2000 0 {calm} -> st 1 bal 0
        U -> up 1 2
        F 5 1 1 * -> re 5 1 1 *
        U -> up 1 2
        F 5 1 0 * -> re 5 1 0 *
        F 4 0 0 171 -> re 4 0 0 *
        U -> up 0 3
        R -> ln 0 chg 0 dsg 0 at 0 0
        """, **FIVE)
    # 4149 clears OV and is not lower than 4050, so that cell 1 keeps its flag
    told("a flag without a latch", """
        X h5 s5 -> ok
        6: S 1 100000 0 2000 0 {one} -> st 0 bal 0
        S 1 1 0 2000 0 {one} -> st 4 bal 1
        U -> up 1 1
        S 1 1 0 2000 0 4149 4000 4000 4000 4000 -> st 4 bal 1
        F 3 1 1 * -> re 3 1 1 *
        F 3 1 6 * -> re 3 1 6 *
        F 2 0 0 214 -> re 2 0 192 152
        U -> up 0 2
        R -> ln 0 chg 1 dsg 1 at 1 1
        """, **FIVE)


def ups_of_gardens():
    """02, ticket 9: the OV latch that a garden board starts with is one."""
    told("north of a stand-alone and a host board", """
        X s5 h5 g3/0/2 -> ok
        U -> up 1 3
        R -> ln 1 chg 0 dsg 0 at 0 0
        S 3 1 0 2000 0 3600 3600 3600 -> st 68 bal 0
        U -> up 1 3
        S 3 1 0 2000 0 3600 3600 3600 -> st 192 bal 0
        U -> up 0 3
        R -> ln 0 chg 0 dsg 0 at 0 0
        S 3 1 0 2000 0 3600 2899 3600 -> st 192 bal 0
        U -> up 0 3
        S 3 1 0 2000 0 3600 2899 3600 -> st 136 bal 0
        U -> up 1 3
        """)
    told("south of a stand-alone board", """
        X g3/2/1 s5 -> ok
        U -> up 1 1
        S 2 1 0 974 0 {five} -> st 16 bal 0
        U -> up 1 1
        {calm} -> st 192 bal 0
        U -> up 1 2
        S 2 1 0 975 0 {five} -> st 192 bal 0
        U -> up 0 2
        """, five="4000 4000 4000 4000 4000", **THREE)
    # heat and current are nothing to board 1
    told("three of them", """
        X g3/0/1 g4/1/1 g5/2/1 -> ok
        U -> up 1 1
        S 2 1 0 2000 0 3600 3600 3600 3600 -> st 192 bal 0
        U -> up 1 1
        S 1 1 1 974 500000 3600 3600 3600 -> st 192 bal 0
        U -> up 1 3
        S 3 1 0 2000 0 3600 3600 3600 3600 3600 -> st 192 bal 0
        U -> up 0 3
        R -> ln 0 chg 1 dsg 1 at 0 0
        S 2 1 0 2000 0 3600 3600 3600 4251 -> st 68 bal 0
        U -> up 1 2
        R -> ln 1 chg 0 dsg 1 at 0 0
        """)
    told("sixteen of them", f"""
        X{" g3/0/1" * 16} -> ok
        U -> up 1 1
        X{" s5" * 15} g3/0/255 -> ok
        U -> up 1 16
        """)


def ups_refused():
    """02, ticket 9: 1 before a good opening and at no other time; a question changes nothing."""
    told("refusals", """
        U -> no 1
        X -> no 1
        U -> no 1
        O 4 -> no 1
        X s5 q5 -> no 12
        U 1 -> no 12
        U -> no 1
        X s5 s5 -> ok
        U -> up 0 2
        S 3 1 0 974 0 {calm} -> no 2
        S 2 0 0 974 0 {calm} -> no 4
        U -> up 0 2
        S 2 1 0 974 0 {calm} -> st 16 bal 0
        U -> up 1 2
        O -> no 1
        X s5 s5 s4 -> no 1
        U -> up 1 2
        X s5 s5 s5 -> ok
        U -> up 0 3
        """, **FIVE)
    # OCD from sample 1 on, and its number is 3: two questions between are no samples
    told("between samples", """
        O 5 -> ok
        S 1 1 0 2000 10001 {calm} -> st 192 bal 0
        U -> up 0 1
        S 1 20000 0 2000 10001 {calm} -> st 192 bal 0
        U -> up 0 1
        S 1 1 0 2000 10001 {calm} -> st 2 bal 0
        U -> up 1 1
        L 1 1 -> ls 1 1 0 3
        2: U -> up 1 1
        F 2 17 0 * -> re 2 17 1 *
        """, **FIVE)
    # cycles spent and settings staged are nothing to it; the latch outlasts a programming
    told("between frames", """
        O 5 -> ok
        S 1 1 1 2000 60001 {calm} -> st 1 bal 0
        F 3 10 1 * -> re 3 10 1 *
        U -> up 1 1
        F 3 11 65 234 -> re 3 11 1 *
        U -> up 1 1
        F 2 10 0 * -> re 2 10 1 *
        S 1 1 0 2000 0 {calm} -> st 192 bal 0
        U -> up 0 1
        """, **FIVE)


def page_ups():
    """The page's own questions, of the boards of its session."""
    told("the page's questions", """
        X s5 h5 g3/0/2 -> ok
        U -> up 1 3
        F 6 0 0 125 -> re 6 0 68 166
        S 3 1000 0 2000 0 3600 3600 3600 -> st 68 bal 0
        S 3 1000 0 2000 0 3600 3600 3600 -> st 192 bal 0
        U -> up 0 3
        O 5 -> ok
        S 1 1000 0 2000 0 {calm} -> st 192 bal 0
        U -> up 0 1
        """, **FIVE)


# What stands in a recording, field by field: bytes in hex, the low one first.
# S 1 1000 0 2000 0 {calm}, 28 bytes: kind, length; board, elapsed, load, thermistor, shunt, cells; refusal, status, bled
SAMPLED = "01 16  01 e8030000 00 d007 00000000 a00fa00fa00fa00fa00f  00 c0 0000"
# F 2 0 0 214, 11 bytes: kind, length; the frame; refusal, the reply
FRAMED = "02 04  020000d6  00 0200c098"
# R, 8 bytes: kind, length; refusal, line, CHG, DSG, board, cell
READ = "03 00  00 00 01 01 00 00"
# F, 3 bytes: kind, length; refusal
NONE_FRAMED = "02 00  06"
# S 1 1000 0 2000 0, 15 bytes: no cells
NONE_SAMPLED = "01 0c  01 e8030000 00 d007 00000000  03"


SHOWN = []      # what sessions show, each a good recording


def joined(*parts):
    """These bytes in one piece."""
    return "".join(parts).replace(" ", "")


def shown(*parts):
    """The answer that shows these bytes."""
    SHOWN.append(joined(*parts))
    return "hex " + SHOWN[-1]


def of_five(count, *acts):
    """The same of one stand-alone board of five, with the count of acts as it stands in the header: edition, boards, acts, board."""
    return shown("0100 0100", count, "00 05", *acts)


def recorded_headers():
    """02, ticket 10: edition, boards and acts, then kind and cells of each board; exactly so many bytes are needed, or more."""
    told("one board", f"""
        O 5 -> ok
        W 9 -> rec 16
        D -> no 15
        W 10 -> rec 0
        D -> hex 01000100000000000005
        W 11 -> rec 0
        D -> hex 01000100000000000005
        W 0 -> rec 16
        D -> no 15
        W 2147483647 -> rec 0
        D -> {of_five("00000000")}
        """)
    told("three boards of two kinds", f"""
        X s7 h10 s5 -> ok
        W 13 -> rec 16
        W 14 -> rec 0
        D -> {shown("0100 0300 00000000", "00 07", "01 0a", "00 05")}
        W 15 -> rec 0
        D -> {shown("0100 0300 00000000", "00 07", "01 0a", "00 05")}
        """)
    told("sixteen boards", f"""
        X{" h9" * 15} s6 -> ok
        W 39 -> rec 16
        D -> no 15
        W 40 -> rec 0
        D -> {shown("0100 1000 00000000", "01 09" * 15, "00 06")}
        W 41 -> rec 0
        D -> {shown("0100 1000 00000000", "01 09" * 15, "00 06")}
        """)


def recorded_acts():
    """02, ticket 10: each kind of act in its bytes."""
    told("one reading", f"""
        O 5 -> ok
        W 100 -> rec 0
        R -> ln 0 chg 1 dsg 1 at 0 0 | rec 0
        D -> {of_five("01000000", READ)}
        """)
    told("one sample", f"""
        O 5 -> ok
        W 100 -> rec 0
        S 1 1000 0 2000 0 {{calm}} -> st 192 bal 0 | rec 0
        D -> {of_five("01000000", SAMPLED)}
        """, **FIVE)
    told("one frame", f"""
        O 5 -> ok
        W 100 -> rec 0
        F 2 0 0 214 -> re 2 0 192 152 | rec 0
        D -> {of_five("01000000", FRAMED)}
        """)
    # room beyond the four bytes is not recorded
    told("one frame with more room", f"""
        O 5 -> ok
        W 100 -> rec 0
        F@4 2 0 0 214 -> re 2 0 192 152 | rec 0
        F@9 2 0 0 214 -> re 2 0 192 152 | rec 0
        D -> {of_five("02000000", FRAMED, FRAMED)}
        """)
    # 98,765 is 0x181cd and 4,660 is 0x1234; -500,000 is 0xfff85ee0 and 500,000 is 0x7a120. 1,400 is 0x578 and not under the
    # UV level, 255 and 256 are; SCD comes with the second. Status 136 is 0x88, and 9 without switches
    told("both signs, and every byte of a field", f"""
        O 5 -> ok
        W 200 -> rec 0
        S 1 98765 1 4660 -500000 1400 255 256 5000 0 -> st 136 bal 0 | rec 0
        S 1 1 1 4660 500000 1400 255 256 5000 0 -> st 9 bal 0 | rec 0
        S 1 65536 0 975 -1 1601 4049 4049 4049 4049 -> st 192 bal 0 | rec 0
        D -> {of_five("03000000",
                      "01 16  01 cd810100 01 3412 e05ef8ff 7805ff00000188130000  00 88 0000",
                      "01 16  01 01000000 01 3412 20a10700 7805ff00000188130000  00 09 0000",
                      "01 16  01 00000100 00 cf03 ffffffff 4106d10fd10fd10fd10f  00 c0 0000")}
        """)
    # OV of cells 1 and 10 past 500 ms at the seventh: status 4, and 1 + 512 are bled, 0x201
    held = "01 20  01 a0860100 00 d007 00000000 3710 a00fa00fa00fa00fa00fa00fa00fa00f 3710  00"
    told("ten cells", f"""
        X h10 -> ok
        W 400 -> rec 0
        6: S 1 100000 0 2000 0 {{one}} 4000 4000 4000 4000 4151 -> st 0 bal 0 | rec 0
        S 1 100000 0 2000 0 {{one}} 4000 4000 4000 4000 4151 -> st 4 bal 513 | rec 0
        D -> {shown("0100 0100 07000000 01 0a", f"{held} 00 0000" * 6, f"{held} 04 0102")}
        """, **FIVE)
    # the same of cell 3 on board 2 of three, a host board that has its DSG bit; 100,000 is 0x186a0, and 68 with CHG off is 0x44
    held = "01 16  02 a0860100 00 d007 00000000 a00f a00f 3710 a00f a00f  00"
    told("a reading with every number", f"""
        X s5 h5 s10 -> ok
        W 400 -> rec 0
        F 5 1 6 199 -> re 5 1 6 199 | rec 0
        6: S 2 100000 0 2000 0 4000 4000 4151 4000 4000 -> st 192 bal 0 | rec 0
        S 2 100000 0 2000 0 4000 4000 4151 4000 4000 -> st 68 bal 4 | rec 0
        R -> ln 1 chg 0 dsg 1 at 2 3 | rec 0
        D -> {shown("0100 0300 09000000 00 05 01 05 00 0a", "02 04  050106c7  00 050106c7",
                    f"{held} c0 0000" * 6, f"{held} 44 0400", "03 00  00 01 00 01 02 03")}
        """)


def recorded_refusals():
    """02, ticket 10: a refused act is recorded with its number and nothing behind it; its fields are as they were sent."""
    # 100,001 is 0x186a1, 5,001 is 0x1389, 500,001 is 0x7a121, and -2,147,483,647 is 0x80000001
    calm, rest = "a00fa00fa00fa00fa00f", "d007 00000000"
    told("samples", f"""
        O 5 -> ok
        W 65535 -> rec 0
        S 2 1000 0 2000 0 {{calm}} -> no 2 | rec 0
        S 0 1000 0 2000 0 {{calm}} -> no 2 | rec 0
        S 1 1000 0 2000 0 -> no 3 | rec 0
        S 1 1000 0 2000 0 {{calm}} 1 -> no 3 | rec 0
        S 1 0 0 2000 0 {{calm}} -> no 4 | rec 0
        S 1 100001 0 2000 0 {{calm}} -> no 4 | rec 0
        S 1 2147483647 0 2000 0 {{calm}} -> no 4 | rec 0
        S 1 1000 2 2000 0 {{calm}} -> no 5 | rec 0
        S 1 1000 0 5001 0 {{calm}} -> no 5 | rec 0
        S 1 1000 0 2000 0 5001 4000 4000 4000 4000 -> no 5 | rec 0
        S 1 1000 0 2000 500001 {{calm}} -> no 5 | rec 0
        S 1 1000 0 2000 -2147483647 {{calm}} -> no 5 | rec 0
        S 1 1000 0 2000 2147483647 {{calm}} -> no 5 | rec 0
        D -> {of_five("0d000000",
                      f"01 16  02 e8030000 00 {rest} {calm}  02", f"01 16  00 e8030000 00 {rest} {calm}  02",
                      NONE_SAMPLED, f"01 18  01 e8030000 00 {rest} {calm} 0100  03",
                      f"01 16  01 00000000 00 {rest} {calm}  04", f"01 16  01 a1860100 00 {rest} {calm}  04",
                      f"01 16  01 ffffff7f 00 {rest} {calm}  04",
                      f"01 16  01 e8030000 02 {rest} {calm}  05", f"01 16  01 e8030000 00 8913 00000000 {calm}  05",
                      f"01 16  01 e8030000 00 {rest} 8913a00fa00fa00fa00f  05",
                      f"01 16  01 e8030000 00 d007 21a10700 {calm}  05", f"01 16  01 e8030000 00 d007 01000080 {calm}  05",
                      f"01 16  01 e8030000 00 d007 ffffff7f {calm}  05")}
        """, **FIVE)
    # 6, 8, 2, 9 and 10; the address of a service panel is none of a board here and stands as it was sent
    told("frames", f"""
        O 5 -> ok
        W 65535 -> rec 0
        F -> no 6 | rec 0
        F 2 0 0 -> no 6 | rec 0
        F 2 0 0 214 0 -> no 6 | rec 0
        F 2 0 0 215 -> no 8 | rec 0
        F 4 0 0 171 -> no 2 | rec 0
        F 132 0 0 160 -> no 2 | rec 0
        F 3 0 0 189 -> no 9 | rec 0
        F 2 6 1 175 -> no 10 | rec 0
        D -> {of_five("08000000", NONE_FRAMED, "02 03  020000  06", "02 05  020000d600  06", "02 04  020000d7  08",
                      "02 04  040000ab  02", "02 04  840000a0  02", "02 04  030000bd  09", "02 04  020601af  0a")}
        """)
    # OCD 60 mV over an SCD level of 60 mV, then three cycles and no fourth: 13 is 0x0d and 11 is 0x0b
    program = "02 04  030b41ea"
    told("programmings", f"""
        O 5 -> ok
        W 65535 -> rec 0
        F 3 9 10 54 -> re 3 9 10 54 | rec 0
        F 3 11 65 234 -> no 13 | rec 0
        F 3 9 0 0 -> re 3 9 0 0 | rec 0
        F 3 6 1 196 -> re 3 6 1 196 | rec 0
        F 3 11 65 234 -> re 3 11 1 45 | rec 0
        F 3 6 2 205 -> re 3 6 2 205 | rec 0
        F 3 11 65 234 -> re 3 11 2 36 | rec 0
        F 3 6 3 202 -> re 3 6 3 202 | rec 0
        F 3 11 65 234 -> re 3 11 3 35 | rec 0
        F 3 6 4 223 -> re 3 6 4 223 | rec 0
        F 3 11 65 234 -> no 11 | rec 0
        D -> {of_five("0b000000", "02 04  03090a36  00 03090a36", f"{program}  0d", "02 04  03090000  00 03090000",
                      "02 04  030601c4  00 030601c4", f"{program}  00 030b012d", "02 04  030602cd  00 030602cd",
                      f"{program}  00 030b0224", "02 04  030603ca  00 030603ca", f"{program}  00 030b0323",
                      "02 04  030604df  00 030604df", f"{program}  0b")}
        """)


# of one board of five: an act, its answer, its bytes and how many they are
PIECES = (
    ("S 1 1000 0 2000 0 {calm}", "st 192 bal 0", SAMPLED, 28),
    ("F 2 0 0 214", "re 2 0 192 152", FRAMED, 11),
    ("F@5 2 0 0 214", "re 2 0 192 152", FRAMED, 11),
    ("R", "ln 0 chg 1 dsg 1 at 0 0", READ, 8),
    ("S 1 1000 0 2000 0", "no 3", NONE_SAMPLED, 15),
    ("F", "no 6", NONE_FRAMED, 3),
)


def recorded_ends():
    """02, ticket 10: an exact fit is room; past the end the act stands, the memory does not change, and no later act gets room."""
    for line, answer, piece, size in PIECES:
        told(f"{line} at the end", f"""
            O 5 -> ok
            W {10 + size - 1} -> rec 0
            {line} -> {answer} | rec 16
            D -> {of_five("00000000")}
            F -> no 6 | rec 16
            D -> {of_five("00000000")}
            O 5 -> ok
            W {10 + size} -> rec 0
            {line} -> {answer} | rec 0
            D -> {of_five("01000000", piece)}
            F -> no 6 | rec 16
            D -> {of_five("01000000", piece)}
            O 5 -> ok
            W {10 + size + 1} -> rec 0
            {line} -> {answer} | rec 0
            F -> no 6 | rec 16
            D -> {of_five("01000000", piece)}
            """, **FIVE)
        told(f"{line} behind a reading", f"""
            O 5 -> ok
            W {18 + size - 1} -> rec 0
            R -> ln 0 chg 1 dsg 1 at 0 0 | rec 0
            {line} -> {answer} | rec 16
            D -> {of_five("01000000", READ)}
            O 5 -> ok
            W {18 + size} -> rec 0
            R -> ln 0 chg 1 dsg 1 at 0 0 | rec 0
            {line} -> {answer} | rec 0
            D -> {of_five("02000000", READ, piece)}
            """, **FIVE)
    # the sample would need 28 of 20 bytes; what would fit gets 16 from there on, and the sample has latched all the same
    told("small acts behind one that had no room", f"""
        O 5 -> ok
        W 30 -> rec 0
        S 1 1000 0 974 0 {{calm}} -> st 16 bal 0 | rec 16
        F -> no 6 | rec 16
        R -> ln 1 chg 0 dsg 0 at 0 0 | rec 16
        F 2 0 0 214 -> re 2 0 16 * | rec 16
        S 1 1000 0 975 0 {{calm}} -> st 192 bal 0 | rec 16
        R -> ln 0 chg 1 dsg 1 at 0 0 | rec 16
        D -> {of_five("00000000")}
        """, **FIVE)
    # nothing is recorded of a day whose header had no room; 15 still goes first
    told("a header without room", """
        O 5 -> ok
        W 9 -> rec 16
        F -> no 6 | rec 16
        R -> ln 0 chg 1 dsg 1 at 0 0 | rec 16
        S 1 1000 0 974 0 {calm} -> st 16 bal 0 | rec 16
        U -> up 1 1 | rec 15
        F@3 2 0 0 214 -> no 7 | rec 15
        S 256 1000 0 2000 0 {calm} -> no 2 | rec 15
        F 2 0 0 214 -> re 2 0 16 * | rec 16
        D -> no 15
        W 100 -> rec 15
        R -> ln 1 chg 0 dsg 0 at 0 0 | rec 16
        """, **FIVE)


def recorded_fields():
    """02, ticket 10: 15 where a field or the body is too large for its bytes; the act has its own answer, and the recording goes on."""
    told("board", f"""
        O 5 -> ok
        W 25 -> rec 0
        S 256 1000 0 2000 0 -> no 2 | rec 15
        S 257 1000 0 2000 0 {{calm}} -> no 2 | rec 15
        S 2147483647 1000 0 2000 0 -> no 2 | rec 15
        D -> {of_five("00000000")}
        S 255 1000 0 2000 0 -> no 2 | rec 0
        D -> {of_five("01000000", "01 0c  ff e8030000 00 d007 00000000  02")}
        """, **FIVE)
    told("load", f"""
        O 5 -> ok
        W 25 -> rec 0
        S 1 1000 256 2000 0 -> no 3 | rec 15
        S 1 1000 256 2000 0 {{calm}} -> no 5 | rec 15
        S 1 1000 65537 2000 0 {{calm}} -> no 5 | rec 15
        D -> {of_five("00000000")}
        S 1 1000 255 2000 0 -> no 3 | rec 0
        D -> {of_five("01000000", "01 0c  01 e8030000 ff d007 00000000  03")}
        """, **FIVE)
    # 67,536 is 2,000 past 65,536
    told("thermistor", f"""
        O 5 -> ok
        W 25 -> rec 0
        S 1 1000 0 65536 0 -> no 3 | rec 15
        S 1 1000 0 67536 0 {{calm}} -> no 5 | rec 15
        S 1 1000 0 2147483647 0 {{calm}} -> no 5 | rec 15
        D -> {of_five("00000000")}
        S 1 1000 0 65535 0 -> no 3 | rec 0
        D -> {of_five("01000000", "01 0c  01 e8030000 00 ffff 00000000  03")}
        """, **FIVE)
    told("cells", f"""
        O 5 -> ok
        W 60 -> rec 0
        S 1 1000 0 2000 0 65536 4000 4000 4000 4000 -> no 5 | rec 15
        S 1 1000 0 2000 0 4000 4000 4000 4000 65536 -> no 5 | rec 15
        S 1 1000 0 2000 0 4000 4000 69536 4000 4000 -> no 5 | rec 15
        S 1 1000 0 2000 0 {{calm}} 2147483647 -> no 3 | rec 15
        D -> {of_five("00000000")}
        S 1 1000 0 2000 0 65535 4000 4000 4000 65535 -> no 5 | rec 0
        D -> {of_five("01000000", "01 16  01 e8030000 00 d007 00000000 ffffa00fa00fa00fffff  05")}
        """, **FIVE)
    # 12 bytes and two for each cell: 254, and 256
    told("many cells", f"""
        O 5 -> ok
        W 65535 -> rec 0
        S 1 1000 0 2000 0{" 4000" * 122} -> no 3 | rec 15
        S 1 1000 0 2000 0{" 4000" * 133} -> no 3 | rec 15
        S 1 1000 0 2000 0{" 4000" * 1000} -> no 3 | rec 15
        S 1 1000 0 2000 0{" 4000" * 121} -> no 3 | rec 0
        D -> {of_five("01000000", "01 fe  01 e8030000 00 d007 00000000", "a00f" * 121, "03")}
        """)
    told("many bytes", f"""
        O 5 -> ok
        W 65535 -> rec 0
        F{" 1" * 256} -> no 6 | rec 15
        F 2 0 0 214{" 0" * 256} -> no 6 | rec 15
        F{" 1" * 1000} -> no 6 | rec 15
        F{" 1" * 254} -> no 6 | rec 0
        F{" 2" * 255} -> no 6 | rec 0
        D -> {of_five("02000000", "02 fe", "01" * 254, "06", "02 ff", "02" * 255, "06")}
        """)


def recorded_others():
    """02, ticket 10: 15 for other kinds of act, for a reply without room, and for every act where a garden board is in the stack."""
    told("listings, questions and short rooms", f"""
        O 5 -> ok
        W 40 -> rec 0
        U -> up 0 1 | rec 15
        L 1 128 -> ls 0 | rec 15
        L 2 128 -> no 2 | rec 15
        F@3 2 0 0 214 -> no 7 | rec 15
        F@0 2 0 0 214 -> no 7 | rec 15
        F@3 -> no 6 | rec 15
        F@3 2 0 0 -> no 6 | rec 15
        F@0{" 1" * 256} -> no 6 | rec 15
        D -> {of_five("00000000")}
        F@4 2 0 0 214 -> re 2 0 192 152 | rec 0
        F@3 2 0 0 214 -> no 7 | rec 15
        F@4 2 0 0 -> no 6 | rec 0
        U -> up 0 1 | rec 15
        R -> ln 0 chg 1 dsg 1 at 0 0 | rec 0
        D -> {of_five("03000000", FRAMED, "02 03  020000  06", READ)}
        """)
    for row in ("g3/0/1", "g3/0/1 s5", "s5 h5 g3/0/1"):
        told(f"a garden board in {row}", f"""
            X {row} -> ok
            W 65535 -> rec 15
            D -> no 15
            W 0 -> rec 15
            W 7 -> rec 15
            F -> no 6 | rec 15
            F 2 0 0 -> no 6 | rec 15
            S 9 1000 0 2000 0 -> no 2 | rec 15
            S 1 1000 0 2000 0 -> no 3 | rec 15
            L 9 0 -> no 2 | rec 15
            D -> no 15
            X s5 -> ok
            W 10 -> rec 0
            D -> {of_five("00000000")}
            """)
    told("acts of a garden board", """
        X g3/0/1 -> ok
        W 65535 -> rec 15
        R -> ln 1 chg 0 dsg 1 at 0 0 | rec 15
        F 2 0 0 214 -> re 2 0 68 * | rec 15
        {calm} -> st 192 bal 0 | rec 15
        U -> up 0 1 | rec 15
        R -> ln 0 chg 1 dsg 1 at 0 0 | rec 15
        D -> no 15
        """, **THREE)


def recorded_order():
    """02, ticket 10: 15 goes before 16, and only 16 ends a recording."""
    # 8 bytes are left throughout: the sample and the frame would pass the end as well
    told("15 where there is no room either", f"""
        O 5 -> ok
        W 18 -> rec 0
        S 1 1000 0 2000 0 65536 4000 4000 4000 4000 -> no 5 | rec 15
        S 256 1000 0 2000 0 {{calm}} -> no 2 | rec 15
        F{" 1" * 256} -> no 6 | rec 15
        F@3 2 0 0 214 -> no 7 | rec 15
        L 1 128 -> ls 0 | rec 15
        U -> up 0 1 | rec 15
        R -> ln 0 chg 1 dsg 1 at 0 0 | rec 0
        U -> up 0 1 | rec 15
        D -> {of_five("01000000", READ)}
        """, **FIVE)
    told("15 after 16", f"""
        O 5 -> ok
        W 18 -> rec 0
        F 2 0 0 214 -> re 2 0 192 152 | rec 16
        S 1 1000 0 65536 0 {{calm}} -> no 5 | rec 15
        S 1 1000 256 2000 0 {{calm}} -> no 5 | rec 15
        S 1 1000 0 2000 0{" 4000" * 122} -> no 3 | rec 15
        F{" 1" * 256} -> no 6 | rec 15
        F@3 -> no 6 | rec 15
        L 1 128 -> ls 0 | rec 15
        U -> up 0 1 | rec 15
        R -> ln 0 chg 1 dsg 1 at 0 0 | rec 16
        F -> no 6 | rec 16
        D -> {of_five("00000000")}
        """, **FIVE)


def recorded_starts():
    """The page, Recording: when `W` begins one, and what ends it."""
    told("before an opening", """
        W 46 -> no 1
        D -> no 15
        W 0 -> no 1
        X s4 -> no 1
        W 46 -> no 1
        R -> no 1
        D -> no 15
        W 2147483648 -> no 12
        """)
    # acts before the opening are none of its day
    told("after lines that are no acts", f"""
        R -> no 1
        O 5 -> ok
        D -> no 15
        Q -> no 12
        W -> no 12
        F 256 -> no 12
        X s4 -> no 1
        O -> no 1
        X q5 -> no 12
        C 00 -> no 12
        V 00 00 1 -> no 12
        W 100 -> rec 0
        D -> {of_five("00000000")}
        D 1 -> no 12
        """)
    told("anew", f"""
        O 5 -> ok
        W 9 -> rec 16
        W 10 -> rec 0
        D -> {of_five("00000000")}
        W 9 -> rec 16
        D -> no 15
        D -> no 15
        X s11 -> no 1
        W 18 -> rec 0
        R -> ln 0 chg 1 dsg 1 at 0 0 | rec 0
        D -> {of_five("01000000", READ)}
        """)
    # the recording has its own room still, and the earlier one
    told("after an act, in a recording", f"""
        O 5 -> ok
        W 26 -> rec 0
        R -> ln 0 chg 1 dsg 1 at 0 0 | rec 0
        W 100 -> rec 15
        W 0 -> rec 15
        D -> {of_five("01000000", READ)}
        R -> ln 0 chg 1 dsg 1 at 0 0 | rec 0
        R -> ln 0 chg 1 dsg 1 at 0 0 | rec 16
        W 100 -> rec 15
        F -> no 6 | rec 16
        D -> {of_five("02000000", READ, READ)}
        """)
    # each kind of act, accepted or refused, also one that is not recordable; a recorder that was not asked in time says nothing
    for line, answer in (("R", "ln 0 chg 1 dsg 1 at 0 0"), ("F 2 0 0 214", "re 2 0 192 152"), ("F", "no 6"), ("F@0", "no 6"),
                         ("S 1 1000 0 2000 0 {calm}", "st 192 bal 0"), ("S 1 1000 0 2000 0", "no 3"), ("L 1 0", "ls 0"),
                         ("L 2 0", "no 2"), ("U", "up 0 1")):
        told(f"after {line}", f"""
            O 5 -> ok
            {line} -> {answer}
            W 100 -> rec 15
            D -> no 15
            W 0 -> rec 15
            {line} -> {answer}
            O 4 -> no 1
            W 100 -> rec 15
            {line} -> {answer}
            O 5 -> ok
            W 100 -> rec 0
            D -> {of_five("00000000")}
            """, **FIVE)
    told("openings", f"""
        O 5 -> ok
        W 100 -> rec 0
        R -> ln 0 chg 1 dsg 1 at 0 0 | rec 0
        O 4 -> no 1
        X g3/0/0 -> no 1
        X{" s5" * 17} -> no 1
        X q5 -> no 12
        D -> {of_five("01000000", READ)}
        R -> ln 0 chg 1 dsg 1 at 0 0 | rec 0
        D -> {of_five("02000000", READ, READ)}
        X h6 -> ok
        D -> no 15
        R -> ln 0 chg 0 dsg 0 at 0 0
        U -> up 0 1
        W 100 -> rec 15
        X h6 -> ok
        W 100 -> rec 0
        D -> {shown("0100 0100 00000000", "01 06")}
        """)
    told("malformed lines in a recording", f"""
        O 5 -> ok
        W 100 -> rec 0
        R 1 -> no 12
        F 256 -> no 12
        S 1 1000 0 2000 -0 {{calm}} -> no 12
        W 100 1 -> no 12
        C 00 -> no 12
        D -> {of_five("00000000")}
        2: D -> {of_five("00000000")}
        """, **FIVE)


def recorded_fills():
    """02, ticket 10: no byte past 65,535 is used, however many are lent."""
    # 10 + 253 * 258 + 251 = 65,535, and a byte more in the last frame is one too many
    many = f"253: F{' 7' * 255} -> no 6 | rec 0"
    for room in (65535, 65536, 65537, 131072, 2147483647):
        told(f"frames in {room} bytes", f"""
            O 5 -> ok
            W {room} -> rec 0
            {many}
            F{" 7" * 248} -> no 6 | rec 0
            D -> {of_five("fe000000", ("02 ff" + "07" * 255 + "06") * 253, "02 f8" + "07" * 248 + "06")}
            F -> no 6 | rec 16
            D -> {of_five("fe000000", ("02 ff" + "07" * 255 + "06") * 253, "02 f8" + "07" * 248 + "06")}
            O 5 -> ok
            W {room} -> rec 0
            {many}
            F{" 7" * 249} -> no 6 | rec 16
            D -> {of_five("fd000000", ("02 ff" + "07" * 255 + "06") * 253)}
            """)
    told("frames in 65534 bytes", f"""
        O 5 -> ok
        W 65534 -> rec 0
        {many}
        F{" 7" * 248} -> no 6 | rec 16
        D -> {of_five("fd000000", ("02 ff" + "07" * 255 + "06") * 253)}
        """)
    # 10 + 5 + 8190 * 8 = 65,535; 8191 acts are 0x1fff
    told("readings in 65535 bytes", f"""
        O 5 -> ok
        W 65535 -> rec 0
        F 1 2 -> no 6 | rec 0
        8190: R -> ln 0 chg 1 dsg 1 at 0 0 | rec 0
        D -> {of_five("ff1f0000", "02 02  0102  06", READ * 8190)}
        R -> ln 0 chg 1 dsg 1 at 0 0 | rec 16
        U -> up 0 1 | rec 15
        D -> {of_five("ff1f0000", "02 02  0102  06", READ * 8190)}
        """)


def page_recording():
    """The page's own recording: its bytes as the page has them."""
    told("the page's recording", """
        D -> no 15
        O 5 -> ok
        W 46 -> rec 0
        S 1 1000 0 2000 0 {calm} -> st 192 bal 0 | rec 0
        U -> up 0 1 | rec 15
        R -> ln 0 chg 1 dsg 1 at 0 0 | rec 0
        R -> ln 0 chg 1 dsg 1 at 0 0 | rec 16
        D -> hex 01000100020000000005011601e803000000d00700000000a00fa00fa00fa00fa00f00c000000300000001010000
        """, **FIVE)


def judged(data):
    """What a check of these bytes comes to: `ok`, `bad` and the first wrong act's place, or `no` and a refusal's number."""
    try:
        place = first_wrong(data)
    except Refusal as refusal:
        return f"no {refusal.number}"
    return f"bad {place}" if place else "ok"


def checked(name, answer, *recordings):
    """Each of these recordings, in hex, comes to that."""
    for place, recording in enumerate(recordings, 1):
        expect(f"{name}, recording {place}: {recording[:200]}", answer, judged(bytes.fromhex(joined(recording))))


def of_acts(*acts):
    """A recording of one stand-alone board of five with these acts: edition, boards, acts, board."""
    return joined("0100 0100", len(acts).to_bytes(4, "little").hex(), "00 05", *acts)


# of one board of five: an act of each kind, accepted, and refused where one of its kind can be
DAY = of_acts(SAMPLED, FRAMED, READ, NONE_SAMPLED, NONE_FRAMED)


def checked_cuts():
    """02, ticket 11: a byte too few is 17 wherever it is, and a byte too many 19."""
    for day in (DAY, of_acts(), of_acts(SAMPLED), of_acts(FRAMED), of_acts(READ), of_acts(NONE_SAMPLED), of_acts(NONE_FRAMED),
                joined("0100 1000 01000000", "01 09" * 15, "00 06", NONE_FRAMED)):
        checked("a whole recording", "ok", day)
        checked("cut short", "no 17", *(day[:end] for end in range(0, len(day), 2)))
        checked("left over", "no 19", *(day + more for more in ("00", "01", "02", "ff", "0300 00 0001010000", READ, day)))
    # the number of acts, one to both sides and in its higher bytes: so many acts are read, and no fewer
    head = "0100 0100 {} 00 05" + READ + READ
    checked("two acts", "ok", head.format("02000000"))
    checked("three said", "no 17", *(head.format(count) for count in ("03000000", "02010000", "02000100", "02000001", "ffffffff")))
    checked("one said", "no 19", head.format("01000000"), head.format("00000000"))


def checked_headers():
    """02, ticket 11: the edition is 1, boards are 1 to 16, their kinds 0 and 1 and their cells 5 to 10."""
    rest = "0100 00000000 00 05"
    checked("edition", "ok", f"0100 {rest}")
    checked("edition", "no 18", *(f"{edition} {rest}" for edition in ("0000", "0200", "0101", "0001", "ff00", "0180", "ffff")))
    for boards in (1, 2, 15, 16):
        checked("boards", "ok", f"0100 {boards:02x}00 00000000" + "00 05" * boards)
        checked("boards", "no 17", f"0100 {boards:02x}00 00000000" + "00 05" * (boards - 1))
        checked("boards", "no 19", f"0100 {boards:02x}00 00000000" + "00 05" * (boards + 1))
    checked("boards", "no 18", *(f"0100 {boards} 00000000" + "00 05" * 300
                                 for boards in ("0000", "1100", "1200", "ff00", "0001", "0101", "ffff")))
    for kind, cells in ((0, 5), (0, 10), (1, 5), (1, 6), (1, 10)):
        checked("a board", "ok", f"0100 0100 00000000 {kind:02x} {cells:02x}", f"0100 0200 00000000 00 05 {kind:02x} {cells:02x}")
    for board in ("02 05", "03 05", "67 05", "ff 05", "00 04", "01 04", "00 0b", "01 0b", "00 00", "00 ff", "02 04", "02 03"):
        checked("a board", "no 18", f"0100 0100 00000000 {board}", f"0100 0200 00000000 00 05 {board}", f"0100 0200 00000000 {board} 00 05")


def acted(act, cells="05"):
    """A recording of one act of one board."""
    return f"0100 0100 01000000 00 {cells} {act}"


def checked_kinds():
    """02, ticket 11: acts are of kind 1 to 3; bodies of 12 bytes and two for each cell, of any length, and of none."""
    checked("kinds", "no 17", *(acted(kind) for kind in ("01", "02", "03")))
    checked("kinds", "no 18", *(acted(kind) for kind in ("00", "04", "05", "80", "81", "ff")))
    checked("kinds", "no 18", *(acted(kind + READ[2:]) for kind in ("00", "04", "ff")))
    # nothing is behind the length, which is wrong all the same
    checked("lengths", "no 18", *(acted(f"01 {length:02x}") for length in (0, 1, 2, 4, 10, 11, 13, 15, 253, 255)))
    checked("lengths", "no 17", *(acted(f"01 {length:02x}") for length in (12, 14, 20, 22, 24, 32, 34, 252, 254)))
    checked("lengths", "no 17", *(acted(f"02 {length:02x}") for length in (0, 1, 3, 4, 5, 254, 255)))
    checked("lengths", "no 17", acted("03 00"))
    checked("lengths", "no 18", *(acted(f"03 {length:02x}") for length in (1, 2, 5, 12, 255)))
    # bodies that are there; so many cells no board has, and so many bytes no frame
    fields = "01 e8030000 00 d007 00000000"
    for cells in (0, 1, 4, 6, 10, 11, 120, 121):
        sample = f"01 {12 + 2 * cells:02x} {fields}" + "a00f" * cells
        checked(f"{cells} cells", "ok", acted(f"{sample} 03"))
        checked(f"{cells} cells", "bad 1", acted(f"{sample} 00 c0 0000"), acted(f"{sample} 02"))
        checked(f"{cells} cells", "no 17", acted(sample), acted(f"{sample} 00 c0 00"))
        checked(f"{cells} cells", "no 19", acted(f"{sample} 03 00"), acted(f"{sample} 00 c0 0000 00"))
    checked("eleven cells of ten", "ok", acted(f"01 22 {fields}" + "a00f" * 11 + "03", "0a"))
    checked("ten cells of ten", "ok", acted(f"01 20 {fields}" + "a00f" * 10 + "00 c0 0000", "0a"))
    for size in (0, 1, 3, 5, 8, 254, 255):
        frame = f"02 {size:02x}" + "020000d600"[:2 * size].ljust(2 * size, "7")
        checked(f"{size} bytes", "ok", acted(f"{frame} 06"))
        checked(f"{size} bytes", "bad 1", acted(f"{frame} 00 0200c098"), acted(f"{frame} 07"), acted(f"{frame} 08"))
        checked(f"{size} bytes", "no 17", acted(frame), acted(f"{frame} 00 0200c0"))
        checked(f"{size} bytes", "no 19", acted(f"{frame} 06 00"), acted(f"{frame} 00 0200c098 00"))
    # a refused act has its number alone
    checked("answers", "no 19", acted("03 00  01 00 01 01 00 00"), acted("02 04  020000d6  08 0200c098"))


def damage(recording):
    """What a damaged recording is refused with, and the byte that decides."""
    try:
        return read_back(bytes.fromhex(recording))
    except Damaged as damaged:
        return damaged.number, damaged.byte


def checked_order():
    """02, ticket 11: field by field from the front, each first cut short, then wrong; all of them before any answer."""
    # half a field is cut short, whatever it would be
    checked("half a field", "no 17", "", "01", "02", "0100 00", "0100 11", "0100 0100", "0100 0100 000000")
    checked("wrong at the end", "no 18", "0200", "0000", "0100 0000", "0100 1100", "0100 0100 00000000 02", "0100 0100 00000000 00 04",
            "0100 0100 00000000 00 0b", "0100 0200 00000000 00 05 02", "0100 0200 00000000 00 05 01 0b")
    # a wrong answer in act 1, with damage behind it
    wrong = "03 00  00 01 01 01 00 00"
    checked("a wrong answer", "bad 1", of_acts(wrong), of_acts(wrong, READ), of_acts(wrong, wrong), of_acts(wrong, SAMPLED))
    checked("damage behind a wrong answer", "no 17", *(of_acts(wrong, act) for act in ("", "01", "01 0c", "02", FRAMED[:-2], READ[:-2])))
    checked("damage behind a wrong answer", "no 18", *(of_acts(wrong, act) for act in ("00", "04", "01 0b", "01 0d", "01 ff", "03 01",
                                                                                       READ.replace("03 00", "03 01"))))
    checked("damage behind a wrong answer", "no 19", of_acts(wrong) + "00", of_acts(wrong, READ) + "04", of_acts(wrong, wrong) + READ)
    # what is wrong first decides, also where the end is missing or something is left over
    checked("wrong, then cut short", "no 18", "0200 01", "0100 1100 00", joined("0100 0100 02000000 00 05", READ, "04"),
            joined("0100 0100 ffffffff 00 05", READ, "01 0b"), joined("0100 0100 09000000 00 0b", READ[:-2]))
    checked("wrong, then left over", "no 18", joined("0200 0100 00000000 00 05", READ), joined("0100 0100 01000000 00 05 04", READ, READ))
    # the byte that decides: the first that is missing, the last of a wrong field, the first that is left over
    good = of_acts(SAMPLED, READ)
    for recording, wanted in (
            ("", (17, 1)), (good[:2], (17, 2)), (good[:-2], (17, 46)), ("0200" + good[4:], (18, 2)), ("0101" + good[4:], (18, 2)),
            ("01000000", (18, 4)), ("01001100", (18, 4)), ("0100110000", (18, 4)), (good[:16] + "02", (18, 9)),
            (good[:16] + "0004", (18, 10)), (good[:20] + "04" + good[22:], (18, 11)), (good[:22] + "0b" + good[24:], (18, 12)),
            (good[:76] + "00" + good[78:], (18, 39)),
            (good[:78] + "01" + good[80:], (18, 40)), (good + "00", (19, 47)), (good + "0000", (19, 47))):
        expect(f"the byte that decides on {recording}", wanted, damage(recording))


def checked_answers():
    """02, ticket 11: a byte of an answer that is not as it should be, and the first act that has one."""
    right = (SAMPLED, FRAMED, READ, NONE_SAMPLED, NONE_FRAMED)
    sample, frame = SAMPLED[:-11], FRAMED[:-12]
    wrong = (
        ("00 c1 0000", "00 40 0000", "00 00 0000", "00 c0 0100", "00 c0 0001", "00 c0 0080", "00 80 0000"),
        ("00 0300c098", "00 0201c098", "00 0200c198", "00 0200c099", "00 0200c018", "00 00000000", "00 020000d6"),
        ("00 01 01 01 00 00", "00 00 00 01 00 00", "00 00 01 00 00 00", "00 00 01 01 01 00", "00 00 01 01 00 01", "00 00 ff 01 00 00"),
        ("00 c0 0000", "02", "04", "05"),
        ("00 0200c098", "00 00000000", "08", "02"),
    )
    sent = (sample, frame, "03 00  ", NONE_SAMPLED[:-2], NONE_FRAMED[:-2])
    others = ("01", "07", "0c", "0e", "0f", "10", "11", "12", "13", "14", "15", "63", "80", "ff")
    for place, (act, answers) in enumerate(zip(sent, wrong), 1):
        acts = list(right)
        for answer in answers + others:
            acts[place - 1] = act + answer
            checked(f"act {place} with {answer}", f"bad {place}", of_acts(*acts), of_acts(*acts[:place]))
            checked(f"act {place} with {answer}, alone", "bad 1", of_acts(acts[place - 1]))
            # the first of two is told, and a later one that is right again changes nothing
            checked(f"act {place} with {answer}, and another", f"bad {place}", of_acts(*acts, frame + "08"))
            checked(f"act {place} with {answer}, behind another", "bad 1", of_acts(frame + "08", *acts))
            checked(f"act {place} with {answer}, behind a good day", f"bad {5 + place}", of_acts(*right, *acts, *right))
    # accepted or refused, the other way round
    checked("refused", "bad 1", *(of_acts(act + number) for act in (sample, frame)
                                  for number in ("02", "03", "04", "05", "06", "08", "09", "0a", "0b", "0d")))
    # each refusal of the table; 7 is none of them, for a frame has four bytes for its reply
    calm, rest = "a00fa00fa00fa00fa00f", "d007 00000000"
    for act, number in ((f"01 16  02 e8030000 00 {rest} {calm}", "02"), (f"01 16  00 e8030000 00 {rest} {calm}", "02"),
                        (f"01 16  ff e8030000 00 {rest} {calm}", "02"), (f"01 18  01 e8030000 00 {rest} {calm} a00f", "03"),
                        (f"01 16  01 00000000 00 {rest} {calm}", "04"), (f"01 16  01 a1860100 00 {rest} {calm}", "04"),
                        (f"01 16  01 ffffffff 00 {rest} {calm}", "04"), (f"01 16  01 e8030080 00 {rest} {calm}", "04"),
                        (f"01 16  01 e8030000 02 {rest} {calm}", "05"), (f"01 16  01 e8030000 ff {rest} {calm}", "05"),
                        (f"01 16  01 e8030000 00 8913 00000000 {calm}", "05"), (f"01 16  01 e8030000 00 ffff 00000000 {calm}", "05"),
                        (f"01 16  01 e8030000 00 d007 21a10700 {calm}", "05"), (f"01 16  01 e8030000 00 d007 df5ef8ff {calm}", "05"),
                        (f"01 16  01 e8030000 00 d007 00000080 {calm}", "05"), (f"01 16  01 e8030000 00 d007 ffffff7f {calm}", "05"),
                        (f"01 16  01 e8030000 00 {rest} a00fa00f8913a00fa00f", "05"),
                        (f"01 16  01 e8030000 00 {rest} a00fa00fa00fa00fffff", "05"),
                        ("02 03  020000", "06"), ("02 05  020000d600", "06"), ("02 04  020000d7", "08"), ("02 04  040000ab", "02"),
                        ("02 04  840000a0", "02"), ("02 04  030000bd", "09"), ("02 04  020601af", "0a")):
        checked(f"{act} is refused", "ok", of_acts(f"{act} {number}"), of_acts(f"{act} {number}", SAMPLED, f"{act} {number}"))
        checked(f"{act} is not accepted", "bad 2", of_acts(FRAMED, f"{act} 00 c0 0000" if act.startswith("01") else f"{act} 00 0200c098"))
        checked(f"{act} is refused with 7", "bad 2", of_acts(READ, f"{act} 07"))
    # at the ends of the ranges: 1 and 100,000 us, 5,000 mV, both signs of 500,000 uV
    checked("the last numbers", "ok", of_acts("01 16  01 01000000 00 d007 e05ef8ff a00fa00fa00fa00fa00f  00 c0 0000"),
            of_acts("01 16  01 a0860100 01 8813 ffffffff a00fa00fa00fa00fa00f  00 c0 0000"),
            of_acts("01 16  01 a0860100 01 8813 20a10700 a00fa00fa00fa00fa00f  00 01 0000"),
            of_acts("01 16  01 a0860100 00 cf03 00000000 88138813881388138813  00 c0 0000"))
    checked("no acts", "ok", of_acts(), "0100 0100 00000000 01 0a", "0100 0200 00000000 01 05 00 0a")


# S 1 100000 0 2000 0 {one}, which latches OV at the seventh with the settings at the start
OVER = "01 16  01 a0860100 00 d007 00000000 3710a00fa00fa00fa00f  00"
FINE, TRIPPED = f"{OVER} c0 0000", f"{OVER} 44 0100"


def checked_days():
    """02, ticket 11: each answer is the one after the acts before it."""
    checked("a delay", "ok", of_acts(*[FINE] * 6, TRIPPED), of_acts(*[FINE] * 6, TRIPPED, TRIPPED, "03 00  00 01 00 01 01 01"))
    checked("a delay", "bad 7", of_acts(*[FINE] * 7), of_acts(*[FINE] * 6, f"{OVER} 44 0000"))
    checked("a delay", "bad 6", of_acts(*[FINE] * 5, TRIPPED, TRIPPED), of_acts(*[FINE] * 5, TRIPPED, FINE))
    # a refused sample counts no time, and neither does a read
    late = OVER.replace("a0860100", "a1860100")[:-2] + "04"
    checked("a delay with others between", "ok", of_acts(*[FINE] * 3, late, FRAMED, READ, *[FINE] * 3, TRIPPED))
    checked("a delay with others between", "bad 10", of_acts(*[FINE] * 3, late, FRAMED, READ, *[FINE] * 4))
    # the level is 4,200 after a programming, and not after the staging alone
    staged, programmed = "02 04  030601c4  00 030601c4", "02 04  030b41ea  00 030b012d"
    reads = {level: f"02 04  020600a8  00 {reply}" for level, reply in ((0, "020600a8"), (1, "020601af"))}
    checked("programmed", "ok", of_acts(staged, reads[0], programmed, reads[1], *[FINE] * 8), of_acts(staged, *[FINE] * 6, TRIPPED),
            of_acts(*[FINE] * 6, TRIPPED, staged, programmed, f"{OVER} c0 0000".replace("3710", "a00f")))
    checked("programmed", "bad 9", of_acts(staged, programmed, *[FINE] * 6, TRIPPED))
    checked("programmed", "bad 8", of_acts(staged, *[FINE] * 7))
    checked("programmed", "bad 2", of_acts(staged, reads[1], programmed), of_acts(staged, programmed.replace("012d", "0224")))
    checked("programmed", "bad 3", of_acts(staged, programmed, reads[0]), of_acts(staged, programmed, "02 04  030b41ea  0b"))
    # the second costs nothing and gives the same number; three cycles and no fourth; levels that are crossed
    more = ["02 04  030602cd  00 030602cd", "02 04  030b41ea  00 030b0224", "02 04  030603ca  00 030603ca", "02 04  030b41ea  00 030b0323",
            "02 04  030604df  00 030604df"]
    checked("cycles", "ok", of_acts(staged, programmed, programmed, *more, "02 04  030b41ea  0b"),
            of_acts("02 04  03090a36  00 03090a36", "02 04  030b41ea  0d"))
    checked("cycles", "bad 8", of_acts(staged, programmed, *more, "02 04  030b41ea  00 030b0424"))
    checked("cycles", "bad 2", of_acts("02 04  03090a36  00 03090a36", "02 04  030b41ea  0b"))
    checked("cycles", "bad 1", of_acts("02 04  030b41ea  0d"), of_acts(programmed))
    checked("equal sets", "ok", of_acts("02 04  030b41ea  00 030b002a"))


def checked_hosts():
    """02, tickets 3 and 11: a host board is opened as one."""
    dark, lit = "03 00  00 00 00 00 00 00", READ
    for board in ("05", "0a"):
        checked("a reading", "ok", f"0100 0100 01000000 01 {board} {dark}", f"0100 0100 01000000 00 {board} {lit}")
        checked("a reading", "bad 1", f"0100 0100 01000000 00 {board} {dark}", f"0100 0100 01000000 01 {board} {lit}")
    checked("a row of two kinds", "ok", f"0100 0200 01000000 00 05 01 05 {dark}", f"0100 0200 01000000 01 05 00 05 {dark}")
    # the page's own day of a host board: its bits are set, SCD latches and stays, and a clear takes it away; 60,001 is 0xea61
    calm = "a00fa00fa00fa00fa00f"
    acts = ("02 04  050106c7  00 050106c7", f"01 16  02 e8030000 00 d007 00000000 {calm}  00 c0 0000",
            f"01 16  02 e8030000 01 d007 61ea0000 {calm}  00 01 0000", f"01 16  02 e8030000 00 d007 00000000 {calm}  00 01 0000",
            "02 04  050107c0  00 050107c0", "02 04  050106c7  00 050106c7", "02 04  040000ab  00 0400c0e5", "02 04  041000fc  00 041001fb",
            lit)
    day = "0100 0200 {} 00 05 {} 05" + "".join(acts)
    checked("the page's host board", "ok", day.format("09000000", "01"))
    # register 1 of a stand-alone board is 9
    checked("the page's host board, stand-alone", "bad 1", day.format("09000000", "00"))
    # without act 4 the last sample is past the level, so that nothing is cleared; without act 3 there is nothing to keep
    checked("the page's host board, act 4 left out", "bad 6", day.replace(acts[3], "").format("08000000", "01"))
    checked("the page's host board, act 3 left out", "bad 3", day.replace(acts[2], "").format("08000000", "01"))
    checked("the page's host board, the clear left out", "bad 5", day.replace(acts[4] + acts[5], "").format("07000000", "01"))
    checked("register 1 of a stand-alone board", "ok", "0100 0200 01000000 00 05 00 05 02 04  050106c7  09")
    checked("register 1 of a host board", "bad 1", "0100 0200 01000000 00 05 01 05 02 04  050106c7  09")


def checked_long():
    """02, ticket 11: a recording of any length is read; the longest line has 149,999 bytes of one."""
    # 10 + 254 * 258 = 65,542, and 10 + 8,192 * 8 = 65,546
    frame = "02 ff" + "07" * 255 + "06"
    for act, count in ((frame, 253), (frame, 254), (frame, 255), (READ, 8192)):
        day = of_acts(*[act] * count)
        checked(f"{count} acts", "ok", day)
        checked(f"{count} acts", f"bad {count}", day[:-2] + "07")
        checked(f"{count} acts", "no 17", day[:-2])
        checked(f"{count} acts", "no 19", day + "00")
    # 10 + 253 * 258 + 251 = 65,535 is just what a recorder fills, and a byte to both sides
    for size in (247, 248, 249):
        day = of_acts(*[frame] * 253, f"02 {size:02x}" + "07" * size + "06")
        expect("bytes of a long recording", 65287 + size, len(day) // 2)
        checked(f"{len(day) // 2} bytes", "ok", day)
        checked(f"{len(day) // 2} bytes", "bad 254", day[:-2] + "07")
    # 10 + 5 + 18,748 * 8 = 149,999, in a line of 300,000 bytes
    longest = of_acts("02 02 0102 06", *[READ] * 18748)
    expect("digits of the longest", 299998, len(longest))
    checked("the longest", "ok", longest)
    checked("the longest", "bad 18749", longest[:-2] + "01")
    checked("the longest", "no 17", longest[:-2])
    checked("the longest", "no 19", of_acts("02 01 01 06", *[READ] * 18748) + "00")


def written(plans, acts):
    """These boards and acts recorded again."""
    recording = Recording(plans, MOST_BYTES)
    bodies = {SAMPLE: sample_body, FRAME: lambda sent: frame_body(sent, 4), READING: lambda _sent: reading_body()}
    recording.acts = [recording.piece(*bodies[act.kind](act.sent), act.number, act.answer) for act in acts]
    return recording.shown()


def checked_shown():
    """02, ticket 11: every recording by ticket 10 gives its boards and acts, gives the same bytes again, and has no wrong answer."""
    expect("the page's recording", ([Plan(STAND_ALONE, 5)], [
        Act(SAMPLE, [1, 1000, 0, 2000, 0, 4000, 4000, 4000, 4000, 4000], 0, (192, 0)), Act(READING, [], 0, (0, 1, 1, 0, 0))]),
        read_back(bytes.fromhex(of_acts(SAMPLED, READ))))
    expect("every byte of a field", ([Plan(STAND_ALONE, 7), Plan(HOST, 10)], [
        Act(SAMPLE, [1, 98765, 1, 4660, -500000, 1400, 258, 65535], 3, ()), Act(FRAME, [5, 1, 6, 199], 0, (5, 1, 6, 199)),
        Act(SAMPLE, [255, 4294967295, 255, 65535, -2147483648], 0, (255, 65280)), Act(FRAME, [], 255, ()),
        Act(READING, [], 0, (1, 2, 3, 4, 255))]),
        read_back(bytes.fromhex(joined("0100 0200 05000000 00 07 01 0a", "01 12  01 cd810100 01 3412 e05ef8ff 7805 0201 ffff  03",
                                       "02 04  050106c7  00 050106c7", "01 0c  ff ffffffff ff ffff 00000080  00 ff 00ff", "02 00  ff",
                                       "03 00  00 01 02 03 04 ff"))))
    for recording in dict.fromkeys([*SHOWN, DAY]):
        data = bytes.fromhex(recording)
        expect(f"{recording[:100]}, written again", recording, written(*read_back(data)).hex())
        expect(f"{recording[:100]}, checked", 0, first_wrong(data))


def page_checks():
    """The page's own checks."""
    day = of_acts(SAMPLED, READ)
    checked("the page's checks", "ok", day)
    checked("the page's checks", "bad 2", day[:-8] + "00" + day[-6:])
    checked("the page's checks", "no 17", day[:-2])
    checked("the page's checks", "no 18", "02" + day[2:])
    checked("the page's checks", "no 19", day + "00")


def later_forms():
    """Before their request lands."""
    told("later forms", """
        O 5 -> ok
        C -> no 12
        C 00 -> no 12
        V 00 00 1 -> no 12
        V -> no 12
        R -> ln 0 chg 1 dsg 1 at 0 0
        """)


RAW_LINES = (
    (b"", 12), (b" ", 12), (b"Q", 12), (b"o 5", 12), (b"x s5", 12), (b"R ", 12), (b" R", 12), (b"R\r", 12), (b"R\0", 12),
    (b"\xff", 12), (b"RR", 12), (b"R 1", 12), (b"R@4", 12), (b"O5", 12), (b"O ", 12), (b"O  5", 12), (b"O 5 ", 12),
    (b"O 05", 12), (b"O 00", 12), (b"O 0", 1), (b"O -5", 12), (b"O s5", 12), (b"O@4 5", 12),
    (b"X 5", 12), (b"X s", 12), (b"X s05", 12), (b"X s00", 12), (b"X s-5", 12), (b"X s 5", 12), (b"X S5", 12), (b"X s5s5", 12),
    (b"X s5/0/1", 12), (b"X s5,s5", 12), (b"X s5 ", 12), (b"X  s5", 12), (b"X ", 12), (b"Xs5", 12), (b"X q5", 12), (b"X s5\xff", 12),
    (b"X h", 12), (b"X h05", 12), (b"X h-5", 12), (b"X h 5", 12), (b"X H5", 12), (b"X hs5", 12), (b"X sh5", 12), (b"X h5h5", 12),
    (b"X h5/0", 12), (b"X h5/0/1", 12), (b"X h5,h5", 12), (b"X h5 ", 12), (b"Xh5", 12), (b"X h5 5", 12), (b"O h5", 12), (b"X h0", 1),
    (b"X h5 h4", 1), (b"X h4294967301", 12), (b"H 5", 12),
    (b"X g", 12), (b"X g3", 12), (b"X g3/", 12), (b"X g3/0", 12), (b"X g3/0/", 12), (b"X g/0/1", 12), (b"X g3//1", 12), (b"X g//", 12),
    (b"X g03/0/1", 12), (b"X g3/00/1", 12), (b"X g3/0/01", 12), (b"X g-3/0/1", 12), (b"X g3/-1/1", 12), (b"X g3/0/-1", 12),
    (b"X g3/0/+1", 12), (b"X g3/0/1/", 12), (b"X g3/0/1/1", 12), (b"X g3 /0/1", 12), (b"X g3/ 0/1", 12), (b"X g3/0 /1", 12),
    (b"X g3/0/ 1", 12), (b"X g3 0 1", 12), (b"X g3\\0\\1", 12), (b"X g3,0,1", 12), (b"X G3/0/1", 12), (b"X gg3/0/1", 12),
    (b"X gs3/0/1", 12), (b"X sg3/0/1", 12), (b"X g3/0/1g3/0/1", 12), (b"X g3/0/1 ", 12), (b"X  g3/0/1", 12), (b"Xg3/0/1", 12),
    (b"X g3/0/1 3/0/1", 12), (b"O g3/0/1", 12), (b"O 3/0/1", 12), (b"G 3/0/1", 12), (b"X 3/0/1", 12), (b"X g4294967299/0/1", 12),
    (b"X g3/4294967296/1", 12), (b"X g3/0/4294967297", 12), (b"X g3/0/1 g3/0/0", 1), (b"X g0/0/0", 1), (b"X g3/3/256", 1),
    (b"X g5/10/10", 1),
    (b"F@", 12), (b"F@ 4", 12), (b"F @4", 12), (b"F@04", 12), (b"F@-4", 12), (b"F@+4", 12), (b"F@4 ", 12), (b"F@4@4", 12), (b"F@x", 12),
    (b"F@4", 6), (b"F@00", 12), (b"F 256", 12), (b"F -1", 12), (b"F 00", 12), (b"F@0 256", 12),
    (b"L", 12), (b"L 1", 12), (b"L 1 ", 12), (b"L 2 0", 2), (b"L 0 0", 2), (b"L 2147483647 2147483647", 2), (b"L 2147483648 0", 12),
    (b"L 1 2147483648", 12), (b"L 4294967297 0", 12), (b"L 1 4294967424", 12), (b"L 1 99999999999", 12), (b"L 1 -1", 12),
    (b"L 1 -0", 12), (b"L -1 0", 12), (b"L 1 +0", 12), (b"L 01 0", 12), (b"L 1 00", 12), (b"L 1 0128", 12), (b"L  1 0", 12),
    (b"L 1  0", 12), (b"L 1 0 ", 12), (b"L 1 0 0", 12), (b"L1 0", 12), (b"L 1,0", 12), (b"L 1/0", 12), (b"L s1 0", 12), (b"L@0 1", 12),
    (b"L 1@0", 12), (b"l 1 0", 12), (b"LL 1 0", 12), (b"L 1 0\r", 12), (b"L 1 0\0", 12), (b"L 1\t0", 12),
    (b"U ", 12), (b" U", 12), (b"u", 12), (b"UU", 12), (b"U U", 12), (b"U 0", 12), (b"U 1", 12), (b"U 1 0", 12), (b"U1", 12), (b"U -1", 12),
    (b"U@4", 12), (b"U s5", 12), (b"U R", 12), (b"RU", 12), (b"UR", 12), (b"U\r", 12), (b"U\t", 12), (b"U\0", 12), (b"\0U", 12),
    (b"U\xff", 12), (b"\xef\xbb\xbfU", 12), (b"up", 12), (b"Up", 12),
    (b"W", 12), (b"W ", 12), (b" W 46", 12), (b"W  46", 12), (b"W 46 ", 12), (b"W 46 0", 12), (b"W46", 12), (b"W046", 12), (b"W 046", 12),
    (b"W 00", 12), (b"W -0", 12), (b"W -1", 12), (b"W +46", 12), (b"W 4.6", 12), (b"W 0x46", 12), (b"W x", 12), (b"W s5", 12),
    (b"W@46", 12), (b"W 46@46", 12), (b"w 46", 12), (b"WW 46", 12), (b"W 46\r", 12), (b"W 46\0", 12), (b"W\t46", 12), (b"W D", 12),
    (b"W 2147483648", 12), (b"W 4294967342", 12), (b"W 18446744073709551662", 12), (b"W " + b"9" * 5000, 12),
    (b"D ", 12), (b" D", 12), (b"d", 12), (b"DD", 12), (b"D D", 12), (b"D 0", 12), (b"D 46", 12), (b"D0", 12), (b"D@4", 12), (b"D 00", 12),
    (b"D\r", 12), (b"D\t", 12), (b"D\0", 12), (b"D\xff", 12), (b"WD", 12), (b"rec 0", 12), (b"hex 00", 12),
    (b"C ", 12), (b" C", 12), (b"C  ", 12), (b"c", 12), (b"CC", 12), (b"C C", 12), (b"C 0", 12), (b"C 1", 12), (b"C 010", 12),
    (b"C 0100 0", 12),
    (b"C 01 00", 12), (b"C 0100 0100", 12), (b"C 0100 46", 12), (b"C  0100", 12), (b"C 0100 ", 12), (b"C0100", 12), (b"C 01\t00", 12),
    (b"C 0A", 12), (b"C A0", 12), (b"C FF", 12), (b"C aF", 12), (b"C 0g", 12), (b"C g0", 12), (b"C 0x", 12), (b"C 0x00", 12),
    (b"C 01,00", 12),
    (b"C -1", 12), (b"C +1", 12), (b"C 0:", 12), (b"C 0/", 12), (b"C 0`", 12), (b"C 0@", 12), (b"C@46", 12), (b"C@ 0100", 12),
    (b"c 0100", 12),
    (b"C 0100\r", 12), (b"C 0100\0", 12), (b"C\t0100", 12), (b"C\0", 12), (b"C\r", 12), (b"C 01\xff\xff", 12), (b"C \xc2\xb2", 12),
    (b"C s5", 12), (b"C hex 0100", 12), (b"bad 1", 12), (b"0100", 12),
    (b"S", 12), (b"S 1 1 0 2000", 12), (b"S 1 1 0 2000 0", 3), (b"S 1 1 0 2000 -0" + b" 1" * 5, 12),
    (b"S 1 1 0 2000 -01" + b" 1" * 5, 12), (b"S 1 1 0 2000 -" + b" 1" * 5, 12), (b"S 1 1 0 2000 -2147483647" + b" 1" * 5, 5),
    (b"S 1 1 0 2000 -2147483648" + b" 1" * 5, 12), (b"S 1 1 0 2000 2147483647" + b" 1" * 5, 5),
    (b"S 1 1 0 2000 2147483648" + b" 1" * 5, 12), (b"S 1 1 0 2000 99999999999" + b" 1" * 5, 12), (b"S 1 1 0 -2000 0" + b" 1" * 5, 12),
    (b"S 1 1 0 2000 0 -1" + b" 1" * 4, 12), (b"S -1 1 0 2000 0" + b" 1" * 5, 12), (b"S 1 1 0 2000 " + b"9" * 5000 + b" 1" * 5, 12),
    # 300,000 bytes and 300,001: the letter and its spaces and digits
    (b"O 10" + b" 5" * 149998, 1), (b"O" + b" 5" * 150000, 12), (b"X s10 s10" + b" s5" * 99997, 1), (b"X" + b" s5" * 100000, 12),
    (b"X" + b" g3/0/1" * 42857, 1), (b"X g3/0/10" + b" g3/0/1" * 42856, 12),
    (b"F 10" + b" 1" * 149998, 6), (b"F" + b" 1" * 150000, 12), (b"F@40" + b" 1" * 149998, 6), (b"F@4" + b" 1" * 149999, 12),
    (b"S 1 1 0 2000 12" + b" 4000" * 59997, 3), (b"S 1 1 0 2000 123" + b" 4000" * 59997, 12), (b"R" * 300000, 12),
    (b"C " + b"0" * 299999, 12),
)


def raw_lines():
    """Shapes of lines, before and after an opening."""
    for line, number in RAW_LINES:
        workshop, name = Workshop(), f"{line[:40]!r} of {len(line)} bytes"
        early = b"no 12" if number == 12 else b"no 1"
        expect(f"{name} at the start", early, workshop.answer(line))
        expect("opening", b"ok", workshop.answer(b"X s5"))
        expect(f"{name} on a stack", b"no %d" % number, workshop.answer(line))
        expect(f"state after {name}", b"ln 0 chg 1 dsg 1 at 0 0", workshop.answer(b"R"))


def long_lengths():
    """The long lines above are as long as they are meant to be."""
    lengths = sorted(len(line) for line, _ in RAW_LINES if len(line) > 6000)
    expect("lengths of the long lines", [300000] * 7 + [300001] * 7, lengths)


def input_cases():
    """What a line of the input is."""
    for data, wanted in (
            (b"", b""), (b"\n", b"no 12\n"), (b"R", b"no 1\n"), (b"R\n\n", b"no 1\nno 12\n"), (b"X s5\r\nR", b"no 12\nno 1\n"),
            (b"X s5\nR\0\nR", b"ok\nno 12\nln 0 chg 1 dsg 1 at 0 0\n"),
            (b"U", b"no 1\n"), (b"X s5\nU", b"ok\nup 0 1\n"), (b"X s5\nU\r\nU\n\n", b"ok\nno 12\nup 0 1\nno 12\n"),
            (b"X s5\nF@4 2 0 0 214", b"ok\nre 2 0 192 152\n"),
            (b"D", b"no 15\n"), (b"W 10", b"no 1\n"), (b"X s5\nW 10\r\nW 10\nD", b"ok\nno 12\nrec 0\nhex 01000100000000000005\n"),
            (b"C", b"no 12\n"), (b"C\nC 0100\r\nC 0200\n\n", 4 * b"no 12\n"), (b"C 01000100000000000005", b"no 12\n"),
            (b"X s5\nW 10\n\nR", b"ok\nrec 0\nno 12\nln 0 chg 1 dsg 1 at 0 0\nrec 16\n"),
            (b"O" + b" 5" * 150000, b"no 12\n"), (b"O" + b" 5" * 150000 + b"\nR\n", b"no 12\nno 1\n")):
        expect(f"input {data[:30]!r}", wanted, Workshop().answers(data))
    expect("lines", [b"a", b"", b"b"], split_lines(b"a\n\nb\n"))


def main():
    """Run all; exit 1 if anything differs."""
    for part in (openings, long_lists, rooms, host_register, host_clears, host_levels, host_bits, host_last_sample, host_rows,
                 garden_openings, garden_levels, garden_counts, garden_cells, garden_load, garden_registers, garden_rows,
                 host_tallies, garden_tallies, journal_entries, journal_cells, journal_gardens, journal_numbers, journal_clears,
                 journal_rooms, journal_floods, page_journal, ups_along_a_row, ups_of_hosts, ups_of_gardens, ups_refused, page_ups,
                 recorded_headers, recorded_acts, recorded_refusals, recorded_ends, recorded_fields, recorded_others, recorded_order,
                 recorded_starts, recorded_fills, page_recording, checked_cuts, checked_headers, checked_kinds, checked_order,
                 checked_answers, checked_days, checked_hosts, checked_long, checked_shown, page_checks, later_forms,
                 raw_lines, long_lengths, input_cases):
        part()
    sys.exit(1 if FAILED else 0)


if __name__ == "__main__":
    main()
