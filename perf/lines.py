#!/usr/bin/env python3
"""Make bench lines for the speed measurement.

    perf/lines.py N [SEED]

N lines on standard output, the same for the same N and SEED (default 1). Nine
tenths are samples of a stack of four ten-cell boards. About one sample in ten
is at fault, and faults come in spells on one board, since a single bad sample
would never outlast a delay. The rest are frames, readings, refused acts and
malformed lines. The stack is opened anew every 50,000 lines, which also gives
its boards fresh programming cycles.
"""

import random
import sys

BOARDS = 4
CELLS = 10
OPENING_EVERY = 50_000
OPENING = "O" + f" {CELLS}" * BOARDS
SAMPLE_SHARE = 0.9
SPELL_LONGEST = 24
# a spell lasts 12.5 samples on average; this start rate makes one sample in ten bad
SPELL_START = 1 / 112
POOL = 4096     # readings made beforehand, since drawing ten cells a line is slow


def crc8(data):
    """The frames' check byte."""
    crc = 0
    for byte in data:
        crc ^= byte
        for _ in range(8):
            crc = (crc << 1 ^ 0x07) & 0xFF if crc & 0x80 else crc << 1
    return crc


def frame(board, write, register, value):
    """A frame line with its right check byte."""
    head = [2 * board + write, register, value]
    return "F " + " ".join(map(str, head + [crc8(head)]))


def quiet_cells(rng):
    """Cells that no settings byte calls a fault."""
    return [rng.randint(3600, 4000) for _ in range(CELLS)]


def joined(cells):
    """Cells as they end a sample line."""
    return " ".join(map(str, cells))


def quiet_tail(rng):
    """The end of a quiet sample line, from the load flag on."""
    load = 1 if rng.random() < 0.3 else 0
    return f"{load} {rng.randint(1200, 3000)} {rng.randint(-20000, 9000)} {joined(quiet_cells(rng))}"


def bad_spell(rng):
    """The ends of the lines of one spell, at fault in the same way throughout."""
    kind = rng.choices(("over", "under", "shunt", "hot"), (5, 3, 4, 1))[0]
    bad = rng.sample(range(CELLS), rng.randint(1, 4))
    tails = []
    for _ in range(rng.randint(1, SPELL_LONGEST)):
        cells, thermistor, shunt = quiet_cells(rng), rng.randint(1200, 3000), rng.randint(-20000, 9000)
        if kind == "over":
            for i in bad:
                cells[i] = rng.randint(4151, 4600)
        elif kind == "under":
            for i in bad:
                cells[i] = rng.randint(800, 1399)
        elif kind == "shunt":
            shunt = rng.randint(10001, 200000)
        else:
            thermistor = rng.randint(300, 974)
        tails.append(f"{rng.randint(0, 1)} {thermistor} {shunt} {joined(cells)}")
    return tails


def staging(rng):
    """A write of an allowed value to one of the settings."""
    register = rng.randint(6, 10)
    value = rng.randrange({7: 64, 8: 32}.get(register, 256))
    return frame(rng.randint(1, BOARDS), 1, register, value)


def refused(rng):
    """A well-formed act that the stack refuses."""
    cells = joined(quiet_cells(rng))
    board = rng.randint(1, BOARDS)
    right = frame(board, 0, 6, 0)
    return rng.choice((
        "O 4 10",
        f"S {BOARDS + 1} 1000 0 2000 0 {cells}",
        f"S {board} 1000 0 2000 0 {cells[5:]}",
        f"S {board} 100001 0 2000 0 {cells}",
        f"S {board} 1000 2 2000 0 {cells}",
        f"S {board} 1000 0 2000 -500001 {cells}",
        right + " 0",
        " ".join(right.split()[:-1] + [str(crc8([2 * board, 6, 0]) ^ 1)]),
        frame(BOARDS + 2, 0, 0, 0),
        frame(board, 0, 12, 0),
        frame(board, 1, 7, 64),
        frame(board, 0, 8, 1),
    ))


def malformed(rng):
    """A line outside the grammar."""
    cells = joined(quiet_cells(rng))
    board = rng.randint(1, BOARDS)
    return rng.choice((
        "",
        "R ",
        "X 1",
        f"S {board} 1000 0 2000",
        f"S {board} 1000 0 2000 -0 {cells}",
        f"S {board} 01000 0 2000 0 {cells}",
        f"S {board} 1000 0 2000 0  {cells}",
        f"S {board} 1000 0 2000 0 {cells} -3",
        f"S {board} 2147483648 0 2000 0 {cells}",
        "F 2 0 256 0",
        "F 2 0 0 214\r",
        f"S {board} 1000 0 2000 0" + f" {cells}" * 4,
    ))


def other(rng):
    """A line that is no sample of the usual kind."""
    draw = rng.random()
    if draw < 0.40:
        return frame(rng.randint(1, BOARDS), 0, rng.choice((0, 0, 6, 7, 8, 9, 10, 11, rng.randint(16, 20), rng.randint(24, 28))), 0)
    if draw < 0.60:
        return staging(rng)
    if draw < 0.61:
        return frame(rng.randint(1, BOARDS), 1, 11, 0x41)
    if draw < 0.90:
        return "R"
    return refused(rng) if draw < 0.97 else malformed(rng)


def make_lines(count, seed):
    """The lines, one after another."""
    rng = random.Random(seed)
    quiet = [quiet_tail(rng) for _ in range(POOL)]
    spells = [bad_spell(rng) for _ in range(POOL // 8)]
    others = [other(rng) for _ in range(POOL)]
    # longer steps are drawn more often than an even draw would, so that delays run out
    heads = [[f"S {board} {rng.choice((rng.randint(1, 100_000), 50_000, 100_000))} "
              for _ in range(POOL // 4)] for board in range(1, BOARDS + 1)]
    running = [iter(()) for _ in range(BOARDS)]
    uniform = rng.random
    for n in range(count):
        if n % OPENING_EVERY == 0:
            yield OPENING
            continue
        if uniform() >= SAMPLE_SHARE:
            yield others[int(uniform() * POOL)]
            continue
        board = int(uniform() * BOARDS)
        tail = next(running[board], None)
        if tail is None:
            if uniform() < SPELL_START:
                running[board] = iter(spells[int(uniform() * len(spells))])
                tail = next(running[board])
            else:
                tail = quiet[int(uniform() * POOL)]
        yield heads[board][int(uniform() * len(heads[board]))] + tail


def main():
    """Write the lines in large pieces, to be quick."""
    if len(sys.argv) not in (2, 3) or not all(a.isdecimal() for a in sys.argv[1:]):
        sys.exit("use: perf/lines.py N [SEED]")
    count, seed = int(sys.argv[1]), int((sys.argv + ["1"])[2])
    piece = []
    for line in make_lines(count, seed):
        piece.append(line)
        if len(piece) == 10_000:
            sys.stdout.write("\n".join(piece) + "\n")
            piece.clear()
    if piece:
        sys.stdout.write("\n".join(piece) + "\n")


if __name__ == "__main__":
    main()
