"""Stored sessions of the workshop, tests/desk/NAME.txt.

`>` stands before a line and `<` before each line of its answer, as the page has
them. In a line `\\xff` stands for a byte, and `{TEXT*N}` for N times a text, as
it does in a long answer; `>.` is a last line without its newline; `>254` is a
line that is sent so many times and has the same answer each time; `#` is a
remark.
"""

import os
import re

from workshop import Workshop

SESSIONS = os.path.join(os.path.dirname(os.path.dirname(os.path.abspath(__file__))), "desk")
# what a long recording has over and over: a cell, a byte, an act
REPEATED = re.compile(r"(.{2,600}?)\1{29,}")


def line_of(text):
    """The bytes of a stored line, of an input or an answer."""
    text = re.sub(r"\{([^{}]*)\*(\d+)\}", lambda found: found[1] * int(found[2]), text)
    text = re.sub(r"\\x([0-9a-f]{2})", lambda found: chr(int(found[1], 16)), text)
    return text.encode("latin-1")


def answer_of(line):
    """How a line of an answer is stored."""
    return REPEATED.sub(lambda found: f"{{{found[1]}*{len(found[0]) // len(found[1])}}}", line)


class Stored:
    """A stored session: what is sent, what should come, and its text with the reference's answers."""

    def __init__(self, name):
        self.path = os.path.join(SESSIONS, name)
        with open(self.path, encoding="ascii") as file:
            self.text = file.read()
        self.sent, self.wanted, fresh, reference = b"", [], [], Workshop()
        times, at, answer = 1, 0, []        # of the line above, and where its answers begin
        for row in self.text.splitlines():
            mark, _, text = row.partition(" ")
            if mark == "<":
                answer.append(line_of(text))
                self.wanted[at:] = answer * times
                continue
            fresh.append(row)
            if mark.startswith(">"):
                line, times, at, answer = line_of(text), int(mark.strip(">.") or 1), len(self.wanted), []
                self.sent += (line + (b"" if mark == ">." else b"\n")) * times
                told = dict.fromkeys(reference.answer(line) for _ in range(times))
                fresh.extend("< " + answer_of(part) for answers in told for part in answers.decode().split("\n"))
        self.fresh = "\n".join(fresh) + "\n"


def stored_sessions():
    """All of them, by name."""
    return {name: Stored(name) for name in sorted(os.listdir(SESSIONS))}
