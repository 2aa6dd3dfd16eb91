#!/usr/bin/env python3
"""Reference for the workshop program, written from its page alone.

Reads workshop lines from standard input as bytes and writes the answers. The
boards are those of reference.py, which reads everything off the recorded
history, and the bytes of a recording those of recording.py; how lines look,
what they ask and what is printed stands here. It shares nothing with the
program.

A form that a request brings is one row of FORMS and one function, and one of
ACTS where it is an act.
"""

import re
import sys
from itertools import chain

sys.dont_write_bytecode = True

from recording import NOT_RECORDABLE, Recording, frame_body, other_body, reading_body, sample_body  # noqa: E402
from reference import (GARDEN, HOST, LARGEST_NUMBER, STAND_ALONE, Plan, Refusal, Sample, Stack,  # noqa: E402
                       split_lines, stand_alone)

LONGEST_LINE = 300000
USUAL_ROOM = 4
# a reply takes four bytes and a listing 128 entries at most, so a model of the buffer needs a few more and no gigabytes
MODEL_ROOM = 16
MODEL_ENTRIES = 160

# ten digits are enough for every number that is small enough
NUMBER = rb"(?:0|[1-9][0-9]{0,9})"
SHUNT = rb"(?:0|-?[1-9][0-9]{0,9})"
BOARD = rb"(?:[sh]%b|g%b/%b/%b)" % (NUMBER, NUMBER, NUMBER, NUMBER)
KINDS = {b"s": STAND_ALONE, b"h": HOST, b"g": GARDEN}


def numbers(text):
    """The numbers of a text, or refusal 12 where one is too large."""
    found = [int(word) for word in re.findall(rb"-?[0-9]+", text)]
    if any(abs(number) > LARGEST_NUMBER for number in found):
        raise Refusal(12)
    return found


def byte_list(text):
    """The bytes of a frame, or refusal 12 where a number is no byte."""
    found = numbers(text)
    if any(number > 255 for number in found):
        raise Refusal(12)
    return found


def plans(text):
    """The plan of each board: its letter, then its numbers."""
    return [Plan(KINDS[word[:1]], *numbers(word)) for word in text.split()]


class Workshop:
    """The workshop program."""

    def __init__(self):
        self.stack = None
        self.acted = False          # has an act been made since the opening?
        self.recording = None       # the last one asked for before any act

    def answer(self, line):
        """The answer to one line, without its newline."""
        try:
            do, fields = self.take_apart(line)
            return self.act(do, fields) if do in ACTS else do(self, *fields)
        except Refusal as refusal:
            return b"no %d" % refusal.number

    def take_apart(self, line):
        """What a line does and its fields, or refusal 12."""
        if len(line) > LONGEST_LINE:
            raise Refusal(12)
        for shape, take, do in FORMS:
            found = shape.fullmatch(line)
            if found:
                return do, take(*found.groups())
        raise Refusal(12)

    def opened(self):
        """The stack, or refusal 1 before a good opening."""
        if self.stack is None:
            raise Refusal(1)
        return self.stack

    def opening(self, wanted):
        """A refused one raises before the earlier stack is let go."""
        self.stack = Stack(wanted)
        self.acted, self.recording = False, None
        return b"ok"

    # -- acts: the words of the answer and its numbers

    def act(self, do, fields):
        """Its answer, which stands whatever the recorder says to it on a line behind."""
        self.opened()
        self.acted = True
        try:
            number, (words, answer) = 0, do(self, *fields)
            said = words % answer
        except Refusal as refusal:
            number, answer = refusal.number, ()
            said = b"no %d" % number
        if self.recording:
            said += b"\nrec %d" % self.recording.act(lambda: ACTS[do](*fields), number, answer)
        return said

    def sample(self, fields):
        """The fields in the line's order."""
        board, elapsed, load, thermistor, shunt = fields[:5]
        sample = Sample(elapsed, load, thermistor, shunt, tuple(fields[5:]))
        return b"st %d bal %d", self.stack.sample(board, sample)

    def frame(self, data, room):
        """A frame with so many bytes lent for its reply."""
        reply = bytearray(min(room, MODEL_ROOM))
        self.stack.frame(data, reply)
        return b"re %d %d %d %d", tuple(reply[:4])

    def reading(self):
        """The whole-stack reading."""
        return b"ln %d chg %d dsg %d at %d %d", self.stack.reading()

    def listing(self, fields):
        """A board's journal, with room lent for so many entries."""
        board, room = fields
        lent = [None] * min(room, MODEL_ENTRIES)
        count = self.stack.listing(board, lent)
        return b"ls %d" + b" %d %d %d" * count, (count, *chain(*lent[:count]))

    def question(self):
        """Is anything up?"""
        return b"up %d %d", self.stack.up()

    # -- recordings

    def begin(self, fields):
        """Begin a recording into so many lent bytes; too late once an act has been made, and then nothing changes."""
        boards, (room,) = self.opened().boards, fields
        if self.acted:
            return b"rec %d" % NOT_RECORDABLE
        self.recording = Recording([board.plan for board in boards], room)
        return b"rec %d" % self.recording.begun

    def show(self):
        """The recording, or refusal 15 where there is none."""
        if not self.recording:
            raise Refusal(NOT_RECORDABLE)
        return b"hex " + self.recording.shown().hex().encode()

    def answers(self, data):
        """The whole output for a whole input."""
        return b"".join(self.answer(line) + b"\n" for line in split_lines(data))


# what each act has in a recording
ACTS = {
    Workshop.sample: sample_body,
    Workshop.frame: frame_body,
    Workshop.reading: reading_body,
    Workshop.listing: other_body,
    Workshop.question: other_body,
}

# for each form: its shape, how the fields are taken out of the shape's groups, and what it does
FORMS = (
    (re.compile(rb"O((?: %b)*)" % NUMBER),
     lambda counts: (stand_alone(numbers(counts)),), Workshop.opening),
    (re.compile(rb"X((?: %b)*)" % BOARD),
     lambda boards: (plans(boards),), Workshop.opening),
    (re.compile(rb"S((?: %b){4} %b(?: %b)*)" % (NUMBER, SHUNT, NUMBER)),
     lambda fields: (numbers(fields),), Workshop.sample),
    (re.compile(rb"F((?: %b)*)" % NUMBER),
     lambda data: (byte_list(data), USUAL_ROOM), Workshop.frame),
    (re.compile(rb"F@(%b)((?: %b)*)" % (NUMBER, NUMBER)),
     lambda room, data: (byte_list(data), *numbers(room)), Workshop.frame),
    (re.compile(rb"R"),
     lambda: (), Workshop.reading),
    (re.compile(rb"L((?: %b){2})" % NUMBER),
     lambda fields: (numbers(fields),), Workshop.listing),
    (re.compile(rb"U"),
     lambda: (), Workshop.question),
    (re.compile(rb"W( %b)" % NUMBER),
     lambda fields: (numbers(fields),), Workshop.begin),
    (re.compile(rb"D"),
     lambda: (), Workshop.show),
)


def main():
    """Workshop lines from standard input, answers to standard output."""
    sys.stdout.buffer.write(Workshop().answers(sys.stdin.buffer.read()))


if __name__ == "__main__":
    main()
