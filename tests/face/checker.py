"""What a check of a recording tells and leaves, by include/adomvik.h: its bytes are read here, its acts are done on the record model."""

import struct

from recorder import EDITION, FRAME, HEADER, READING, SAMPLE
from reference import HOST, Plan, STAND_ALONE

BAD_ROW, CUT_SHORT, WRONG_FIELD, LEFT_OVER = 1, 17, 18, 19
BOARDS_MOST = 16
FIELDS = struct.Struct("<BIBHi")        # of a sample, in front of its cells
REST = {SAMPLE: 3, FRAME: 4, READING: 5}    # bytes of an answer behind its 0


class Unread(Exception):
    """A recording that cannot be read, and the byte at which the field begins."""

    def __init__(self, number, at):
        super().__init__(f"{number} at byte {at}")
        self.number, self.at = number, at


class Reader:
    """A recording, field by field from the front."""

    def __init__(self, data):
        self.data, self.at = data, 0

    def field(self, length, good=lambda value: True):
        """The next field as a number: first cut short, then wrong."""
        if len(self.data) - self.at < length:
            raise Unread(CUT_SHORT, self.at)
        value = int.from_bytes(self.data[self.at:self.at + length], "little")
        if not good(value):
            raise Unread(WRONG_FIELD, self.at)
        self.at += length
        return value

    def bytes(self, length):
        """The next field as bytes."""
        self.field(length)
        return self.data[self.at - length:self.at]

    def board(self):
        """A board of the list."""
        kind = self.field(1, lambda kind: kind in (STAND_ALONE, HOST))
        return Plan(kind, self.field(1, lambda cells: 5 <= cells <= 10))

    def act(self):
        """Kind, body and answer."""
        kind = self.field(1, lambda kind: kind in REST)
        fits = {SAMPLE: lambda n: n >= FIELDS.size and n % 2 == 0, FRAME: lambda n: True, READING: lambda n: n == 0}[kind]
        body = self.bytes(self.field(1, fits))
        answer = self.bytes(1)
        return kind, body, answer + (self.bytes(REST[kind]) if answer == b"\0" else b"")

    def whole(self):
        """The boards, and the acts with where each begins; nothing is behind them."""
        self.field(2, lambda edition: edition == EDITION)
        boards = self.field(2, lambda boards: 1 <= boards <= BOARDS_MOST)
        count = self.field(4)
        plans, acts = [self.board() for _ in range(boards)], []
        while len(acts) < count:        # a count may be far larger than there are bytes for
            acts.append((self.at, self.act()))
        if self.at < len(self.data):
            raise Unread(LEFT_OVER, self.at)
        return plans, acts


def right_answer(rows, boards, kind, body):
    """What an act is answered by the record model, as a recording has it."""
    if kind == SAMPLE:
        board, elapsed, load, thermistor, shunt = FIELDS.unpack(body[:FIELDS.size])
        cells = list(struct.unpack(f"<{(len(body) - FIELDS.size) // 2}H", body[FIELDS.size:]))
        number, *told = rows.sample(boards, board, (elapsed, shunt, thermistor, load, cells)).split(" ")[:-1]
        values = struct.pack("<BH", *map(int, told))
    elif kind == FRAME:
        number, told, _ = rows.frame(boards, body, 4).split(" ")
        values = bytes.fromhex(told)
    else:
        number, *told = rows.reading(boards).split(" ")[:-1]
        values = bytes(map(int, told))
    return bytes((int(number),)) + (values if number == "0" else b"")


def checked(rows, lent, data):
    """The number and the place, with so many records lent; the records are left as the check leaves them."""
    try:
        plans, acts = Reader(data).whole()
    except Unread as unread:
        return unread.number, unread.at
    if lent < len(plans):
        return BAD_ROW, len(plans)
    rows.opening(len(plans), plans)
    for place, (_, (kind, body, answer)) in enumerate(acts, 1):
        if right_answer(rows, len(plans), kind, body) != answer:
            return 0, place
    return 0, 0


def parts(data):
    """A good recording's header with its boards, and the bytes of each act."""
    _, acts = Reader(data).whole()
    begins = [at for at, _ in acts] + [len(data)]
    return data[:begins[0]], [data[at:end] for at, end in zip(begins, begins[1:])]


def put_together(header, acts, count=None):
    """A recording of these acts, which counts them or says another count."""
    count = len(acts) if count is None else count
    return b"".join([header[:4], (count % 2**32).to_bytes(4, "little"), header[HEADER.size:], *acts])
