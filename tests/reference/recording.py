"""Reference for recordings of a day, written from tickets 10 and 11 of paper 02 alone.

A recording keeps the bytes of each act that got room, one piece an act. The
memory is put together out of the board list and the pieces each time it is
asked for, so that header, count and length cannot come apart, and an act that
is not recorded has no way in. The bytes are worked out in here alone.

Read back, a recording is whole before anything in it is judged: its boards and
acts are all there, or it is refused and nothing of it is. Then the boards are
opened, and each act is done again and its answer held against the recorded one.
"""

from collections import namedtuple

from reference import GARDEN, HOST, STAND_ALONE, Plan, Refusal, Sample, Stack

MOST_BYTES = 65535
EDITION = 1
REPLY_BYTES = 4
NOT_RECORDABLE, NO_ROOM = 15, 16
CUT_SHORT, WRONG, LEFT_OVER = 17, 18, 19

SAMPLE, FRAME, READING = 1, 2, 3        # the kinds of act
# for each kind, the bytes that each number of its answer takes
ANSWER_BYTES = {SAMPLE: (1, 2), FRAME: (1, 1, 1, 1), READING: (1, 1, 1, 1, 1)}


def little(number, size, signed=False):
    """A number in so many bytes, the low one first, or refusal 15 where it is too large for them."""
    try:
        return number.to_bytes(size, "little", signed=signed)
    except OverflowError:
        raise Refusal(NOT_RECORDABLE) from None


# ---------------------------------------------------- kinds and bodies of acts

def sample_body(fields):
    """A sample, by its fields in the order of a line, which is that of a body too."""
    board, elapsed, load, thermistor, shunt, *cells = fields
    return SAMPLE, b"".join((little(board, 1), little(elapsed, 4), little(load, 1), little(thermistor, 2),
                             little(shunt, 4, signed=True), *(little(cell, 2) for cell in cells)))


def frame_body(data, room):
    """A frame, by its bytes; refusal 15 where its reply has too little room, whatever its answer."""
    if room < REPLY_BYTES:
        raise Refusal(NOT_RECORDABLE)
    return FRAME, bytes(data)


def reading_body():
    """A whole-stack reading."""
    return READING, b""


def other_body(*_fields):
    """Another kind of act: refusal 15."""
    raise Refusal(NOT_RECORDABLE)


# ------------------------------------------------------------------ recordings

class Recording:
    """A recording from its opening on, in so many lent bytes; `begun` is what its header got."""

    def __init__(self, plans, room):
        self.plans = plans
        self.end = min(room, MOST_BYTES)
        self.acts = []          # the bytes of each act in the memory
        self.garden = any(plan.kind == GARDEN for plan in plans)
        self.full = len(self.memory()) > self.end
        self.begun = NOT_RECORDABLE if self.garden else NO_ROOM if self.full else 0

    def memory(self):
        """Header, board list and acts."""
        boards = b"".join(little(plan.kind, 1) + little(plan.cells, 1) for plan in self.plans)
        return b"".join((little(EDITION, 2), little(len(self.plans), 2), little(len(self.acts), 4), boards, *self.acts))

    def act(self, body, number, answer):
        """What the recorder says to an act with that answer: 0, 15 or 16.

        `body` gives its kind and body, or refusal 15; a refused act has a
        number and no answer.
        """
        try:
            piece = self.piece(*body(), number, answer)
        except Refusal as refusal:
            return refusal.number
        self.full = self.full or len(self.memory()) + len(piece) > self.end
        if self.full:
            return NO_ROOM
        self.acts.append(piece)
        return 0

    def piece(self, kind, body, number, answer):
        """The bytes of an act, or refusal 15."""
        if self.garden:
            raise Refusal(NOT_RECORDABLE)
        given = b"".join(little(value, size) for value, size in zip(answer, ANSWER_BYTES[kind]))
        return little(kind, 1) + little(len(body), 1) + body + little(number, 1) + given

    def shown(self):
        """The bytes that stand in the memory, or refusal 15 where there are none."""
        if self.begun != 0:
            raise Refusal(NOT_RECORDABLE)
        return self.memory()


# ---------------------------------------------------------------- reading back

# what may stand in each field that not every number may stand in
EDITIONS = (EDITION,)
BOARDS = range(1, 17)
BOARD_KINDS = (STAND_ALONE, HOST)
CELLS = range(5, 11)
# for each kind of act, the lengths of its body: a sample has any number of cells, a frame any number of bytes
BODY_LENGTHS = {SAMPLE: range(12, 256, 2), FRAME: range(256), READING: (0,)}

# an act with its answer; `sent` is what a line would have: the fields of a sample, the bytes of a frame
Act = namedtuple("Act", "kind sent number answer")


class Damaged(Refusal):
    """A recording that is none: 17, 18 or 19, and the byte that decides, 1 the first.

    That is the first byte that is missing, the last of a wrong field, or the
    first that is left over.
    """

    def __init__(self, number, byte):
        super().__init__(number)
        self.byte = byte


class Reader:
    """Bytes that are read from the front."""

    def __init__(self, data):
        self.data = data
        self.at = 0

    def take(self, size):
        """The next so many bytes, or refusal 17."""
        if len(self.data) < self.at + size:
            raise Damaged(CUT_SHORT, len(self.data) + 1)
        self.at += size
        return self.data[self.at - size:self.at]

    def number(self, size, signed=False):
        """The next field of so many bytes, the low one first."""
        return int.from_bytes(self.take(size), "little", signed=signed)

    def one_of(self, allowed, size=1):
        """The next field, which may have these values: it has to be there, then it is judged, and only then comes the next."""
        found = self.number(size)
        if found not in allowed:
            raise Damaged(WRONG, self.at)
        return found

    def end(self):
        """Nothing is behind this."""
        if self.at < len(self.data):
            raise Damaged(LEFT_OVER, self.at + 1)


def sample_sent(body):
    """The fields of a sample, in the order of a line."""
    fields = Reader(body)
    board, elapsed, load, thermistor = (fields.number(size) for size in (1, 4, 1, 2))
    shunt = fields.number(4, signed=True)
    return [board, elapsed, load, thermistor, shunt, *(fields.number(2) for _ in range(len(body) // 2 - 6))]


SENT = {SAMPLE: sample_sent, FRAME: list, READING: list}


def act_read(reader):
    """The next act."""
    kind = reader.one_of(SENT)
    body = reader.take(reader.one_of(BODY_LENGTHS[kind]))
    number = reader.number(1)
    answer = tuple(reader.number(size) for size in ANSWER_BYTES[kind]) if number == 0 else ()
    return Act(kind, SENT[kind](body), number, answer)


def read_back(data):
    """The plans of a recording's boards, and its acts; or refusal 17, 18 or 19."""
    reader = Reader(data)
    reader.one_of(EDITIONS, 2)
    boards = reader.one_of(BOARDS, 2)
    count = reader.number(4)
    plans = [Plan(reader.one_of(BOARD_KINDS), reader.one_of(CELLS)) for _ in range(boards)]
    acts = [act_read(reader) for _ in range(count)]
    reader.end()
    return plans, acts


# -------------------------------------------------------------------- checking

def sampled(stack, fields):
    """The answer to a sample."""
    board, elapsed, load, thermistor, shunt, *cells = fields
    return stack.sample(board, Sample(elapsed, load, thermistor, shunt, tuple(cells)))


def framed(stack, data):
    """The answer to a frame, which is lent four bytes."""
    reply = bytearray(REPLY_BYTES)
    stack.frame(data, reply)
    return tuple(reply)


def read(stack, _nothing):
    """The answer to a whole-stack reading."""
    return stack.reading()


DOES = {SAMPLE: sampled, FRAME: framed, READING: read}


def right(stack, act):
    """The number and the values of the right answer to an act, which the stack takes in."""
    try:
        return 0, DOES[act.kind](stack, act.sent)
    except Refusal as refusal:
        return refusal.number, ()


def first_wrong(data):
    """The place of the first act of a recording whose answer is not the right one, 1 the first, or 0 where none is."""
    plans, acts = read_back(data)
    stack = Stack(plans)
    for place, act in enumerate(acts, 1):
        if right(stack, act) != (act.number, act.answer):
            return place
    return 0
