"""What a beginning and a note do to a recorder and its memory, by include/adomvik.h."""

import struct
from zlib import crc32

from record import PATTERN
from reference import GARDEN, openable

USED_MOST = 65_535          # bytes of a memory that a recording takes
EDITION = 1
HEADER = struct.Struct("<HHI")
ACTS_AT = 4                 # where the header has the number of acts
SAMPLE, FRAME, READING = 1, 2, 3
BODY_MOST = 255
ACTS_MOST = 65_535
NOT_RECORDABLE, NO_ROOM = 15, 16
GUARD = bytes([PATTERN] * 13)       # in front of the memory and behind it; its length has the memory lie at any address


class Tape:
    """A recorder, and the memory that is lent to it."""

    def __init__(self, length, used=0, acts=0, stopped=NOT_RECORDABLE, verdict=NOT_RECORDABLE):
        self.memory = bytearray([PATTERN] * length)
        self.used, self.acts, self.stopped, self.verdict = used, acts, stopped, verdict

    def line(self):
        """An answer line: the verdict, the other fields, and a checksum of the memory and the guards."""
        return f"{self.verdict} {self.used} {self.acts} {self.stopped} {crc32(GUARD + self.memory + GUARD):08x}"

    def whole(self):
        """An answer line with every byte of the memory and the guards."""
        return f"0 {(GUARD + self.memory + GUARD).hex()}"

    def end(self):
        """Where a recording ends at the latest."""
        return min(len(self.memory), USED_MOST)

    def begin(self, plans):
        """The header and the list of boards, or the first of 1, 15 and 16."""
        written = b"".join(bytes((plan.kind, plan.cells)) for plan in plans if openable(plan))
        written = HEADER.pack(EDITION, len(plans) % 65536, 0) + written
        if not 1 <= len(plans) <= 16 or not all(openable(plan) for plan in plans):
            self.verdict = 1
        elif any(plan.kind == GARDEN for plan in plans):
            self.verdict = NOT_RECORDABLE
        elif len(written) > self.end():
            self.verdict = NO_ROOM
        else:
            self.verdict = 0
            self.memory[:len(written)] = written
        self.used, self.acts = (len(written), 0) if self.verdict == 0 else (0, 0)
        self.stopped = {0: 0, NO_ROOM: NO_ROOM}.get(self.verdict, NOT_RECORDABLE)
        return self.line()

    def note(self, kind, body, number, answer):
        """An act of that body behind the recording, or the first of 15 and 16; no body is one that is not recordable."""
        act = b"" if body is None else bytes((kind, len(body) % 256)) + body + bytes((number,)) + (answer if number == 0 else b"")
        if self.stopped not in (0, NO_ROOM) or body is None or len(body) > BODY_MOST:
            self.verdict = NOT_RECORDABLE
        elif self.stopped or self.used < HEADER.size or self.acts == ACTS_MOST or self.used + len(act) > self.end():
            self.verdict = self.stopped = NO_ROOM
        else:
            self.memory[self.used:self.used + len(act)] = act
            self.used += len(act)
            self.acts += 1
            self.verdict = 0
            self.memory[ACTS_AT:HEADER.size] = self.acts.to_bytes(4, "little")
        return self.line()

    def sample(self, board, fields, number, answer):
        """Fields are those of Record.sample, the answer is status and bled cells."""
        elapsed, shunt, thermistor, load, cells = fields
        body = None
        if board < 256 and load < 256 and all(n < 65536 for n in [thermistor, *cells]):
            body = struct.pack(f"<BIBHi{len(cells)}H", board, elapsed, load, thermistor, shunt, *cells)
        return self.note(SAMPLE, body, number, struct.pack("<BH", *answer))

    def frame(self, data, reply, number):
        """The frame's bytes and the reply buffer as it is afterwards."""
        return self.note(FRAME, bytes(data) if len(reply) >= 4 else None, number, bytes(reply[:4]))

    def reading(self, number, answer):
        """The answer is the reading's five numbers."""
        return self.note(READING, b"", number, bytes(answer))

    def other(self):
        """A listing or a look for the fault line."""
        return self.note(0, None, 0, b"")
