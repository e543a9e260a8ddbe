"""Lists of calls on one serial line, as the program cuts reads them."""
from typing import NamedTuple

from records import ANSWER_BYTES
from .rooms import MOST_ROOM, ROOM_BYTES

CUT, CLOSE = 1, 2  # the byte that a call begins with
LENGTH_BYTES = 2  # of a cut, behind its room, high byte first
HEAD_BYTES = 1 + ROOM_BYTES + LENGTH_BYTES  # in front of a cut
MOST_CALLS_BYTES = 4096
CLOSING = bytes((CLOSE,))


class Call(NamedTuple):
    """One call: a cut with the room for its answers, or a closing, which has neither."""

    written: bytes  # as the list has it
    room: int
    cut: bytes
    endings: tuple  # those that it can have

    @property
    def lines(self):
        """How many lines are printed for it: its counts, and the output with an answer's length to a line."""
        return 1 - self.room // -ANSWER_BYTES


def in_call(room, cut):
    """A call with a cut, as a list has it."""
    return bytes((CUT,)) + room.to_bytes(ROOM_BYTES, "big") + len(cut).to_bytes(LENGTH_BYTES, "big") + cut


def first_call(given):
    """The call that some bytes begin with, or None where they begin with none."""
    if given[0] == CLOSE:
        return Call(CLOSING, 0, b"", (0, 3, 12))
    head = given[:HEAD_BYTES]
    if given[0] != CUT or len(head) < HEAD_BYTES:
        return None
    room, length = (int.from_bytes(field, "big") for field in (head[1:1 + ROOM_BYTES], head[1 + ROOM_BYTES:]))
    cut = given[HEAD_BYTES:HEAD_BYTES + length]
    return Call(head + cut, min(room, MOST_ROOM), cut, (0, 4, 12)) if len(cut) == length else None


def calls_of(given):
    """The calls of an input in their order, or None where it is no list of calls from its first byte to its last."""
    calls, rest = [], given
    while rest:
        call = first_call(rest)
        if call is None:
            return None
        calls.append(call)
        rest = rest[len(call.written):]
    return calls if len(given) <= MOST_CALLS_BYTES else None
