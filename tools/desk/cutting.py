"""What the proved program 'cuts' prints of calls on a serial line, taken apart call by call."""
from typing import NamedTuple

from commands import CannotRun
from compared import CUTS, NotReadable
from compared.calls import CLOSING, Call, calls_of
from compared.cuts import NO_CALL
from compared.rooms import ROOM_BYTES
from records import ANSWER_BYTES, RECORD_BYTES, records_of
from .calls import why_none


class Made(NamedTuple):
    """A call that was made, and what it gave."""

    call: Call
    at: int  # where it begins in the list
    held: bytes  # of an unfinished record, before the call
    ending: int
    taken: int  # bytes of its own cut
    answers: list

    @property
    def closes(self):
        """Whether it closes the line."""
        return self.call.written == CLOSING

    @property
    def room(self):
        """The room as the list has it; the output is no longer than the program takes."""
        return int.from_bytes(self.call.written[1:1 + ROOM_BYTES], "big")

    @property
    def joined(self):
        """The bytes that were held, and those of the cut that were taken."""
        return self.held + self.call.cut[:self.taken]

    @property
    def records(self):
        """The records that are answered."""
        return records_of(self.joined)[:len(self.answers)]

    @property
    def left(self):
        """What the line holds of an unfinished record after the call."""
        return self.joined[RECORD_BYTES * len(self.answers):]

    @property
    def stayed(self):
        """How many bytes of the output stayed as they were."""
        return self.call.room - ANSWER_BYTES * len(self.answers)


def made_calls(data, text):
    """The calls of a list with what each gave. The bytes that a call took have to make up the records that it answered."""
    readings, lines = CUTS.read_for(data, text), text.splitlines()
    made, at, line, held = [], 0, 0, b""
    for call, reading in zip(calls_of(data), readings):
        one = Made(call, at, held, reading.ending, int(lines[line][2:6], 16), reading.answers)
        held = one.left
        if len(one.joined) < RECORD_BYTES * len(one.answers) or len(held) >= RECORD_BYTES:
            raise NotReadable
        made.append(one)
        at += len(call.written)
        line += call.lines
    return made


def called(data, text):
    """The calls that were made of a list, with what each gave, by what was printed for the list; none where it is none."""
    wrong = CannotRun(f"the program '{CUTS.name}' printed what it does not print of these calls")
    if why_none(data):
        if text != (f"{NO_CALL}\n" if data else ""):
            raise wrong
        return []
    try:
        return made_calls(data, text)
    except NotReadable as problem:
        raise wrong from problem
