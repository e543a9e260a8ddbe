"""Cuts: what each call of a list gives on one serial line, with every byte of the outputs."""
import re
from typing import NamedTuple

from records import ANSWER_BYTES
from .calls import CLOSING, HEAD_BYTES, calls_of, in_call
from .contents import GOOD_BATCH, GOOD_CALLS, contents, repeated
from .program import NotReadable, Program, set_in

NO_CALL = "no call"  # all that is printed for an input that is no list of calls
LAYOUT = re.compile(r"(?:(?:[0-9a-f]{2}){1,8}\n)*")
UNTOUCHED = b"\xa5"
LITTLE_ROOM, MUCH_ROOM = 20, 65535


class CallReading(NamedTuple):
    """What an output says of one call."""

    ending: object  # a number, or the words that stand alone
    answers: list  # eight bytes each


class Cuts(Program):
    """Reads a list of calls. The lines that it prints belong to a call each, so that they are read beside the list."""

    name = "cuts"
    second_part = ("--cuts",)
    edge_lengths = (*range(0, 13), *range(4090, 4099))
    good_input = GOOD_CALLS

    def edge_inputs(self, length):
        """Lists of calls, some that break off or go on, and bytes that are none."""
        yield from contents(length, "good calls", GOOD_CALLS)
        if length:
            yield "closings", CLOSING * length
        if length >= HEAD_BYTES:
            yield from with_one_cut(length)

    def told_of_input(self, given):
        """The calls in hex; the bytes as they are where they are no calls."""
        calls = calls_of(given)
        if calls is None:
            return ["no list of calls, in hex:", *set_in([given.hex()])]
        return ["calls in hex:", *set_in(call.written.hex() for call in calls)]

    def read_for(self, given, text):
        """What each call gave, in their order; the words that stand alone are in the place of a call that is none."""
        calls = calls_of(given)
        if calls is None and text == f"{NO_CALL}\n":
            return [CallReading(NO_CALL, [])]
        if calls is None or not LAYOUT.fullmatch(text):
            raise NotReadable
        lines = [bytes.fromhex(line) for line in text.splitlines()]
        if len(lines) != sum(call.lines for call in calls):
            raise NotReadable
        rest = iter(lines)
        return [read_call(call, [next(rest) for _ in range(call.lines)]) for call in calls]

    def count(self, given, text, tally):
        """By the endings of the calls and the answers."""
        tally.add_calls(self.read_for(given, text))

    def place_of_line(self, given, line_number):
        """The first line of a call has its counts, each other a part of its output."""
        calls = calls_of(given)
        if calls is None:
            return "the words for what is no list of calls"
        for number, call in enumerate(calls, 1):
            if line_number < call.lines:
                part = f"line {line_number} of the output" if line_number else "the ending, the bytes taken and the answers written"
                return f"call {number}, {call.written[:HEAD_BYTES].hex()}: {part}"
            line_number -= call.lines
        return "what follows the last call"


def read_call(call, lines):
    """What the lines of a call say. Raises NotReadable where the call cannot have given that."""
    counts, *parts = lines
    output = b"".join(parts)
    if len(counts) != ANSWER_BYTES or len(output) != call.room or any(len(part) != ANSWER_BYTES for part in parts[:-1]):
        raise NotReadable
    ending, taken, written = counts[0], int.from_bytes(counts[1:3], "big"), int.from_bytes(counts[3:5], "big")
    untouched = output[ANSWER_BYTES * written:]
    if any(counts[5:]) or not can_give(call, ending, taken, written) or untouched.strip(UNTOUCHED):
        raise NotReadable
    return CallReading(ending, parts[:written])


def can_give(call, ending, taken, written):
    """Whether a call can give these counts: all of the cut is taken where it is done, not all where there is no room, else nothing."""
    if ending not in call.endings or ANSWER_BYTES * written > call.room:
        return False
    if ending == 0:
        return taken == len(call.cut)
    return taken < len(call.cut) if ending == 4 else (taken, written) == (0, 0)


def with_one_cut(length):
    """Inputs of one length with a cut as long as fits: a list of calls, and a byte too few, too many and another one."""
    cut = repeated(GOOD_BATCH, length - HEAD_BYTES)
    yield "a cut with little room", in_call(LITTLE_ROOM, cut)
    yield "a cut with much room", in_call(MUCH_ROOM, cut)
    yield "a cut that lacks a byte", in_call(LITTLE_ROOM, cut + b"\0")[:-1]
    yield "a call that there is not", b"\3" + in_call(LITTLE_ROOM, cut)[1:]
    if cut:
        yield "a cut and a closing", in_call(LITTLE_ROOM, cut[:-1]) + CLOSING
        yield "a closing and a cut", CLOSING + in_call(LITTLE_ROOM, cut[:-1])
        yield "a cut and a byte too many", in_call(LITTLE_ROOM, cut[:-1]) + b"\1"


CUTS = Cuts()
