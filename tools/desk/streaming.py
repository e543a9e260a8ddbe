"""Answers as their records come: each line that the program prints goes with the record that has just become whole."""
import re

from commands import CannotRun
from records import RECORD_BYTES, records_of
from . import refusals
from .settings import number_of
from .terminal import tell
from .writing import text_of

ANSWER = re.compile(r"[0-9a-f]{16}(?: odd)?\n")


class Plain:
    """The lines as the program prints them, with a word on standard error where the end may surprise. `Explained` has the same calls."""

    def __init__(self):
        self.lines = []
        self.answered = 0

    def record(self, _one, line):
        """A record, and its line of the listing."""
        self.lines.append(line)
        self.answered += 1

    def end(self, number, rest):
        """The last line: how it ended, by its number and what follows the last whole record."""
        self.lines.append(f"end {number}")
        surprise = refusals.surprise_at_end(number, rest, self.answered)
        if surprise:
            tell(surprise)

    def text(self):
        """The lines since the last time, as a text."""
        text, self.lines = text_of(self.lines), []
        return text


def not_printed(program):
    """What is told of a program that prints what it never should."""
    return CannotRun(f"the program '{program.program}' printed what it does not print of these bytes")


def answer_line(program):
    """The next line of the program, which has to be an answer."""
    line = program.line()
    if not ANSWER.fullmatch(line):
        raise not_printed(program)
    return line.rstrip("\n")


def ending_of(program, rest):
    """Ends the input of the program. Gives the number by which it ends, which goes by the bytes that are left over."""
    number = 3 if rest else 0
    if program.end() != f"end {number}\n":
        raise not_printed(program)
    return number


def stopped(answered, rest):
    """What is told where somebody stops it."""
    told = f"stopped; {number_of(answered, 'record is', 'records are')} answered"
    return f"{told}, and {number_of(len(rest), 'byte', 'bytes')} of another one had come: {rest.hex(' ')}" if rest else told


def answered(program, pieces, shown):
    """What is shown of bytes that come piece by piece: a text for each record as soon as it is whole, and one for the end. No more is read
    before all whole records are answered, and then at most three bytes are kept."""
    rest = b""
    try:
        for piece in pieces:
            program.give(piece)
            data = rest + piece
            whole = len(data) // RECORD_BYTES * RECORD_BYTES
            rest = data[whole:]
            for one in records_of(data[:whole]):
                shown.record(one, answer_line(program))
                yield shown.text()
        shown.end(ending_of(program, rest), rest)
        yield shown.text()
    except KeyboardInterrupt:
        raise KeyboardInterrupt(stopped(shown.answered, rest)) from None
