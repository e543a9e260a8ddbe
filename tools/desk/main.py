"""The command line of the desk program, and how it ends: 0 well, 1 a program cannot be built or run, 2 the input is wrong."""
import argparse
import contextlib
import os
import sys

from commands import CannotRun
from .commands import COMMANDS
from .lines import BadInput
from .terminal import WHO, tell

GOOD, CANNOT, WRONG, STOPPED = 0, 1, 2, 130
ABOUT = """\
Replays a customer's register writes on paper models of two chips, the 6545-1
display controller and the MC6883 address multiplexer, and says what they would
have answered. What the chips do is computed by proved programs; the words
around it are tested, not proved.
"""
MORE = """\
First steps:
  ./vorstelpijp explain examples/march.batch     the March case, line by line
  ./vorstelpijp explain --help                   how a batch is written in words
  ./vorstelpijp counts examples/boards.settings  boards compared by numbers
  ./vorstelpijp cuts examples/halves.calls       a record that comes in halves
  ./vorstelpijp serial --help                    records off a serial port

A program is proved and built when it is first needed, which takes some minutes
and shows how far it is.

Exit status: 0 well; 1 a program cannot be built or run; 2 the input or the
command line is wrong, and nothing was run.
"""


def command_line():
    """The parser, with a part for each command."""
    form = argparse.RawDescriptionHelpFormatter
    parser = argparse.ArgumentParser(prog=f"./{WHO}", description=ABOUT, epilog=MORE, formatter_class=form)
    parts = parser.add_subparsers(metavar="COMMAND", dest="command", title="commands")
    for command in COMMANDS:
        part = parts.add_parser(command.name, help=command.summary, description=command.about, epilog=command.more, formatter_class=form)
        command.add_arguments(part)
        part.set_defaults(run=command.run)
    return parser


class NotWritten(Exception):
    """Standard output took no more; says why, and nothing where whoever read it has seen enough."""


def put_out(text):
    """Writes all of a text or of bytes to standard output, past Python's own buffer, so that nothing is left to fail at the end."""
    rest = text if isinstance(text, bytes) else text.encode()
    try:
        while rest:
            rest = rest[os.write(1, rest):]
    except BrokenPipeError as problem:
        raise NotWritten from problem
    except OSError as problem:
        raise NotWritten(f"standard output cannot be written: {problem.strerror}") from problem


def parts_of(given):
    """What a command gives for standard output, part by part; most give all of it at once."""
    if isinstance(given, (str, bytes)):
        yield given
    else:
        yield from given


def put_out_all(parts):
    """Writes what a command gives as it comes. Where somebody stops that, the command may say more than that it is stopped."""
    try:
        for part in parts:
            put_out(part)
    except KeyboardInterrupt as stop:
        parts.throw(stop)


def run(asked):
    """Runs a command. Gives the exit status."""
    try:
        with contextlib.closing(parts_of(asked.run(asked))) as parts:
            put_out_all(parts)
    except BadInput as problem:
        for message in problem.messages:
            tell(message)
        return WRONG
    except (CannotRun, NotWritten, OSError) as problem:
        if str(problem):
            tell(problem)
        return CANNOT
    return GOOD


def main(words):
    """The whole program."""
    sys.stderr = sys.stderr or open(os.devnull, "w", encoding="utf-8")
    parser = command_line()
    asked = parser.parse_args(words)
    if asked.command is None:
        parser.print_help(sys.stderr)
        return WRONG
    try:
        return run(asked)
    except KeyboardInterrupt as stop:
        tell(str(stop) or "stopped; what is proved so far stays proved")
        return STOPPED
