"""What a command is, and what those that take a file or a batch have in common."""
from typing import Callable, NamedTuple

from commands import CannotRun
from compared import NotReadable
from .. import refusals
from ..files import BYTES, HEX, WORDS, read_batch
from ..proved import printed
from ..reading import FORMS
from ..terminal import tell

ANY_OTHER_FILE = """\
--as says what any other file is, and what comes on standard input, for which
FILE is '-'. It is read and never written.
"""
HOW_A_BATCH_IS_READ = f"""\
FILE is a batch: in words (.batch), as commented hex (.hex) or as bytes (.bin).
{ANY_OTHER_FILE}"""
HOW_WORDS_ARE_WRITTEN = """\
A batch in words has one record or a few a line, with ';' between them. '#'
begins a comment. Numbers are decimal, or hex with '$'.

{}
"""


class Command(NamedTuple):
    """One command: its name, a line on it, what its help says before and behind the arguments, these, and what it prints."""

    name: str
    summary: str
    about: str
    more: str
    add_arguments: Callable  # is given the parser
    run: Callable  # is given the arguments, and gives the text or the bytes for standard output, or gives them part by part


def in_columns(pairs, width=19):
    """Words, each with what it means behind it, for a help text."""
    return "\n".join(f"  {words:<{width}} {meaning}" for words, meaning in pairs)


def vocabulary():
    """The forms of words, for a help text."""
    return HOW_WORDS_ARE_WRITTEN.format(in_columns((form.shape, form.meaning) for form in FORMS))


def add_file(parser, what):
    """The arguments that name a file; what is said to be in it."""
    parser.add_argument("file", metavar="FILE", help=f"{what}; '-' is standard input")
    parser.add_argument("--as", dest="form", choices=(WORDS, HEX, BYTES), help="what FILE holds, whatever its name ends in")


def add_batch(parser):
    """The arguments that name a batch."""
    add_file(parser, "the batch")


def batch_of(asked):
    """The batch that the arguments name."""
    return read_batch(asked.file, asked.form)


def batch_command(name, summary, about, run, add_arguments=add_batch):
    """A command that takes a batch."""
    return Command(name, summary, about, f"{HOW_A_BATCH_IS_READ}\n{vocabulary()}", add_arguments, run)


def replayed(program, batch, given):
    """What a proved program prints for a batch, with a word on standard error where that may surprise."""
    text = printed(program.name, given)
    try:
        surprise = refusals.surprise(batch.data, program.read(text).ending)
    except NotReadable as problem:
        raise CannotRun(f"the program '{program.name}' printed what it does not print of any batch") from problem
    if surprise:
        tell(surprise)
    return text
