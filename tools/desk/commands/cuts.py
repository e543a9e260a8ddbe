"""Calls on a serial line, tried one after the other."""
from compared import CUTS
from compared.calls import HEAD_BYTES, MOST_CALLS_BYTES
from compared.rooms import MOST_ROOM
from records import ANSWER_BYTES
from ..calling import worded
from ..calls import SHAPES, why_none
from ..cutting import called
from ..files import read_calls
from ..proved import printed
from ..terminal import Paper, tell
from .command import ANY_OTHER_FILE, Command, add_file, in_columns

ABOUT = f"""\
Tries the calls that take bytes off a serial line. A cut hands over the bytes
that have come and lends an output for the answers, of {ANSWER_BYTES} bytes each; closing
ends the line. All calls are made in their order on one line with fresh chips.
Prints for each how it ended, how many bytes of its cut were taken, the answers
with their records, and how much of the output stayed as it was.
"""
ENDINGS = (
    ("0", "no whole record is left; up to three bytes are held for the next call"),
    ("3", "closed with one to three bytes held, which nothing reads again"),
    ("4", "the next answer has no room: no byte that this cut has of its record"),
    ("", "is taken; call again with the rest"),
    ("12", "the line was closed before, and nothing changes"),
)
MORE = f"""\
FILE has calls: in words (.calls), or what the program reads, as commented hex
(.hex) or as bytes (.bin).
{ANY_OTHER_FILE}
In words there is one call a line, and '#' begins a comment. The room is a
number of bytes from 0 to {MOST_ROOM:,}, decimal, or hex with '$'. The bytes of a cut
are hex digits, with spaces between the bytes or without.

{in_columns(SHAPES)}

A call ends with

{in_columns(ENDINGS, 3)}

At most {MOST_CALLS_BYTES:,} bytes of calls are taken: {HEAD_BYTES} and its own bytes for each cut, and
one for closing. Of more, and of bytes that are no calls, the program says
'no call' and makes none. Every byte of an output is $A5 before its call.

Exit status: 0 well, and for 'no call', which is an answer; 1 the program cannot
be built or run; 2 the input or the command line is wrong, and nothing was run.
"""


def add_arguments(parser):
    """The calls, and how what they gave is to be shown."""
    add_file(parser, "the calls")
    parser.add_argument("--plain", action="store_true", help="print the lines as the proved program prints them")


def run(asked):
    """What each call gave in words, or the program's own lines, with a word on standard error where no call was made."""
    batch = read_calls(asked.file, asked.form)
    text = printed(CUTS.name, batch.data)
    calls = called(batch.data, text)
    if not asked.plain:
        return worded(batch, calls, Paper.of_output())
    if not calls:
        tell(why_none(batch.data))
    return text


COMMAND = Command(CUTS.name, "try cuts and a closing on a serial line", ABOUT, MORE, add_arguments, run)
