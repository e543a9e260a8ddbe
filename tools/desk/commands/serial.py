"""Records off a serial line, each answered as soon as it has come."""
from compared import SERIAL
from ..explaining import Explained
from ..proved import fed, words_for
from ..streaming import Plain, answered
from ..streams import SET_UP, see_a_stream, stream
from ..terminal import WHO, Paper
from .command import Command

NAME = SERIAL.name
PORT = "/dev/ttyUSB0"
ABOUT = """\
Reads bytes as they come, from a serial port, a pipe or a file, and prints the
answer to each record as soon as its four bytes are there, as 'listing' prints
it. The chips start fresh. Where the bytes end, the last line is 'end' and 0, or
3 where one to three bytes of a record are left over.
"""
MORE = f"""\
FILE is a port such as {PORT}, a pipe, or a file of bytes; '-' is standard
input. There is no limit of 4,096 bytes: it may go on for days. A port has no
end of its own; Ctrl-C ends it, without the line 'end'.

A serial port has to be set up first, with the speed that your bench has, raw
and without echo:

  {SET_UP.format(PORT)}

Otherwise bytes are changed, kept back or sent back: 04, which begins a strike,
is the end of the input to a port that is not raw. Nothing is written to the
port. A port that you may not read often belongs to a group, such as 'dialout'.

With --explain a line has the record's four bytes before the answer and both in
words behind it, as 'explain' has them. Where nearly all is refused from some
place on, a byte was lost: end it, start it again, and send the setting again.

A batch in words or hex goes through it as bytes:

  ./{WHO} bytes examples/march.batch | ./{WHO} {NAME} --explain -

Exit status: 0 well, and where bytes are left over, which is an answer; 1 the
program cannot be built or run, or FILE cannot be read any further; 2 FILE
cannot be opened or the command line is wrong, and nothing was run; 130 Ctrl-C.
"""


def add_arguments(parser):
    """Where the bytes come from, and how the answers are to be shown."""
    parser.add_argument("file", metavar="FILE", help="the port, the pipe or the file of bytes; '-' is standard input")
    parser.add_argument("--explain", action="store_true", help="print the records too, and both in words")


def run(asked):
    """The lines, one by one. The port is opened when the program is there to read it."""
    see_a_stream(asked.file)
    words = words_for(NAME)
    with stream(asked.file) as pieces, fed(NAME, words) as program:
        yield from answered(program, pieces, Explained(Paper.of_output()) if asked.explain else Plain())


COMMAND = Command(NAME, "answer records off a serial line as they come", ABOUT, MORE, add_arguments, run)
