"""Bytes as they come: off a serial port, out of a pipe or a file, or from standard input. They are read and never written."""
import contextlib
import os
import stat
import termios

from commands import CannotRun
from .files import STANDARD_INPUT, see_a_file, see_another_output
from .lines import BadInput
from .terminal import WHO, tell

PIECE_BYTES = 4096  # at most that many at once, and as few as there are
NO_BYTES = (".batch", ".hex", ".calls", ".settings")  # how the names of files end that hold words or hex
NOT_RAW = termios.ICANON | termios.ECHO
SET_UP = "stty -F {} 9600 raw -echo"


def see_a_stream(name):
    """Sees that there is something of this name which may be read, without opening it: a port would notice."""
    if name == STANDARD_INPUT:
        return
    see_a_file(name)
    if name.lower().endswith(NO_BYTES):
        raise BadInput(f"{name}: bytes are read here, and by its name this file is in words or hex; expected a port, a pipe or a file of "
                       f"bytes, and for a batch './{WHO} bytes FILE | ./{WHO} serial -'")
    if not os.access(name, os.R_OK):
        raise BadInput(f"{name}: you may not read it; serial ports often belong to a group of their own, such as 'dialout'")


def see_the_port(name, number):
    """Tells how a port is set up, where the open file is one."""
    if not os.isatty(number):
        return
    if termios.tcgetattr(number)[3] & NOT_RAW:
        port = "PORT" if number == 0 else name
        tell(f"{name}: this port is not set up raw and without echo, so that bytes are changed, kept back or sent back; "
             f"'{SET_UP.format(port)}' sets it up, with the speed that your bench has")
    tell(f"reading {name} as the bytes come; Ctrl-C ends it")


def pieces_of(name, file):
    """The bytes of an open file as they come, a piece at a time."""
    while True:
        try:
            piece = os.read(file.fileno(), PIECE_BYTES)
        except OSError as problem:
            raise CannotRun(f"{name}: cannot be read any further: {problem.strerror}") from problem
        if not piece:
            return
        yield piece


def opening(path, flags):
    """Opens a file; a port never becomes the terminal that this program is stopped by."""
    return os.open(path, flags | os.O_NOCTTY)


@contextlib.contextmanager
def stream(name):
    """Opens a file, or takes standard input. Gives its bytes as they come."""
    place = name
    if name == STANDARD_INPUT:
        name, place = "standard input", 0
    try:
        file = open(place, "rb", buffering=0, closefd=place != 0, opener=opening)
    except (OSError, ValueError) as problem:
        raise BadInput(f"{name}: cannot be opened: {getattr(problem, 'strerror', None) or problem}") from problem
    with file:
        if stat.S_ISREG(os.fstat(file.fileno()).st_mode):
            see_another_output(name, file)
        see_the_port(name, file.fileno())
        yield pieces_of(name, file)
