"""A replay into an output of a chosen length."""
import argparse

from compared.rooms import ROOMS, in_room
from records import ANSWER_BYTES, MOST_BATCH_BYTES, RECORD_BYTES
from .command import add_batch, batch_command, batch_of, replayed

MOST_ROOM = MOST_BATCH_BYTES // RECORD_BYTES * ANSWER_BYTES
ABOUT = f"""\
Replays the batch into an output of BYTES bytes, 0 to {MOST_ROOM:,}, and prints what
the proved program 'rooms' prints, byte for byte. The first line is the ending
number (one byte), the bytes taken and the answers written (two bytes each), and
three zeros. The others are the output, eight bytes a line: every byte was $A5
before, so what the replay left alone shows. The ending is 4 where the output
had no room for another answer of {ANSWER_BYTES} bytes.
"""


def room(word):
    """The length of the output."""
    if not (word.isascii() and word.isdecimal()) or len(word) > 5 or int(word) > MOST_ROOM:
        raise argparse.ArgumentTypeError(f"'{word}' is not a number of bytes from 0 to {MOST_ROOM}")
    return int(word)


def add_arguments(parser):
    """The room, and the batch."""
    parser.add_argument("room", metavar="BYTES", type=room, help="the length of the output")
    add_batch(parser)


def run(asked):
    """What the replay leaves in the output."""
    batch = batch_of(asked)
    return replayed(ROOMS, batch, in_room(asked.room, batch.data))


COMMAND = batch_command("rooms", "replay a batch into an output of a chosen length", ABOUT, run, add_arguments)
