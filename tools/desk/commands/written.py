"""A batch written in another form: as words, as commented hex, as bytes."""
import os

from ..lines import BadInput
from ..writing import as_hex, as_words
from .command import batch_command, batch_of

ABOUT_WORDS = """\
Prints the batch in words, with the comments of its file. Reading the words
gives the same bytes again: a record that is damaged, and one to three bytes at
the end, are written as bytes.
"""
ABOUT_HEX = """\
Prints the batch as hex, a record a line with what it is behind it, and with the
comments of its file.
"""
ABOUT_BYTES = """\
Writes the bytes of the batch, four to a record, to standard output. Meant for a
file: './vorstelpijp bytes FILE > NEW.bin'.
"""


def as_bytes(asked):
    """The bytes; a terminal would take them for something else."""
    if os.isatty(1):
        raise BadInput("these are bytes, and standard output is a terminal; expected a file, as 'bytes FILE > NEW.bin'")
    return batch_of(asked).data


COMMANDS = (
    batch_command("words", "print a batch in words", ABOUT_WORDS, lambda asked: as_words(batch_of(asked))),
    batch_command("hex", "print a batch as commented hex", ABOUT_HEX, lambda asked: as_hex(batch_of(asked))),
    batch_command("bytes", "write the bytes of a batch", ABOUT_BYTES, as_bytes),
)
