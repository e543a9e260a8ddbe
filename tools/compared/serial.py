"""Serial: the lines of a listing off the serial line, each as soon as its record is whole, however long the line goes on."""
import re

from .listing import Listing


class Serial(Listing):
    """Reads bytes as they come and as many as come: there is no batch too long for it, and room for every answer."""

    name = "serial"
    second_part = ("--serial",)
    reads_as_it_comes = True
    lone_words = ()
    layout = re.compile(r"(?:[0-9a-f]{16}(?: odd)?\n)*end [03]\n")
    # It reads up to 256 bytes at a time.
    edge_lengths = (*range(0, 13), *range(252, 265), *range(508, 517), *range(4084, 4101))


SERIAL = Serial()
