"""Batches for the serial line, which come off it in pieces: those of a listing, and some that are too long for one. A batch is made
from the random numbers that it is given and from nothing else."""

from records import MOST_BATCH_BYTES
from . import mixed

MOST_OFF_THE_LINE = 20_000  # bytes; the line itself goes on for as long as it likes


def records_off_the_line(rng):
    """A good batch."""
    return mixed.some_good_batch(rng)


def damage_off_the_line(rng):
    """A batch with some bytes flipped, inserted or removed, or bytes without any plan."""
    return rng.choice((mixed.damaged, mixed.nearly_well_formed, mixed.random_bytes))(rng)


def broken_end_off_the_line(rng):
    """A good batch with 1 to 3 bytes after its last whole record: ending 3."""
    return mixed.cut_short(rng)


def nothing_off_the_line(_rng):
    """No byte before the line is closed."""
    return b""


def thousands_off_the_line(rng):
    """More bytes than a listing takes, by one or by thousands."""
    most = rng.choice((MOST_BATCH_BYTES + 4, MOST_OFF_THE_LINE))
    return mixed.of_length(rng, rng.randint(MOST_BATCH_BYTES + 1, most))
