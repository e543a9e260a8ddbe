"""Rooms for answers, each with a batch to replay into it. A batch is made from the random numbers that it is given and from nothing
else."""

from compared.rooms import MOST_ROOM, in_room
from records import ANSWER_BYTES, RECORD_BYTES
from .mixed import any_bytes, cut_short, damaged, empty, full, over_long, some_good_batch


def needed_room(batch):
    """The output bytes that the answers to a whole batch take."""
    return ANSWER_BYTES * (len(batch) // RECORD_BYTES)


def some_room(rng, need):
    """A number of output bytes: too few more often than not, else just enough or more."""
    short = rng.choice((0, 7, 8, max(need - 1, 0), max(need - 8, 0), rng.randrange(need + 1)))
    enough = rng.choice((need, need + 1, need + rng.randrange(300), MOST_ROOM, MOST_ROOM + 1, 65535))
    return short if rng.randrange(10) < 7 else enough


def rooms(rng):
    """A room for the answers and a batch to replay into it: the ways to run out of room (ending 4)."""
    draw = rng.randrange(12)
    if draw < 2:
        batch = cut_short(rng)  # bytes left over and no room left: 3 comes before 4
        return in_room(needed_room(batch) + rng.randrange(ANSWER_BYTES), batch)
    if draw == 2:
        batch = rng.choice((full, empty))(rng)
    else:
        batch = rng.choice((some_good_batch, some_good_batch, damaged))(rng)
    return in_room(some_room(rng, needed_room(batch)), batch)


def full_rooms(rng):
    """The longest batch, with room for all its answers."""
    return in_room(rng.choice((MOST_ROOM, MOST_ROOM, MOST_ROOM + 1, 65535)), full(rng))


def over_long_rooms(rng):
    """A room, and a batch that is too long for any."""
    return in_room(rng.choice((0, MOST_ROOM, rng.randrange(65536))), over_long(rng))


def nameless_rooms(rng):
    """Not even the two bytes that say how much room there is."""
    return any_bytes(rng, rng.randrange(2))
