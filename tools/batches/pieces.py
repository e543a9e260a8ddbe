"""In which pieces a batch comes off the line. That follows from the batch's seed and number and from who reads it, and from nothing else,
so that it can be made again."""

import random
from typing import NamedTuple

from records import RECORD_BYTES

MOST_FIRST = 6  # records, with which a batch begins, that may come one by one
MOST_STRETCHES = 12
STRETCHES = (1, 1, 1, 2, 5, 9)  # cuts one after the other, a byte apart
MOST_PAUSES = 6


class Plan(NamedTuple):
    """How a batch is handed over."""

    pieces: list  # one after the other they are the batch, and none of them is empty
    pauses: frozenset  # the numbers of the pieces, from 0, before which there is a pause


def cut_places(rng, length):
    """Where so many bytes are cut: behind some of the first records, at other places, and from some of these byte by byte for a while."""
    places = set(range(0, RECORD_BYTES * rng.randint(0, MOST_FIRST) + 1, RECORD_BYTES))
    for _ in range(rng.randint(0, MOST_STRETCHES)):
        place = rng.randint(0, length)
        places.update(range(place, place + rng.choice(STRETCHES)))
    return sorted(place for place in places if 0 < place < length)


def plan_for(batch, reader):
    """How a batch is handed over to a reader."""
    rng = random.Random(f"{batch.seed} {batch.number} to {reader}")
    places = [0, *cut_places(rng, len(batch.input)), len(batch.input)]
    pieces = [batch.input[start:end] for start, end in zip(places, places[1:]) if start < end]
    pauses = rng.sample(range(len(pieces)), rng.randint(0, min(MOST_PAUSES, len(pieces))))
    return Plan(pieces, frozenset(pauses))
