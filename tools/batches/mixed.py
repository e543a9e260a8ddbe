"""Batches of records for both chips: allowed ones, damaged ones, and batches of a length. A batch is made from the random numbers
that it is given and from nothing else."""

from records import GREATEST_FIELDS, MOST_BATCH_BYTES, RECORD_BYTES, counted, joined, record
from . import controller, line_ends, multiplexer


def any_bytes(rng, length):
    """That many bytes, each as likely as any other."""
    return bytes(rng.randrange(256) for _ in range(length))


def random_bytes(rng):
    """Bytes without any plan, the first of each record often a small number."""
    batch = bytearray(any_bytes(rng, 4 * rng.randint(1, 120)))
    for place in range(0, len(batch), RECORD_BYTES):
        if rng.randrange(4):
            batch[place] = rng.randrange(12)
    return bytes(batch)


def any_record(rng):
    """A record of any kind with fields that are allowed, any of them."""
    kind = rng.randint(1, 9)
    if kind == 1:
        return record(1, 0, rng.randrange(2), rng.choice((rng.randrange(20), rng.randrange(256))))
    if kind in (2, 5):
        return record(kind, 0, rng.randrange(2), 0)
    if kind in (3, 7):
        return counted(kind, rng.randrange(65536) if rng.randrange(20) == 0 else rng.randrange(600))
    if kind == 6:
        return counted(6, multiplexer.some_address(rng), rng.randrange(2))
    if kind == 8:
        return record(8, 0, rng.randrange(2), rng.randrange(2))
    return record(kind)


def well_formed(rng):
    """Records of all kinds with any allowed fields."""
    return joined(any_record(rng) for _ in range(rng.randint(20, 300)))


def just_past(rng, one):
    """A record with one field that is one more than its kind allows."""
    limits = [(place, most) for place, most in enumerate(GREATEST_FIELDS[one[0]], start=1) if most < 255]
    place, most = rng.choice(limits)
    return one[:place] + bytes((most + 1,)) + one[place + 1:]


def one_byte_changed(rng, one):
    """A record with any one byte changed, often to a small number."""
    place = rng.randrange(RECORD_BYTES)
    value = rng.choice((0, 1, 2, 3, 10, 128, rng.randrange(256)))
    return one[:place] + bytes((value,)) + one[place + 1:]


def nearly_well_formed(rng):
    """Allowed records, but some have one byte changed, often to just past what is allowed."""
    parts = []
    for _ in range(rng.randint(50, 300)):
        one, draw = any_record(rng), rng.randrange(6)
        if draw == 0:
            one = one_byte_changed(rng, one)
        elif draw == 1:
            one = just_past(rng, one)
        parts.append(one)
    return joined(parts)


def both_chips(rng):
    """A picture and multiplexer work, record by record in turn: neither may disturb the other."""
    one, other = controller.pictures(rng), multiplexer.multiplexer_work(rng)
    turns = range(0, min(len(one), len(other)), RECORD_BYTES)
    return joined(one[at:at + RECORD_BYTES] + other[at:at + RECORD_BYTES] for at in turns)


GOOD_SORTS = (
    well_formed,
    both_chips,
    controller.pictures,
    controller.no_cell_fits,
    controller.outside_the_picture,
    controller.register_reads,
    line_ends.full_pictures,
    multiplexer.multiplexer_work,
)


def some_good_batch(rng):
    """A batch of one of the sorts that hold allowed records only."""
    return rng.choice(GOOD_SORTS)(rng)


def damaged(rng):
    """A good batch with some bytes flipped, inserted or removed."""
    batch = bytearray(some_good_batch(rng)[:MOST_BATCH_BYTES - 64])
    for _ in range(rng.randint(1, 12)):
        place = rng.randrange(len(batch))
        harm = rng.randrange(4)
        if harm == 0:
            batch.insert(place, rng.randrange(256))
        elif harm == 1:
            del batch[place]
        else:
            batch[place] ^= 1 << rng.randrange(8)
    return bytes(batch)


def cut_short(rng):
    """A good batch with 1 to 3 bytes after its last whole record: ending 3."""
    batch = some_good_batch(rng)
    whole = RECORD_BYTES * rng.randrange(len(batch) // RECORD_BYTES)
    return batch[:whole + rng.randint(1, 3)]


def empty(_rng):
    """No byte at all."""
    return b""


def of_length(rng, length):
    """Good batches one after the other, cut at a length."""
    batch = b""
    while len(batch) < length:
        batch += some_good_batch(rng)
    return batch[:length]


def full(rng):
    """Exactly as many bytes as the listing takes."""
    return of_length(rng, MOST_BATCH_BYTES)


def over_long(rng):
    """One byte more than the listing takes, or several: too long."""
    over = rng.choice((1, 1, 2, 3, 4, rng.randint(5, 5000)))
    return of_length(rng, MOST_BATCH_BYTES + over)
