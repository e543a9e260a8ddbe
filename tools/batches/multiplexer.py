"""Batches for the multiplexer: control bits, bus cycles, display fetches, levels and refresh."""

from records import CONTROL_BITS, bus, control, fetches, joined, levels, reset_multiplexer

# Control bits by their place.
MODE_BITS = (0, 1, 2)
FIELD_BITS = tuple(range(3, 10))
RATE_BITS = (11, 12)
ROUTING_BITS = (10, 11, 12, 13, 14, 15)  # all that a bus cycle depends on
SIZE_BITS = (13, 14)
# Where one region of either map type ends and the next begins.
BORDERS = (
    0x0000, 0x1000, 0x2000, 0x4000, 0x8000, 0xA000, 0xC000, 0xFF00, 0xFF20, 0xFF40,
    0xFF60, 0xFF80, 0xFFA0, 0xFFC0, 0xFFE0, 0x10000,
)


def control_number(bits, number):
    """The writes that put a number into control bits, lowest bit first."""
    return b"".join(control(bit, number >> place & 1) for place, bit in enumerate(bits))


def some_address(rng):
    """An address of any region, often at its first or last place."""
    region = rng.randrange(len(BORDERS) - 1)
    first, last = BORDERS[region], BORDERS[region + 1] - 1
    return rng.choice((first, last, rng.randint(first, last)))


def all_regions(rng):
    """Cycles at the first and the last place of every region and at one of its places, each a read or a write."""
    return b"".join(
        bus(address, rng.randrange(2))
        for first, after in zip(BORDERS, BORDERS[1:])
        for address in (first, rng.randint(first, after - 1), after - 1)
    )


def some_fetches(rng):
    """A few fetches, about a line of them, or now and then very many."""
    number = rng.choice((0, 1, rng.randint(1, 16), 16, rng.randint(17, 400), 192 + rng.randint(-8, 8)))
    if rng.randrange(60) == 0:
        number = rng.randrange(65536)
    return fetches(number)


def pulse(rng):
    """HS low and high again, DA0 any, at times with fetches between."""
    parts = [levels(0, rng.randrange(2))]
    if rng.randrange(3) == 0:
        parts.append(some_fetches(rng))
    parts.append(levels(1, int(rng.randrange(4) == 0)))
    return b"".join(parts)


def bus_work(rng):
    """Control bits of every sort set and cleared, each time followed by cycles in all regions."""
    parts = []
    for _ in range(rng.randint(4, 12)):
        parts.append(control(rng.randrange(len(CONTROL_BITS)), rng.randrange(2)))
        parts.append(control_number(ROUTING_BITS, rng.randrange(64)))
        parts.append(all_regions(rng))
        parts += [bus(some_address(rng), rng.randrange(2)) for _ in range(rng.randint(0, 8))]
        if rng.randrange(6) == 0:
            parts.append(reset_multiplexer())
    return joined(parts)


def display_work(rng):
    """One mode for a while: fetches, HS pulses and preloads, in any memory size."""
    parts = []
    for _ in range(rng.randint(2, 5)):
        parts.append(control_number(MODE_BITS, rng.randrange(8)))
        parts.append(control_number(SIZE_BITS, rng.randrange(4)))
        parts.append(control_number(FIELD_BITS, rng.choice((0, 127, rng.randrange(128)))))
        parts.append(levels(0, 1) + levels(1, 1))
        for _ in range(rng.randint(8, 30)):
            parts.append(some_fetches(rng) if rng.randrange(3) else pulse(rng))
    return joined(parts)


def mode_changes(rng):
    """Modes changed while the dividers are part way, with a fetch count that makes them count."""
    parts = []
    for _ in range(rng.randint(20, 60)):
        parts.append(control_number(MODE_BITS, rng.randrange(8)))
        for _ in range(rng.randint(1, 4)):
            parts.append(fetches(rng.choice((8, 16, 32, rng.randint(1, 200)))))
        if rng.randrange(2):
            parts.append(pulse(rng))
    return joined(parts)


def rate_and_refresh(rng):
    """Rates set and cleared between HS falls and fetches, more than one turn of the refresh rows."""
    parts = []
    for _ in range(rng.randint(20, 60)):
        if rng.randrange(4) == 0:
            parts.append(control(rng.choice(RATE_BITS), rng.randrange(2)))
        parts.append(levels(0, 0) + levels(rng.randrange(2), rng.randrange(2)) + levels(1, 0))
        parts.append(some_fetches(rng))
        if rng.randrange(40) == 0:
            parts.append(reset_multiplexer())
    return joined(parts)


def multiplexer_work(rng):
    """Control writes, bus cycles of both map types, fetches and level sequences in all modes."""
    kind_of_work = rng.choice((bus_work, display_work, mode_changes, rate_and_refresh))
    return kind_of_work(rng)
