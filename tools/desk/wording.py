"""Records to words. Statements are what `reading` reads; labels say more, for people: the register that is meant, and what it is."""
from typing import NamedTuple

import records
from records import CONTROL, CONTROL_BITS, RECORD_BYTES, is_allowed, records_of
from .refusals import why_not_allowed
from .settings import LAST_WRITTEN, meaning
from .vocabulary import REGISTER_NUMBERS, control_bit, in_hex, register, register_value

CHIPS = ("controller", "multiplexer")


class Statement(NamedTuple):
    """Some bytes of a batch in words."""

    at: int
    data: bytes
    words: str


class Spoken(NamedTuple):
    """A record, and what is said of it."""

    data: bytes
    label: str
    certain: bool  # whether the controller was reset before it, and no register written since


def control_name(address):
    """The control bit that a write to an address sets or clears, or None."""
    place = (address - CONTROL) // 2
    return CONTROL_BITS[place] if 0 <= place < len(CONTROL_BITS) else None


def bus_words(address, is_read):
    """A bus cycle."""
    name = control_name(address)
    if is_read or name is None:
        return f"bus {'read' if is_read else 'write'} {in_hex(address)}"
    return f"{'set' if address % 2 else 'clear'} {name}"


def words_of(one):
    """One record as a statement."""
    if not is_allowed(one):
        return f"bytes {one.hex(' ')}"
    kind, high, low, value = one
    count = 256 * high + low
    if kind == 1:
        named = f"R{value}" if value < REGISTER_NUMBERS else in_hex(value, 2)
        return f"write {in_hex(value, 2)}" if low else f"select {named}"
    return {
        2: "read" if low else "status",
        3: f"clock {count}",
        4: "strike",
        5: f"reset {CHIPS[low % 2]}",
        6: bus_words(count, value),
        7: f"fetch {count}",
        8: f"levels HS {low} DA0 {value}",
        9: "locate",
    }[kind]


def pair_words(first, second):
    """Two records as one statement: a register that is named and then written or read. None where they are no such pair."""
    named = first[3] if len(first) == RECORD_BYTES else REGISTER_NUMBERS
    if named >= REGISTER_NUMBERS or first != records.select(named):
        return None
    if second == records.read():
        return f"read R{named}"
    if len(second) == RECORD_BYTES and second == records.write(second[3]):
        return f"R{named} = {register_value(named, second[3])}"
    return None


def statements_of(data, apart=()):
    """A batch as statements. With the records that are numbered in apart a new one begins: something stands before them."""
    ones, made, at = records_of(data), [], 0
    while at < len(ones):
        has_second = at + 1 < len(ones) and at + 1 not in apart
        words = pair_words(ones[at], ones[at + 1]) if has_second else None
        count = 2 if words else 1
        made.append(Statement(RECORD_BYTES * at, b"".join(ones[at:at + count]), words or words_of(ones[at])))
        at += count
    return made


def label_of(one, named):
    """What a record does, for people, where a register is named."""
    if not is_allowed(one):
        return f"bytes {one.hex(' ')}, {why_not_allowed(one)}"
    kind, high, low, value = one
    meant = f"R{named}"
    if kind == 1 and low:
        return f"{meant} = {register_value(named, value)} ({meaning(named, value)})"
    if kind == 1:
        number = value % REGISTER_NUMBERS
        return f"{words_of(one)} ({'' if value == number else f'R{number}, '}{register(number)})"
    if kind == 2 and low:
        return f"read {meant} ({register(named)})"
    words = words_of(one)
    name = control_name(256 * high + low) if kind == 6 and not value else None
    return f"{words} ({control_bit(name)})" if name else words


class Speaker:
    """Says what records do, one after the other. The register that is meant is the one that was named last, and R0 at first."""

    def __init__(self):
        self.named = 0
        self.certain = False

    def spoken(self, one):
        """The next record, and what is said of it."""
        said = Spoken(one, label_of(one, self.named), self.certain)
        if one == records.reset_controller():
            self.certain = True
        elif one[:3] == records.select(0)[:3]:
            self.named = one[-1] % REGISTER_NUMBERS
        elif one[:3] == records.write(0)[:3] and self.named <= LAST_WRITTEN:
            self.certain = False
        return said


def labels_of(data):
    """A label for each record of a batch."""
    speaker = Speaker()
    return [speaker.spoken(one).label for one in records_of(data)]
