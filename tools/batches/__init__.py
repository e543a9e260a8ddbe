"""The batches of the comparison. A batch depends on the seed and its own number, and on nothing else,
so that any batch of any run can be made again."""

import random
from typing import NamedTuple

from compared import COUNTS, CUTS, LISTING, ROOMS, SERIAL
from compared.program import Program
from . import controller, corners, cuts, line_ends, mixed, multiplexer, rooms, serial, settings
from .seeds import FIXED_SEED


class Batch(NamedTuple):
    """One input, and which of the programs reads it."""

    number: int
    sort: str
    program: Program
    input: bytes
    seed: int = FIXED_SEED  # by which, and by the number, it is cut where it comes in pieces


# How many of each 150 batches are of each sort, by the program that reads them.
SHARES = {
    LISTING: {
        mixed.random_bytes: 4,
        mixed.well_formed: 7,
        mixed.nearly_well_formed: 4,
        controller.pictures: 12,
        controller.collisions: 6,
        controller.no_cell_fits: 4,
        controller.outside_the_picture: 4,
        line_ends.full_pictures: 3,
        line_ends.short_lines: 3,
        controller.register_reads: 2,
        controller.register_widths: 3,
        corners.greatest_counts: 2,
        corners.reloaded_pulses: 2,
        corners.late_pins: 3,
        corners.cursor_lines: 2,
        multiplexer.multiplexer_work: 10,
        mixed.both_chips: 4,
        mixed.damaged: 4,
        mixed.cut_short: 3,
        mixed.empty: 1,
        mixed.full: 1,
        mixed.over_long: 2,
    },
    ROOMS: {
        rooms.rooms: 11,
        rooms.full_rooms: 1,
        rooms.over_long_rooms: 1,
        rooms.nameless_rooms: 1,
    },
    SERIAL: {
        serial.records_off_the_line: 2,
        serial.damage_off_the_line: 2,
        serial.broken_end_off_the_line: 1,
        serial.nothing_off_the_line: 1,
        serial.thousands_off_the_line: 2,
    },
    COUNTS: {
        settings.small_frames: 3,
        settings.middle_frames: 2,
        settings.late_counts: 2,
        settings.wrapping_frames: 2,
        settings.counted_cursors: 2,
        settings.cursors_outside: 1,
        settings.long_syncs: 2,
        settings.beyond_the_frame: 2,
        settings.wide_bytes: 1,
        settings.any_settings: 1,
        settings.alike_bytes: 1,
        settings.most_settings: 1,
        settings.no_settings: 1,
        settings.cut_settings: 2,
        settings.too_many_settings: 2,
    },
    CUTS: {
        cuts.cuts_with_room: 2,
        cuts.cuts_handed_again: 2,
        cuts.cuts_let_go: 2,
        cuts.byte_by_byte: 1,
        cuts.calls_after_closing: 2,
        cuts.greatest_rooms: 1,
        cuts.longest_lists: 1,
        cuts.no_calls: 1,
        cuts.bytes_between_calls: 1,
        cuts.calls_of_no_kind: 1,
        cuts.heads_broken_off: 1,
        cuts.cuts_broken_off: 1,
        cuts.lists_too_long: 1,
    },
}


def name_of(sort):
    """A sort in words, for the reports."""
    return sort.__name__.replace("_", " ")


def dealt():
    """The sorts of 150 batches in order, each sort spread evenly over them and with the program that reads it."""
    places = []
    for program, shares in SHARES.items():
        for sort, share in shares.items():
            places += [((turn + 0.5) / share, sort.__name__, sort, program) for turn in range(share)]
    return [(sort, program) for _place, _name, sort, program in sorted(places, key=lambda item: item[:2])]


DEAL = dealt()
# A batch that takes the place of the one with its seed and number. Every whole run has the fixed seed, and so the largest frame once.
ONCE = {(FIXED_SEED, 1 + DEAL.index((settings.any_settings, COUNTS))): (settings.largest_frame, COUNTS)}
SORT_NAMES = [name_of(sort) for sort in (*(sort for shares in SHARES.values() for sort in shares), settings.largest_frame)]


def make_batch(seed, number):
    """The batch with this number of the run with this seed; numbers start at 1."""
    sort, program = ONCE.get((seed, number)) or DEAL[(number - 1) % len(DEAL)]
    rng = random.Random(f"{seed} {number}")
    return Batch(number, name_of(sort), program, sort(rng), seed)
