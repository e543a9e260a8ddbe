"""The batches that go through C and through the listing: the same ones in every run, of records that the host program does."""
import random

from batches import controller, line_ends
from batches.multiplexer import MODE_BITS, RATE_BITS, SIZE_BITS, control_number
from records import (
    CONTROL_BITS, clocks, control, fetches, get, joined, locate, put, reset_controller, reset_multiplexer, status, strike,
)

SEED = 6545
MODES = 8
ALL_LOCATED = {0, 5, 6, 7, 8}  # the answers that a locate can have
# A picture with adjust lines, both syncs, and a start high enough for its addresses to wrap.
SETTING = {0: 5, 1: 4, 2: 3, 3: 0x32, 4: 2, 5: 2, 6: 2, 7: 1, 9: 1, 10: 0, 11: 0, 12: 63, 13: 254}


def with_cursor(setting, row, column):
    """The cursor put in a cell."""
    high, low = divmod(controller.cell_address(setting, row, column), 256)
    return put(14, high) + put(15, low)


def every_character(rng):
    """A frame and a half, character by character, for each way to address and to delay; the start is written anew on the way.
    The picture ends by its rows in some, and in others where the adjust lines begin."""
    parts = []
    for way, rows in ((0, 2), (4, 9), (16, 9), (36, 2), (48, 2), (52, 9)):
        setting = {**SETTING, 6: rows, 8: way}
        frame = controller.frame_length(setting)
        parts += [controller.written(rng, setting), with_cursor(setting, 1, 1), reset_controller()]
        parts += [clocks(1) * (frame // 2), put(12, 17), put(13, 201), clocks(1) * frame, status()]
    return joined(parts)


def every_field(rng):
    """The cursor of each blink over more frames than the field counts, on its line and on the one below, delayed and not."""
    parts = []
    for shape, last in ((0, 0), (32, 1), (64, 1), (96, 1), (65, 1), (97, 1)):
        for delay in (0, 32):
            setting = {**SETTING, 8: delay, 10: shape, 11: last}
            parts += [controller.written(rng, setting), with_cursor(setting, 1, 2), reset_controller()]
            parts += [clocks(controller.to_cell(setting, 1, 2)), clocks(controller.line_length(setting))]
            parts.append(clocks(controller.frame_length(setting)) * 33)
    return joined(parts)


def every_strike(rng):
    """A strike at each character of a frame, with the status before and after, the latch by its bytes, and the cell."""
    parts = [controller.written(rng, SETTING)]
    for time in range(controller.frame_length(SETTING)):
        parts += [reset_controller(), locate(), clocks(time), status(), strike(), status(), locate()]
        parts += [get(16), status()] if time % 2 else [status(), get(17), status(), get(14 + time % 4)]
    return joined(parts)


def every_mode(rng):
    """Fetches in each display mode, few and many, in each memory size and at each rate."""
    parts = []
    for turn in range(4 * MODES):
        parts.append(control_number(MODE_BITS, turn % MODES))
        parts.append(control_number(SIZE_BITS, rng.randrange(4)) + control_number(RATE_BITS, rng.randrange(4)))
        parts += [fetches(number) for number in (1, rng.randint(1, 40), rng.randint(90, 900), 65535 - turn)]
        parts += [fetches(rng.randint(1, 16)) for _ in range(8)]
    return joined(parts)


def any_control(rng):
    """Control bits of every sort set and cleared between fetches, and resets."""
    parts = []
    for _ in range(300):
        parts.append(control(rng.randrange(len(CONTROL_BITS)), rng.randrange(2)))
        parts.append(fetches(rng.choice((0, 1, 8, 16, rng.randint(1, 400), rng.randrange(65536)))))
        if rng.randrange(25) == 0:
            parts.append(reset_multiplexer())
    return joined(parts)


MAKERS = (
    every_character, every_field, every_strike, every_mode, any_control,
    controller.pictures, controller.pictures, controller.pictures,
    controller.collisions, controller.no_cell_fits, controller.outside_the_picture, controller.register_widths, controller.register_reads,
    line_ends.full_pictures, line_ends.short_lines,
)


def all_trials():
    """Each batch with its name."""
    return [(f"{number} ({make.__name__.replace('_', ' ')})", make(random.Random(f"{SEED} {number}")))
            for number, make in enumerate(MAKERS, 1)]


def unseen(lines):
    """What the listings of all batches should show and do not, in words; None where they show all of it."""
    answers = [bytes.fromhex(line[:16]) for line in lines]
    driven = {answer[2] for answer in answers if answer[0] == 2}
    shown = [answer[5] for answer in answers if answer[0] == 3]
    located = {answer[1] for answer in answers if answer[0] == 9}
    if driven != {0, 1}:
        return "a read that is driven, and one that is not"
    for bit in (1, 2, 4, 8, 16):
        if len({flags & bit for flags in shown}) < 2:
            return f"a character time with the flag {bit} set, and one with it clear"
    lacking = sorted(ALL_LOCATED - located)
    return f"a locate answered with {lacking[0]}" if lacking else None
