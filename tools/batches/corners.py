"""Batches for corners that other batches come to too seldom: the greatest counts, a pulse that is
loaded anew while it runs, late pins after a write, and a cursor in rows of many lines."""

from records import clocks, fetches, joined, put, reset_controller
from .controller import (
    cell_address, line_length, picture_size, small_setting, strike_and_look, to_cell, written,
)
from .multiplexer import MODE_BITS, control_number

MOST = 65535  # that a record can count
COUNTS = (MOST, MOST, MOST, 65534, 32768, 32767, 256, 255)  # at which a count could turn over
# Values that make the picture or the cursor come or go where the scan stands.
TURNING_VALUES = {
    1: (0, 255), 6: (0, 127), 8: (0, 16, 32, 48, 52), 10: (0, 31, 32), 11: (0, 31),
    14: (0, 63), 15: (0, 255),
}


def greatest_counts(rng):
    """As many clocks and fetches as a record can ask for, with looks at where they lead."""
    parts = [written(rng, small_setting(rng)), reset_controller(), clocks(MOST), fetches(MOST)]
    for _ in range(rng.randint(3, 8)):
        parts += [clocks(rng.choice(COUNTS)), strike_and_look(rng), clocks(1)]
        parts += [control_number(MODE_BITS, rng.randrange(8)), fetches(rng.choice(COUNTS)), fetches(1)]
    return joined(parts)


def running_pulse(rng, setting):
    """An HSYNC pulse of several characters, and the scan one or two characters into it."""
    setting[2] = rng.randint(0, setting[0])
    setting[3] = 16 * rng.randrange(16) + rng.randint(4, 15)
    parts = [put(2, setting[2]), put(3, setting[3]), reset_controller()]
    return b"".join(parts) + clocks(setting[2]) + clocks(1) * rng.randint(1, 2)


def reloaded_pulses(rng):
    """HSYNC loaded while a pulse still runs, mostly with 0, which ends the pulse: at the next column
    or in the next line, a line being shorter than a pulse."""
    setting = small_setting(rng)
    setting[0] = rng.randint(1, 7)
    parts = [written(rng, setting)]
    for _ in range(rng.randint(8, 20)):
        parts.append(running_pulse(rng, setting))
        parts.append(put(3, setting[3] & 0xF0 | rng.choice((0, 0, 0, rng.randrange(16)))))
        if rng.randrange(2):
            parts.append(put(2, rng.randint(0, setting[0])))
        parts.append(clocks(1) * rng.randint(line_length(setting), line_length(setting) + 3))
        parts.append(clocks(line_length(setting) * rng.randint(1, 3)))
    return joined(parts)


def turned_fact(rng, setting):
    """A register written so that the picture or the cursor may come or go, or as it was."""
    register = rng.choice(tuple(TURNING_VALUES))
    return put(register, rng.choice(TURNING_VALUES[register] + (setting[register],)))


def late_pins(rng):
    """Delayed pins at the cursor, with writes between clocks and before no clocks at all: a pin shows
    the fact that was kept, as the character was left."""
    parts = []
    for _ in range(rng.randint(5, 12)):
        setting = small_setting(rng)
        rows, columns = picture_size(setting)
        row, column = rng.randrange(rows), rng.randrange(columns)
        setting[8], setting[10], setting[11] = rng.choice((16, 32, 48, 52)), 0, rng.randrange(32)
        setting[14], setting[15] = divmod(cell_address(setting, row, column), 256)
        parts += [written(rng, setting), reset_controller(), clocks(to_cell(setting, row, column))]
        for _ in range(rng.randint(3, 6)):
            parts += [clocks(rng.randrange(2)), turned_fact(rng, setting), clocks(0)]
    return joined(parts)


def cursor_lines(rng):
    """A cursor in rows of up to 32 lines, looked at line by line: its first and last line have five bits."""
    parts = []
    for _ in range(rng.randint(4, 10)):
        setting = small_setting(rng)
        setting[9], setting[8] = rng.randint(16, 31), 0
        setting[10], setting[11] = rng.randrange(32), rng.choice((31, rng.randrange(32)))
        column = rng.randrange(picture_size(setting)[1])
        setting[14], setting[15] = divmod(cell_address(setting, 0, column), 256)
        parts += [written(rng, setting), reset_controller(), clocks(column)]
        parts.append(clocks(line_length(setting)) * (setting[9] + 1))
    return joined(parts)
