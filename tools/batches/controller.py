"""Batches for the controller: pictures, the pen and the locator. A batch is made from the random
numbers that it is given and from nothing else."""

from records import (
    KEPT_BITS, clocks, get, joined, locate, put, reset_controller, status, strike,
)

MOST_CLOCKS = 65535
ADDRESSES = 16384


def small_setting(rng):
    """Registers of a small picture, by number: some rows and columns are blanked, some not."""
    setting = {
        0: rng.randint(1, 14),
        3: rng.choice((0, 0x12, 0x21, 0x35, rng.randrange(256))),
        4: rng.randint(0, 5),
        5: rng.choice((0, 0, 1, 2, rng.randrange(32))),
        8: rng.choice((0, 4, 16, 32, 48, 52, rng.randrange(256))),
        9: rng.randint(0, 3),
        10: rng.choice((0, 32, 64, 96)) + rng.choice((0, 0, 1, 3)),
        11: rng.choice((0, 1, 3, 31)),
        12: rng.choice((0, 0, 63, rng.randrange(64))),
        13: rng.choice((0, 255, rng.randrange(256))),
    }
    setting[1] = rng.randint(1, setting[0] + 2)
    setting[2] = rng.randint(0, setting[0] + 1)
    setting[6] = rng.randint(1, setting[4] + 2)
    setting[7] = rng.randint(0, setting[4] + 1)
    row, column = rng.randrange(setting[6]), rng.randrange(setting[1])  # at times just outside
    setting[14], setting[15] = divmod(cell_address(setting, row, column), 256)
    return setting


def cell_address(setting, row, column):
    """The address of a cell of the picture, for putting the cursor there."""
    if setting[8] & 4:
        return 256 * ((setting[12] + row) % 64) + (setting[13] + column) % 256
    return (256 * setting[12] + setting[13] + row * setting[1] + column) % ADDRESSES


def widened(rng, register, value):
    """A byte for a register, at times with bits above its width, which it does not keep."""
    above = 255 & ~KEPT_BITS.get(register, 255)
    return value | above & rng.choice((0, above, rng.randrange(256)))


def put_loosely(rng, register, value):
    """Writes a register, at times with bits above its width."""
    return put(register, widened(rng, register, value))


def written(rng, setting):
    """The setting, register by register."""
    return b"".join(put_loosely(rng, register, value) for register, value in sorted(setting.items()))


def picture_size(setting):
    """Rows and columns of the picture; at least one each, so that a cell can be picked."""
    rows, columns = min(setting[6], setting[4] + 1), min(setting[1], setting[0] + 1)
    return max(rows, 1), max(columns, 1)


def line_length(setting):
    """Character times in one line."""
    return setting[0] + 1


def frame_length(setting):
    """Character times in one frame."""
    lines = (setting[9] + 1) * (setting[4] + 1) + setting[5]
    return line_length(setting) * lines


def to_cell(setting, row, column):
    """Clocks from a reset to the first line of a cell."""
    return (setting[9] + 1) * row * line_length(setting) + column


def some_clocks(rng, setting):
    """A number of clocks: a few, about a line, about a row, about some frames, or anything."""
    line, frame = line_length(setting), frame_length(setting)
    number = rng.choice((
        0,
        1,
        rng.randint(1, 3),
        line + rng.randint(-1, 1),
        line * (setting[9] + 1) + rng.randint(-1, 1),
        rng.randrange(frame + 1),
        frame + rng.randint(-1, 1),
        rng.choice((8, 16)) * frame + rng.randint(-1, 1),
    ))
    if rng.randrange(100) == 0:
        number = rng.randrange(MOST_CLOCKS + 1)
    return clocks(min(number, MOST_CLOCKS))


def strike_and_look(rng):
    """A strike, and then some of: the latch, the status and the cell."""
    looks = [get(16), get(17), status(), locate(), get(rng.randrange(32))]
    return strike() + b"".join(look for look in looks if rng.randrange(2))


def changed_register(rng, setting):
    """One register written anew while the picture runs, now and then with any value."""
    register = rng.randrange(16)
    value = rng.randrange(256) if rng.randrange(4) == 0 else small_setting(rng)[register]
    if register in (0, 4, 5, 9):
        value %= 32  # a frame stays small
    setting[register] = value & KEPT_BITS.get(register, 255)
    return put(register, value)


def lowered_line_end(rng, setting):
    """R0 lowered below the column that the scan has reached, so that the column runs through 255."""
    low = rng.randrange(setting[0] + 1)
    reached = reset_controller() + clocks(rng.randint(low, setting[0]))
    setting[0] = low
    run_through = clocks(rng.randint(240, 260)) + clocks(1) * 4
    return reached + put(0, low) + strike_and_look(rng) + run_through


def lowered_frame_end(rng, setting):
    """R4 lowered below the row that the scan has reached, so that the row runs through 127."""
    row = line_length(setting) * (setting[9] + 1)
    high, low = setting[4], rng.randrange(setting[4] + 1)
    reached = reset_controller() + clocks(min(row * high, MOST_CLOCKS))
    setting[4] = low
    run_through = clocks(min(row * (126 - high), MOST_CLOCKS)) + clocks(row) * rng.randint(3, 12)
    return reached + put(4, low) + strike_and_look(rng) + run_through


def lowered_row_end(rng, setting):
    """R9 lowered below the line that the scan has reached, so that the line runs through 31."""
    high = rng.randint(2, 31)
    line = rng.randint(1, high)
    reached = put(9, high) + reset_controller() + clocks(line_length(setting) * line)
    setting[9] = rng.randrange(line)
    return reached + put(9, setting[9]) + strike_and_look(rng) + clocks(line_length(setting)) * rng.randint(20, 34)


def lowered_adjust_end(rng, setting):
    """R5 lowered below the adjust line that the scan has reached, so that the line runs through 31."""
    to_adjusting = to_cell(setting, setting[4] + 1, 0)
    reached = reset_controller() + put(5, 6) + clocks(min(to_adjusting, MOST_CLOCKS))
    setting[5] = rng.randrange(4)
    later = clocks(line_length(setting) * rng.randint(3, 5)) + put(5, setting[5])
    return reached + later + clocks(line_length(setting)) * rng.randint(26, 40)


LOWERED_ENDS = (lowered_line_end, lowered_row_end, lowered_frame_end, lowered_adjust_end)


def at_the_cursor(rng, setting):
    """The cursor put in a cell and the character times around it, in one frame or in many."""
    rows, columns = picture_size(setting)
    row, column = rng.randrange(rows), rng.randrange(columns)
    high, low = divmod(cell_address(setting, row, column), 256)
    shape = rng.choice((0, 32, 64, 96)) + rng.randrange(2)
    parts = [put_loosely(rng, 14, high), put(15, low), put_loosely(rng, 10, shape), reset_controller()]
    parts += [clocks(to_cell(setting, row, column)), clocks(1) * 3]
    if rng.randrange(3) == 0:
        parts += [reset_controller(), clocks(to_cell(setting, row, column))]
        parts.append(clocks(min(frame_length(setting), MOST_CLOCKS)) * 33)
    else:
        parts.append(clocks(max(line_length(setting) - 3, 0)) + clocks(1) * 3)
    return b"".join(parts)


def picture_action(rng, setting):
    """One thing that happens on a bench while a picture runs."""
    draw = rng.randrange(100)
    if draw < 56:
        return some_clocks(rng, setting)
    if draw < 74:
        return strike_and_look(rng)
    if draw < 81:
        return get(rng.choice((14, 15, 16, 17))) + status()
    if draw < 89:
        return changed_register(rng, setting)
    if draw < 92:
        return reset_controller()
    if draw < 94:
        return rng.choice(LOWERED_ENDS)(rng, setting)
    return at_the_cursor(rng, setting)


def pictures(rng):
    """Small pictures with cursor, sync and delayed pins, clocked, struck, read and changed."""
    setting = small_setting(rng)
    parts = [written(rng, setting), reset_controller()]
    for _ in range(rng.randint(40, 160)):
        parts.append(picture_action(rng, setting))
    return joined(parts)


def tall_setting(rng):
    """Registers of a picture that has, or almost has, more cells than there are addresses."""
    setting = dict.fromkeys(range(16), 0)
    setting[0], setting[4], setting[6] = 255, 127, 127
    setting[1] = rng.choice((128, 129, 130, 130, 131, 140, 200, 255))
    if rng.randrange(3) == 0:
        setting[8] = 4
        setting[4], setting[6] = rng.randint(60, 127), rng.randint(60, 127)
    if rng.randrange(3) == 0:
        setting[12], setting[13] = rng.randrange(64), rng.randrange(256)
    return setting


def collisions(rng):
    """Pictures in which two or more cells share an address, or just do not: located or refused 8."""
    parts = []
    for _ in range(rng.randint(2, 4)):
        setting = tall_setting(rng)
        parts.append(written(rng, setting))
        for _ in range(rng.randint(3, 8)):
            row = rng.choice((0, 0, 1, 2, 63, 64, 126, rng.randrange(127)))
            column = rng.choice((0, 1, 126, 127, 128, 129, rng.randrange(setting[1])))
            parts += [reset_controller(), clocks(to_cell(setting, row, column)), strike(), locate()]
    return joined(parts)


def cell_cut_off(setting, row, column):
    """Locates with the line's end put before a struck cell, and with the frame's last row before it, and as it was."""
    parts = []
    for register, place in ((0, column), (4, row)):
        if place:
            parts += [put(register, place - 1), locate(), put(register, setting[register])]
    return b"".join(parts) + locate()


def no_cell_fits(rng):
    """A strike in the picture, then a frame that ends before it, or a start address far away, then locate: refused 7, but where the
    line's new end leads to the latch."""
    parts = []
    for _ in range(rng.randint(4, 10)):
        setting = small_setting(rng)
        rows, columns = picture_size(setting)
        row, column = rng.randrange(rows), rng.randrange(columns)
        parts += [written(rng, setting), reset_controller(), clocks(to_cell(setting, row, column))]
        parts += [strike(), locate(), cell_cut_off(setting, row, column), put(12, setting[12] ^ 32), locate()]
        parts += [put(13, rng.randrange(256)), locate(), put(12, setting[12]), locate()]
    return joined(parts)


def outside_the_picture(rng):
    """Locate before any strike (refused 5) and after strikes in blanked places (refused 6)."""
    parts = [locate()]
    for _ in range(rng.randint(4, 10)):
        setting = small_setting(rng)
        setting[0] += 2
        setting[1] = rng.randint(0, setting[0])
        parts += [written(rng, setting), reset_controller(), locate()]
        for _ in range(rng.randint(2, 6)):
            line = rng.randrange(8) * line_length(setting)
            parts += [clocks(line + rng.choice((setting[0], setting[1]))), strike(), locate(), status()]
    return joined(parts)


def register_reads(rng):
    """Every name read, in any order, with the registers written and a strike that is not read yet: which reads are driven, and which clear L."""
    parts = []
    for _ in range(rng.randint(4, 7)):
        parts += [put(register, rng.choice((0, rng.randrange(256)))) for register in range(16)]
        parts += [reset_controller(), strike()]
        for name in rng.sample(range(32), 32):
            parts.append(get(name | rng.choice((0, 32, 224))) + status())
            if name in (16, 17):
                parts.append(strike())
    return joined(parts)


def register_widths(rng):
    """Every register, named with and without bits above the fifth, written with any value."""
    parts = []
    for _ in range(rng.randint(4, 12)):
        for register in range(32):
            parts.append(put(register | rng.choice((0, 32, 224)), rng.randrange(256)))
            if rng.randrange(3) == 0:
                parts.append(get(register))
        parts += [reset_controller(), clocks(rng.randrange(400)), strike_and_look(rng)]
    return joined(parts)
