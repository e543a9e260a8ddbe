"""Batches of settings, for the program that counts what their frames do: small frames mostly, with what can go wrong in a count,
and bytes that are no settings. A batch is made from the random numbers that it is given and from nothing else."""

from records import MOST_SETTINGS, SETTING_BYTES
from .controller import ADDRESSES, cell_address, picture_size, small_setting, widened

MOST_BYTES = MOST_SETTINGS * SETTING_BYTES
MOST_AT_ONCE = 12  # small settings in most batches
LATE = (16, 32, 48, 52)  # R8: display enable, the cursor or both one character late, once with addressing by rows
ALIKE = (0, 0, 0, 0, 1, 2, 4, 8, 16, 32, 64, 128)  # bytes that make small frames in all registers at once


def packed(setting):
    """The sixteen bytes of a setting, which is a value for each register."""
    return bytes(setting[register] for register in range(SETTING_BYTES))


def several(rng, make, most=MOST_AT_ONCE):
    """Some settings of one making."""
    return b"".join(packed(make(rng)) for _ in range(rng.randint(1, most)))


def put_cursor(setting, row, column):
    """Has the cursor at a cell's address."""
    setting[14], setting[15] = divmod(cell_address(setting, row, column), 256)


def some_cell(rng, setting):
    """A row and a column of the picture, the first and the last cell among them more often than others."""
    rows, columns = picture_size(setting)
    return rng.choice(((0, 0), (rows - 1, columns - 1), (rng.randrange(rows), rng.randrange(columns))))


def middle_setting(rng):
    """A screen of text, or something of its size."""
    setting = small_setting(rng)
    setting[0], setting[4], setting[9] = rng.randint(30, 120), rng.randint(10, 40), rng.randint(4, 15)
    setting[1], setting[6] = rng.randint(20, setting[0] + 2), rng.randint(8, setting[4] + 2)
    setting[2], setting[7] = rng.randint(0, setting[0] + 1), rng.randint(0, setting[4] + 1)
    put_cursor(setting, *some_cell(rng, setting))
    return setting


def late_setting(rng):
    """Late pins, with a picture that mostly lasts to the frame's end: the fact of the last character is shown after the frame."""
    setting = small_setting(rng)
    setting[8], setting[5] = rng.choice(LATE), rng.choice((0, 0, 0, 1))
    setting[1], setting[6] = setting[0] + rng.randint(0, 2), setting[4] + rng.randint(1, 2)
    setting[10], setting[11] = rng.choice((0, 64, 96)), 31
    put_cursor(setting, *some_cell(rng, setting))
    return setting


def wrapping_setting(rng):
    """A start so high that addresses wrap: at the last address, or by rows at the last row and at the end of each."""
    setting = small_setting(rng)
    setting[8] = setting[8] & ~4 | rng.choice((0, 4))
    if setting[8] & 4:
        setting[12], setting[13] = 63 - rng.randint(0, 4), 255 - rng.randint(0, 14)
    else:
        setting[12], setting[13] = divmod(ADDRESSES - rng.randint(1, 40), 256)
    put_cursor(setting, *some_cell(rng, setting))
    return setting


def cursor_setting(rng):
    """A cursor in the picture of each blink, on all, some or none of a row's lines."""
    setting = small_setting(rng)
    setting[9] = rng.choice((0, 1, 3, 7, 15, 31))
    setting[10] = rng.choice((0, 32, 64, 96)) + rng.choice((0, 1, setting[9], rng.randrange(32)))
    setting[11] = rng.choice((0, 1, setting[9], 31, rng.randrange(32)))
    put_cursor(setting, *some_cell(rng, setting))
    return setting


def outside_setting(rng):
    """A cursor beside the picture, below it, at its other end or anywhere."""
    setting = small_setting(rng)
    rows, columns = picture_size(setting)
    setting[10], setting[11] = 0, 31
    anywhere = rng.randrange(128), rng.randrange(256)
    put_cursor(setting, *rng.choice(((0, columns), (rows, 0), (rows - 1, columns), (-1, 0), anywhere)))
    return setting


def sync_setting(rng):
    """Syncs longer than a line and than the frame, from its first place to its last, and out of its reach."""
    setting = small_setting(rng)
    setting[0], setting[9] = rng.randint(0, 6), rng.choice((0, 0, 1, 2))
    setting[2] = rng.choice((0, setting[0], rng.randint(0, setting[0]), setting[0] + 1, 255))
    setting[7] = rng.choice((0, setting[4], rng.randint(0, setting[4]), setting[4] + 1, 127))
    characters = rng.choice((0, 1, setting[0] + 1, setting[0] + 2, rng.randint(8, 15)))
    setting[3] = 16 * rng.choice((0, 1, 2, 15, rng.randrange(16))) + characters
    return setting


def beyond_setting(rng):
    """A picture wider and higher than the frame, or none, any number of adjust lines, and syncs that never begin."""
    setting = small_setting(rng)
    setting[5] = rng.choice((0, 1, 31, rng.randrange(32)))
    setting[1] = rng.choice((0, setting[0] + 1, setting[0] + 2, rng.randint(setting[0], 255), 255))
    setting[6] = rng.choice((0, setting[4] + 1, setting[4] + 2, rng.randint(setting[4], 127), 127))
    setting[2] = rng.choice((setting[2], rng.randint(setting[0] + 1, 255)))
    setting[7] = rng.choice((setting[7], rng.randint(setting[4] + 1, 127)))
    put_cursor(setting, *some_cell(rng, setting))
    return setting


def wide_setting(rng):
    """Bytes with bits that their registers do not have."""
    return {register: widened(rng, register, value) for register, value in small_setting(rng).items()}


def small_frames(rng):
    """Some small frames."""
    return several(rng, small_setting)


def middle_frames(rng):
    """A few frames of a text screen's size."""
    return several(rng, middle_setting, 3)


def late_counts(rng):
    """Frames with late pins."""
    return several(rng, late_setting)


def wrapping_frames(rng):
    """Frames whose addresses wrap."""
    return several(rng, wrapping_setting)


def counted_cursors(rng):
    """Frames with a cursor in the picture."""
    return several(rng, cursor_setting)


def cursors_outside(rng):
    """Frames with a cursor outside the picture, by its address at least."""
    return several(rng, outside_setting)


def long_syncs(rng):
    """Frames with syncs longer than they are."""
    return several(rng, sync_setting)


def beyond_the_frame(rng):
    """Frames in which registers name more than there is."""
    return several(rng, beyond_setting)


def wide_bytes(rng):
    """Small frames by bytes that are cut."""
    return several(rng, wide_setting)


def any_settings(rng):
    """Any bytes that are whole settings, a few; their frames are large."""
    return bytes(rng.randrange(256) for _ in range(SETTING_BYTES * rng.randint(1, 8)))


def alike_bytes(rng):
    """Settings of one byte each, over and over; zeros make a frame of one character."""
    return b"".join(bytes((rng.choice(ALIKE),)) * SETTING_BYTES for _ in range(rng.randint(1, MOST_AT_ONCE)))


SMALL_MAKERS = (
    small_setting, small_setting, late_setting, wrapping_setting, cursor_setting, outside_setting, sync_setting, beyond_setting,
    wide_setting,
)


def small_settings(rng, count):
    """So many small settings, of all makings."""
    return b"".join(packed(rng.choice(SMALL_MAKERS)(rng)) for _ in range(count))


def most_settings(rng):
    """As many settings as a report takes."""
    return small_settings(rng, MOST_SETTINGS)


def no_settings(_rng):
    """No byte at all: refused 10."""
    return b""


def cut_settings(rng):
    """Settings of which the last is cut, or has a byte too many behind it: refused 10."""
    whole = SETTING_BYTES * rng.choice((0, 1, rng.randrange(MOST_SETTINGS), MOST_SETTINGS - 1))
    return small_settings(rng, MOST_SETTINGS)[:whole + rng.choice((1, 15, rng.randint(1, 15)))]


def too_many_settings(rng):
    """A byte more than a report takes, a setting more, or several: refused 10."""
    over = rng.choice((1, 1, SETTING_BYTES, SETTING_BYTES, SETTING_BYTES, rng.randint(2, 5000)))
    return (small_settings(rng, MOST_SETTINGS) * 6)[:MOST_BYTES + over]


def largest_frame(_rng):
    """All ones: the largest frame that there is, of 1,056,512 character times."""
    return bytes((255,)) * SETTING_BYTES
