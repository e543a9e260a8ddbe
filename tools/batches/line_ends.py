"""Batches for the pen at the end of a line. A batch is made from the random numbers that it is given and from nothing else."""

from records import clocks, get, joined, locate, put, reset_controller, strike

from .controller import line_length, picture_size, small_setting, written

LAST_TWO = 2
SHIFTED = (12, 13, 8, 1, 5, 4, 9, 0)  # what two character times past a line's end go by


def full_setting(rng):
    """Registers of a small picture that reaches the last two characters of its lines, or just does not."""
    setting = small_setting(rng)
    setting[0] = rng.choice((2, 3, 3, 4, rng.randint(2, 10)))
    setting[1] = setting[0] + rng.choice((-1, 0, 1, 1, 1, 2))
    setting[4] = rng.randint(0, 3)
    setting[5] = rng.choice((0, 0, 1, 2, 31))
    setting[6] = setting[4] + rng.choice((0, 1, 1, 2))
    setting[8] = rng.choice((0, 0, 4))
    setting[9] = rng.choice((0, 1, 2, rng.randint(3, 5)))
    return setting


def short_setting(rng):
    """The same with lines of one or two characters, so that two character times pass whole lines; often with one adjust line, so that a
    row's last line and the one before it lead to different places."""
    return {**full_setting(rng), 0: rng.randrange(LAST_TWO), 1: rng.randint(1, 3), 5: rng.choice((0, 1, 1, 2))}


def to_line_end(rng, setting):
    """Clocks from a reset to one of the last characters of a line: on a row's last lines more often than on others."""
    rows, _columns = picture_size(setting)
    row = rng.choice((rows - 1, rng.randrange(rows)))
    line = max(setting[9] - rng.choice((0, 0, 1, 1, rng.randrange(setting[9] + 1))), 0)
    column = max(setting[0] - rng.randrange(LAST_TWO + 1), 0)
    return clocks(((setting[9] + 1) * row + line) * line_length(setting) + column)


def shifted(rng):
    """One of the registers that a latch there goes by, written with another setting's value."""
    register = rng.choice(SHIFTED)
    return put(register, full_setting(rng)[register])


def struck_and_located(rng, setting):
    """A strike at a line's end and the cell that is found, with a register written before the strike or before the locate at times."""
    before, behind = ((rng.randrange(6) == 0) for _ in range(2))
    parts = [reset_controller(), to_line_end(rng, setting), shifted(rng) if before else b""]
    parts += [strike(), locate(), get(16) + get(17) if rng.randrange(3) == 0 else b""]
    if behind:
        parts += [shifted(rng), locate()]
    if before or behind:
        parts.append(written(rng, setting))
    return b"".join(parts)


def full_pictures(rng, setting_of=full_setting):
    """Pictures up to the line's end, struck in its last characters: located, refused 8 where another cell's line ends alike, 6 where a
    character is not shown, and 7 where a register was written."""
    parts = []
    for _ in range(rng.randint(3, 6)):
        setting = setting_of(rng)
        parts.append(written(rng, setting))
        parts += [struck_and_located(rng, setting) for _ in range(rng.randint(8, 16))]
    return joined(parts)


def short_lines(rng):
    """Lines of one or two characters, struck in each of them."""
    return full_pictures(rng, short_setting)
