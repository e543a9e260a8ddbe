"""What the proved program counts of settings, as a table for people. The numbers are its own."""
import contextlib

from commands import CannotRun
from compared import COUNTS, NotReadable
from . import refusals
from .settings import kept
from .sheets import bytes_of
from .terminal import printable, shortened
from .vocabulary import register_value
from .writing import text_of

COLUMNS = (
    ("picture", "in the picture, which is the chip's own fact"),
    ("enable", "with the display enable pin high"),
    ("cursor", "with the cursor pin high"),
    ("HSYNC", "with HSYNC high"),
    ("VSYNC", "with VSYNC high"),
    ("MA changes", "address lines of MA that changed, summed over the frame"),
    ("largest", "the most of them that changed at once"),
)
HEAD, TOTAL = "setting", "total"
BESIDE = 2  # spaces between two columns
LEAST_LABEL = 10  # letters of a setting's number and name that are shown on any terminal


def why_refused(settings):
    """Why settings are refused, and what to do; nothing where they are not."""
    return refusals.not_settings(len(bytes_of(settings)))


def rows_of(text, settings):
    """The rows of numbers that were printed for settings, the totals last; none where these were refused."""
    refused = bool(why_refused(settings))
    with contextlib.suppress(NotReadable):
        if len(COUNTS.read(text).rows) == (0 if refused else len(settings)):  # a refusal has none, a report one at least
            return [] if refused else [[int(word) for word in line.split()[-len(COLUMNS):]] for line in text.splitlines()]
    raise CannotRun(f"the program '{COUNTS.name}' printed what it does not print of these settings")


def labels_of(settings):
    """What stands before the numbers of each setting: its own number, and its name."""
    width = len(str(len(settings)))
    return [printable(f"{number:>{width}}{' ' * BESIDE}{one.name}").rstrip() for number, one in enumerate(settings, start=1)]


def right_aligned(rows):
    """Rows of words as lines, each column as wide as its widest word."""
    widths = [max(map(len, column)) for column in zip(*rows)]
    return ["".join(f"{' ' * BESIDE}{word:>{width}}" for word, width in zip(row, widths)) for row in rows]


def table_lines(settings, rows, paper):
    """The head, a line for each setting, and the totals. On a terminal names are cut where a line would not fit."""
    numbers = right_aligned([[head for head, _meaning in COLUMNS], *([f"{number:,}" for number in row] for row in rows)])
    labels = [HEAD, *labels_of(settings), TOTAL]
    if paper.width is not None:
        room = max(paper.width - len(numbers[0]), LEAST_LABEL)
        labels = [label if len(label) <= room else shortened(label, room - 2) for label in labels]
    width = max(map(len, labels))
    return [f"{label:<{width}}{line}" for label, line in zip(labels, numbers)]


def remarks_of(settings):
    """A line for each byte of which its register keeps less."""
    made = []
    for number, one in enumerate(settings, start=1):
        for register, value in enumerate(one.data):
            held = kept(register, value)
            if held != value:
                made.append(f"R{register} = {register_value(register, value)} in setting {number}: "
                            f"the register keeps {register_value(register, held)}")
    return made


def table(settings, text, paper):
    """The whole text for people, from what was printed for settings."""
    rows = rows_of(text, settings)
    if not rows:
        return paper.laid(f"{text.strip()}: ", why_refused(settings)) + "\n"
    remarks = remarks_of(settings)
    return text_of([*table_lines(settings, rows, paper), *([""] if remarks else []), *remarks])
