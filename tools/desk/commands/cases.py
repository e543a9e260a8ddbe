"""The settled cases."""
from ..proved import printed
from .command import Command

ABOUT = """\
Prints what the proved program 'cases' prints: the settled cases a to j of the
scope document, and k to z, the pen at the end of a line. A line has the letter,
the frame's length in character times, picture (1 or 0), adjusting (1 or 0), MA,
latch, and the locator's refusal, row and column. examples/cases.batch has the
same cases as a batch.
"""

COMMAND = Command("cases", "print the settled cases", ABOUT, "", lambda parser: None, lambda asked: printed("cases", b""))
