"""One change to the second program."""
from typing import NamedTuple


class Change(NamedTuple):
    """A text that occurs once in a file of second/src, what takes its place, and what that does wrong."""

    file: str
    old: str
    new: str
    wrong: str
    # Why no batch can show the change, where only the second program's own tests can.
    tests_only: str = ""
    # Why the changed program is the same program.
    same: str = ""
