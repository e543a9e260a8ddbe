"""How a run of tools/bench tells what it does, and what stops it."""
from progress import Progress

WHO = "bench"


class Differs(Exception):
    """Two sides that should come to the same result do not."""


def say(words):
    """Tells how far the run is."""
    Progress(WHO).say(words)
