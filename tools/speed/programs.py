"""The two whole programs on one long batch: the proved listing and the second, independent program."""
import collections
import time

from commands import TOP, CannotRun, attempt
from compared import LISTING
from kit import running
from programs import CARGO_WORDS, SECOND, outcome_of
from .progress import Differs, say

RECORDS, CLOCKS = 1024, 65535
BATCH = bytes([3, CLOCKS // 256, CLOCKS % 256, 0]) * RECORDS
RUNS = 5

# seconds of each whole program, best of several; None, and why, where there is no time
Whole = collections.namedtuple("Whole", "proved second why")


def listed(words):
    """What a program prints for the batch, and the seconds that its whole run took."""
    began = time.monotonic()
    outcome = outcome_of(words, BATCH)
    took = time.monotonic() - began
    if outcome.problem:
        raise CannotRun(f"{words[-1]} {outcome.problem}")
    return outcome.text, took


def time_whole_programs(kit):
    """The best time of each, taken in turn."""
    if not LISTING.proved.is_file():
        return Whole(None, None, "not built yet")
    say("building the second program")
    well, said = attempt(["cargo", "build", *CARGO_WORDS, "target"], TOP / "second")
    if not well:
        return Whole(None, None, f"the second program does not build: {(said.splitlines() or ['?'])[-1]}")
    say("timing both whole programs")
    proved, second = [], []
    for _ in range(RUNS):
        ours, took = listed(running(kit, LISTING.proved))
        proved.append(took)
        theirs, took = listed([str(SECOND)])
        second.append(took)
        if ours != theirs:
            raise Differs("the proved listing and the second program print different listings of the long batch")
    return Whole(min(proved), min(second), None)
