"""The seeds of a run: a fixed one, and two that follow from the commit, so that every commit is
compared on batches that no earlier one has seen."""

import re

from commands import CannotRun, attempt

FIXED_SEED = 6545
WHOLE_RUN = 900  # batches, whatever the number of seeds
DIGITS = 8  # hex digits of the commit to a seed
OF_COMMIT = 2


def seeds_of(commit):
    """The two seeds of a commit: its first hex digits, and the next ones."""
    parts = [commit[DIGITS * place:DIGITS * (place + 1)] for place in range(OF_COMMIT)]
    return [int(part, 16) for part in parts]


def seeds_of_commit():
    """The fixed seed and the two of the commit that is checked out, whoever owns the files."""
    well, said = attempt(["git", "-c", "safe.directory=*", "rev-parse", "--verify", "HEAD"])
    commit = re.search(r"^[0-9a-f]{40,}$", said, re.M)
    if not well or not commit:
        raise CannotRun(f"there is no commit to take seeds from: {said.strip()}")
    return [FIXED_SEED, *seeds_of(commit.group())]


def share(batches, seeds):
    """How many batches each of so many seeds has: the same for all, and together no fewer."""
    return -(-batches // seeds)
