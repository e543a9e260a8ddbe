"""The listing of a batch, as the proved program prints it."""
from compared import LISTING
from .command import batch_command, batch_of, replayed

ABOUT = """\
Replays the batch on fresh chips and prints what the proved program 'listing'
prints, byte for byte: for each record its answer in 16 hex digits, then 'end'
and how the replay ended. 'explain' has it in words.
"""


def run(asked):
    """The listing."""
    batch = batch_of(asked)
    return replayed(LISTING, batch, batch.data)


COMMAND = batch_command("listing", "replay a batch and print its listing", ABOUT, run)
