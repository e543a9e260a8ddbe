"""The listing of a batch with words beside it."""
from ..explaining import explain
from ..proved import printed
from ..terminal import Paper
from .command import batch_command, batch_of

ABOUT = """\
Replays the batch on fresh chips and prints its listing, each line with the
record before it and both in words behind it, and the comments of the file
between them. A refused record has its reason, and where a refusal comes for the
first time, what to do about it. Lines are folded on a terminal only.
"""


def run(asked):
    """The explained listing."""
    batch = batch_of(asked)
    return explain(batch, printed("listing", batch.data), Paper.of_output())


COMMAND = batch_command("explain", "replay a batch and print its listing in words", ABOUT, run)
