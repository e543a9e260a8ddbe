"""What the programs that replay a batch of records have alike."""
from typing import NamedTuple

from records import RECORD_BYTES, records_of
from .contents import GOOD_BATCH, contents
from .program import Program, set_in

RECORDS_PER_LINE = 8


class Reading(NamedTuple):
    """What the output of a replay says."""

    answers: list  # eight bytes each
    ending: object  # a number, or the words that stand alone


class Replay(Program):
    """Replays a batch of records. Each of these programs says what it has otherwise, and how its answers are read."""

    lone_words = ()  # what stands alone in an output that has no answers
    edge_lengths = (*range(0, 13), *range(4084, 4101))
    good_input = GOOD_BATCH

    def records_in(self, given):
        """The batch of records that an input holds."""
        return given

    def edge_inputs(self, length):
        """Batches."""
        yield from contents(length, "good records", GOOD_BATCH)

    def told_of_input(self, given):
        """The records in hex."""
        return ["batch in hex:", *grouped(self.records_in(given))]

    def read(self, text):
        """The answers and the ending."""
        for words in self.lone_words:
            if text == f"{words}\n":
                return Reading([], words)
        return self.read_answers(text)

    def read_answers(self, text):
        """What an output with answers says; read does the others."""
        raise NotImplementedError

    def count(self, given, text, tally):
        """By its answers and its ending."""
        tally.add_replay(*self.read_for(given, text))


def grouped(batch):
    """A batch in hex, a record to a group; the desk program reads it with --as hex."""
    groups = [one.hex() for one in records_of(batch)]
    return set_in(" ".join(groups[at:at + RECORDS_PER_LINE]) for at in range(0, len(groups), RECORDS_PER_LINE))


def place_of_record(batch, at):
    """Names a record of a batch by its number, from 0, or what comes after them all."""
    record = batch[RECORD_BYTES * at:RECORD_BYTES * (at + 1)]
    if len(record) < RECORD_BYTES:
        return "what follows the last whole record"
    return f"record {at + 1}, {record.hex()}"
