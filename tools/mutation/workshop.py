"""A copy of the second program, changed in one place at a time, built and tried."""
import collections
import shutil

from batches.outputs import describe_difference
from commands import TOP, CannotRun, attempt
from compared import PROGRAMS
from feeding import outcome_on
from programs import CARGO_WORDS

SECONDS_FOR_ONE = 20  # a changed program that needs more hangs: the unchanged one takes less than one
BY_COMPARISON, BY_TESTS, BY_NEITHER = "comparison", "tests", "neither"

# batch: the first one that shows the change, or None
Verdict = collections.namedtuple("Verdict", "change by batch")


def named(batch):
    """A batch by its number; those of tools/check-linked have numbers of their own."""
    return f"batch {batch.number}" if batch.program in PROGRAMS else f"{batch.program.name} {batch.number}"


def see_table(changes):
    """Sees that every change can be made: its old text occurs once, and the new one is another."""
    for change in changes:
        times = (TOP / "second" / "src" / change.file).read_text().count(change.old)
        if times != 1 or change.old == change.new:
            raise CannotRun(f"the table is stale: in second/src/{change.file} the text {change.old!r} occurs {times} times")


class Workshop:
    """One copy of second/ with a target folder of its own, so that only what has changed is built."""

    def __init__(self, folder):
        self.folder = folder / "second"
        shutil.copytree(TOP / "second", self.folder, ignore=shutil.ignore_patterns("target"))
        self.program = self.folder / "target" / "release" / "second"

    def cargo(self, task):
        """Runs one of cargo's tasks here. Gives whether it ended well, and what it said."""
        return attempt(["cargo", task, *CARGO_WORDS, "target"], self.folder)

    def build(self, what):
        """Builds the program as it is here."""
        well, said = self.cargo("build")
        if not well:
            raise CannotRun(f"{what} does not build:\n{said}")

    def first_difference(self, proved):
        """The first batch on which the program here is not as the proved one, or None."""
        for batch, outcome in proved:
            here = outcome_on(batch.program.second_words(self.program), batch, "second", SECONDS_FOR_ONE)
            if describe_difference(batch, outcome, here):
                return batch
        return None

    def see_unchanged(self, proved):
        """Sees that the second program as it is agrees with the proved ones, and passes its own tests."""
        self.build("the second program")
        batch = self.first_difference(proved)
        if batch:
            raise CannotRun(f"the unchanged second program differs in {named(batch)}; tools/compare or tools/check-linked tells more")
        well, said = self.cargo("test")
        if not well:
            raise CannotRun(f"the unchanged second program fails its own tests:\n{said}")

    def judge(self, change, proved):
        """Makes one change, and finds who sees it."""
        path = self.folder / "src" / change.file
        text = path.read_text()
        path.write_text(text.replace(change.old, change.new))
        try:
            self.build(f"the change to {change.file}, {change.wrong},")
            batch = self.first_difference(proved)
            if batch:
                return Verdict(change, BY_COMPARISON, batch)
            passed, _said = self.cargo("test")
            return Verdict(change, BY_NEITHER if passed else BY_TESTS, None)
        finally:
            path.write_text(text)
