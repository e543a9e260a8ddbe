"""What the programs print: counting what was seen, and telling two outputs apart."""

import collections

from compared import REPLAYS, NotReadable
from compared.counts import REFUSAL
from compared.cuts import NO_CALL
from records import CALL_ENDING_NAMES, ENDINGS, KIND_NAMES, REFUSAL_NAMES, REPORT_REFUSAL_NAMES
from . import SORT_NAMES

ENOUGH = 10  # times that a whole run has to see each kind and each refusal; any seeds give far more
LONE_WORDS = tuple(dict.fromkeys(words for program in REPLAYS for words in program.lone_words))  # each once
REPORTED = {number: REPORT_REFUSAL_NAMES[number] for number in (0, REFUSAL)}  # how a report on settings can end


class Tally:
    """Counts of all that both programs agreed on."""

    def __init__(self):
        self.sorts = collections.Counter()
        self.done = collections.Counter()
        self.refused = collections.Counter()
        self.refusals = collections.Counter()
        self.endings = collections.Counter()
        self.records = 0
        self.reports = collections.Counter()
        self.settings = 0
        self.calls = collections.Counter()

    def add(self, batch, text):
        """Counts one batch and the output that both programs gave for it."""
        self.sorts[batch.sort] += 1
        batch.program.count(batch.input, text, self)

    def add_replay(self, answers, ending):
        """Counts what the output of a replay says."""
        self.endings[ending] += 1
        if ending in (3, 4):
            self.refusals[ending] += 1
        self.add_answers(answers)

    def add_answers(self, answers):
        """Counts answers to records."""
        self.records += len(answers)
        for kind, refusal, *_body in answers:
            self.refusals[refusal] += 1
            (self.refused if refusal else self.done)[kind] += 1

    def add_report(self, rows, refusal):
        """Counts what a report on settings says. It answers no record."""
        self.reports[refusal] += 1
        self.settings += len(rows)

    def add_calls(self, calls):
        """Counts what calls on a line gave. Their endings are none of a replay."""
        for ending, answers in calls:
            self.calls[ending] += 1
            self.add_answers(answers)

    def seen_too_seldom(self):
        """A line for each kind, each refusal and each ending of reports and of calls that was not seen often enough for a whole run."""
        lines = [f"kind {kind} ({name}) was done {self.done[kind]} times, fewer than {ENOUGH}"
                 for kind, name in KIND_NAMES.items() if self.done[kind] < ENOUGH]
        lines += [f"refusal {number} ({name}) was given {self.refusals[number]} times, fewer than {ENOUGH}"
                  for number, name in REFUSAL_NAMES.items() if self.refusals[number] < ENOUGH]
        lines += [f"reports ended with {number} ({name}) {self.reports[number]} times, fewer than {ENOUGH}"
                  for number, name in REPORTED.items() if self.reports[number] < ENOUGH]
        lines += [f"calls on a line ended with {number} ({name}) {self.calls[number]} times, fewer than {ENOUGH}"
                  for number, name in CALL_ENDING_NAMES.items() if self.calls[number] < ENOUGH]
        if self.calls[NO_CALL] < ENOUGH:
            lines.append(f"what is no list of calls was given {self.calls[NO_CALL]} times, fewer than {ENOUGH}")
        return lines

    def report(self):
        """All counts, as a text to print."""
        lines = ["batches by sort:"]
        lines += [f"  {self.sorts[sort]:7} {sort}" for sort in SORT_NAMES]
        lines += [f"  {sum(self.sorts.values()):7} in all", "records:", f"  {self.records:7} answered"]
        lines.append("kinds, done and refused:")
        lines += [f"  {self.done[kind]:7} {self.refused[kind]:7}  {kind} {name}"
                  for kind, name in KIND_NAMES.items()]
        lines.append("refusal numbers:")
        lines += [f"  {self.refusals[number]:7} {number} {name}" for number, name in REFUSAL_NAMES.items()]
        lines.append("endings:")
        lines += [f"  {self.endings[number]:7} end {number}" for number in ENDINGS]
        lines += [f"  {self.endings[words]:7} {words}" for words in LONE_WORDS]
        lines.append("calls on a line:")
        lines += [f"  {self.calls[number]:7} {number} {name}" for number, name in CALL_ENDING_NAMES.items()]
        lines.append(f"  {self.calls[NO_CALL]:7} {NO_CALL}")
        lines += ["settings:", f"  {self.settings:7} in reports", "reports on settings:"]
        lines += [f"  {self.reports[number]:7} {number} {name}" for number, name in REPORTED.items()]
        return "\n".join(lines)


def heading(batch):
    """Which batch it is, and its bytes."""
    first = f"batch {batch.number} ({batch.sort}), through {batch.program.name}:"
    return "\n".join([first, *batch.program.told_of_input(batch.input)])


def indented(text):
    """A whole output, set in."""
    return "\n".join(f"  {line}" for line in text.splitlines()) or "  (nothing)"


def describe_unequal(batch, proved, other_text, name):
    """Two outputs that differ: where, and both lines; both whole outputs if one is longer. name is of the one beside the proved."""
    one, other = proved.split("\n"), other_text.split("\n")
    lines = []
    unequal = [number for number, (left, right) in enumerate(zip(one, other)) if left != right]
    for number in batch.program.lines_to_show(unequal):
        lines.append(f"first difference at {batch.program.place_of_line(batch.input, number)}:")
        lines += [f"  proved: {one[number]}", f"  {name}: {other[number]}"]
    if len(one) != len(other):
        lines += ["whole output of the proved program:", indented(proved)]
        lines += [f"whole output of the {name} program:", indented(other_text)]
    return "\n".join(lines)


def describe_difference(batch, proved, other, name="second"):
    """None where both programs ended well and printed the same readable output; else the story. name is of the one beside the proved."""
    for whose, outcome in (("proved", proved), (name, other)):
        if outcome.problem:
            return f"{heading(batch)}\nthe {whose} program {outcome.problem}"
    if proved.text != other.text:
        return f"{heading(batch)}\n{describe_unequal(batch, proved.text, other.text, name)}"
    try:
        batch.program.read_for(batch.input, proved.text)
    except NotReadable:
        return (f"{heading(batch)}\nboth programs print the same, "
                f"and it is no output of {batch.program.name}:\n{indented(proved.text)}")
    return None
