"""The listing with each record and its answer in words beside it."""
import contextlib

import records
from commands import CannotRun
from compared import LISTING, NotReadable
from records import ANSWER_BYTES, MOST_BATCH_BYTES, RECORD_BYTES, REFUSAL_NAMES, records_of
from . import answers, refusals
from .terminal import printable
from .wording import Speaker
from .writing import Remarks, text_of

BESIDE = 2  # spaces between two columns
DIGITS = 2 * ANSWER_BYTES  # of an answer
BEFORE_WORDS = 2 * RECORD_BYTES + BESIDE + DIGITS + BESIDE


def reading_of(listing, data):
    """The answers and the ending of a batch's listing."""
    with contextlib.suppress(NotReadable):
        reading = LISTING.read(listing)
        too_long = len(data) > MOST_BATCH_BYTES
        if (reading.ending == refusals.TOO_LONG) == too_long and len(reading.answers) == (0 if too_long else len(data) // RECORD_BYTES):
            return reading
    raise CannotRun("the program 'listing' printed what is no listing of this batch")


def with_remark(words, remark):
    """Words with what the file says behind them, without anything that would move a terminal."""
    return printable(f"{words}  # {remark}" if remark else words)


class Explained:
    """The lines of an explained listing, each behind a margin. What to do about a refusal is said where its number comes first."""

    def __init__(self, paper, margin=""):
        self.paper = paper
        self.margin = margin
        self.speaker = Speaker()
        self.lines = []
        self.advised = set()
        self.answered = self.refused = 0

    def add(self, record, answer, words, stands_out=False):
        """One line: the record, its answer, and both in words."""
        gap = " " * BESIDE
        before = f"{self.margin}{record:<{2 * RECORD_BYTES}}{gap}{answer:<{DIGITS}}{gap}"
        self.lines.append(self.paper.laid(before, words, stands_out))

    def record(self, one, line, remark=""):
        """The next record, its line of the listing, and what the file says behind it."""
        spoken, answer = self.speaker.spoken(one), bytes.fromhex(line[:DIGITS])
        number = answer[1]
        unsure = not number and not spoken.certain and one == records.locate()
        says = f"refused {number}, {REFUSAL_NAMES[number]}" if number else answers.answer_words(one, answer)
        words = (f"{spoken.label}: {says}" if says else spoken.label) + (f" ({refusals.UNSURE})" if unsure else "")
        self.answered += 1
        self.refused += number != 0
        self.add(one.hex(), line, with_remark(words, remark), number != 0 or unsure)
        self.advise(refusals.WHY_UNSURE if unsure else refusals.ADVICE.get(number))

    def advise(self, words):
        """What to do about an answer, once."""
        if words and words not in self.advised:
            self.advised.add(words)
            self.lines.append(self.paper.laid(self.margin + " " * BEFORE_WORDS + "-> ", words))

    def headings(self, remarks):
        """Remarks on lines of their own, folded as the others are."""
        self.lines += [self.paper.laid("# ", printable(line[2:])) if line.startswith("# ") else line for line in remarks]

    def end(self, number, rest, remark=""):
        """The last line: how the replay ended, by its number and what follows the last whole record, and what the file says behind that."""
        words = refusals.ending(number, rest, self.answered, self.refused)
        self.add("", f"end {number}", with_remark(words, remark), number != 0)

    def text(self):
        """The lines since the last time, as a text."""
        text, self.lines = text_of(self.lines), []
        return text


def explain(batch, listing, paper):
    """The whole text."""
    reading = reading_of(listing, batch.data)
    if reading.ending == refusals.TOO_LONG:
        return paper.laid(f"{reading.ending}: ", refusals.too_long(len(batch.data))) + "\n"
    made, remarks, count = Explained(paper), Remarks(batch), len(reading.answers)
    for number, (one, line) in enumerate(zip(records_of(batch.data)[:count], listing.splitlines())):
        made.headings(remarks.before(number))
        made.record(one, line, remarks.behind_record(number))
    made.headings(remarks.rest())
    made.end(reading.ending, batch.data[RECORD_BYTES * count:], remarks.behind_record(count))
    return made.text()
