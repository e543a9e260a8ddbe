"""Calls on a serial line, and what each gave, in words for people. What they gave is the proved program's own."""
import bisect

from compared.cuts import NO_CALL
from records import ANSWER_BYTES, RECORD_BYTES, records_of
from .calls import why_none
from .explaining import Explained, with_remark
from .settings import number_of
from .writing import Remarks

MARGIN = 4 * " "  # before what a call gave
MOST_SHOWN = 64  # bytes of a cut
CLOSED_BEFORE = "the line was closed before, and nothing changes"
ENDED = {0: "no whole record is left", 4: "the next answer has no room", 12: CLOSED_BEFORE}


def grouped(data, held):
    """Bytes in hex, a record to a group where these bytes of the first one came before; only the first ones where there are many."""
    begun = -len(held) % RECORD_BYTES
    shown = data[:MOST_SHOWN]
    groups = [one.hex() for one in (shown[:begun], *records_of(shown[begun:])) if one]
    return " ".join(groups + [f".. ({len(data):,} bytes)"] * (len(data) > MOST_SHOWN))


class Called(Explained):
    """The lines of what calls gave, each answer with its record."""

    def __init__(self, paper):
        super().__init__(paper, MARGIN)

    def say(self, words, stands_out=False):
        """A line on what a call gave."""
        self.lines.append(self.paper.laid(MARGIN, words, stands_out))

    def call(self, made, remark):
        """A call, what it gave, and what the file says behind it."""
        words = "close" if made.closes else f"cut {made.room} {grouped(made.call.cut, made.held)}".rstrip()
        self.lines.append(self.paper.laid("", with_remark(words, remark)))
        if made.closes:
            self.closed(made)
        else:
            self.cut(made)

    def closed(self, made):
        """What closing gave."""
        inside = f"the line is closed inside a record; {made.held.hex(' ')} stays in it, and nothing reads that again"
        words = {0: "the line is closed, and no byte was held", 3: inside, 12: CLOSED_BEFORE}[made.ending]
        self.say(f"ended with {made.ending}: {words}", made.ending != 0)

    def cut(self, made):
        """What a cut gave: how it ended, its answers, and what is left of the output and of the cut."""
        cut, room = made.call.cut, made.call.room
        ended = f"ended with {made.ending}: {ENDED[made.ending]}; {made.taken:,} of {number_of(len(cut), 'byte', 'bytes')} taken"
        if made.ending != 12:
            ended += f"; {made.left.hex(' ')} held for the next call" if made.left else "; nothing held"
        self.say(ended, made.ending != 0)
        for one, answer in zip(made.records, made.answers):
            self.record(one, answer.hex())
        self.say(f"{made.stayed:,} of {room:,} output bytes stayed as they were")
        if made.ending == 4:
            more = f", with {ANSWER_BYTES} bytes of room at least" if room < ANSWER_BYTES else ""
            self.say(f"call again with the rest{more}: {grouped(cut[made.taken:], made.left)}")


def worded(batch, calls, paper):
    """The whole text, for the calls that were made of a list; or why there are none."""
    if not calls:
        return paper.laid(f"{NO_CALL}: " if batch.data else "", why_none(batch.data)) + "\n"
    begins = [made.at for made in calls]
    shown, remarks = Called(paper), Remarks(batch, lambda place: bisect.bisect_left(begins, place))
    for number, made in enumerate(calls):
        shown.headings(remarks.before(number))
        shown.call(made, remarks.behind_record(number))
    shown.headings(remarks.rest())
    return shown.text()
