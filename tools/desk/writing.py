"""A batch as words and as commented hex, with the remarks of its file."""
import collections

from records import RECORD_BYTES, records_before, records_of
from .wording import Statement, labels_of, statements_of

WORDS_COLUMN = 24  # where a remark behind words begins


class Remarks:
    """The remarks of a batch, each by the record that it belongs to; they are taken from the first to the last. Where the bytes are no
    records, begun says how many things begin before a place."""

    def __init__(self, batch, begun=records_before):
        alone = [remark for remark in batch.remarks if not remark.behind]
        self.waiting = collections.deque((begun(remark.at), standing_alone(remark)) for remark in alone)
        self.apart = {number for number, _line in self.waiting}
        self.behind = collections.defaultdict(list)
        for remark in batch.remarks:
            if remark.behind:
                self.behind[begun(remark.at) - 1].append(remark.text)

    def before(self, number):
        """The lines of remarks that stand before a record, those before earlier ones being taken already."""
        lines = []
        while self.waiting and self.waiting[0][0] <= number:
            lines.append(self.waiting.popleft()[1])
        return lines

    def rest(self):
        """The lines of remarks behind the last record."""
        return [line for _number, line in self.waiting]

    def behind_record(self, number):
        """What stands behind a record."""
        return "; ".join(self.behind.get(number, ()))

    def of_statement(self, statement):
        """What stands behind the records of a statement."""
        first, end = records_before(statement.at), records_before(statement.at + len(statement.data))
        return "; ".join(filter(None, map(self.behind_record, range(first, end))))


def standing_alone(remark):
    """A remark on a line of its own."""
    return "" if remark.text is None else f"# {remark.text}".rstrip()


def with_remarks(remarks, statements, line_of):
    """A line for each statement, and the remarks on their lines between them."""
    lines = []
    for statement in statements:
        lines += remarks.before(records_before(statement.at))
        lines.append(line_of(statement, remarks.of_statement(statement)))
    return lines + remarks.rest()


def words_line(statement, remark):
    """A statement, and what stands behind it."""
    return f"{statement.words:<{WORDS_COLUMN}} # {remark}" if remark else statement.words


def hex_line(statement, remark):
    """A record in hex with its label, and what stands behind it."""
    comment = f"{statement.words}: {remark}" if remark else statement.words
    return f"{statement.data.hex():<{2 * RECORD_BYTES}}  # {comment}"


def as_words(batch):
    """The batch in words."""
    remarks = Remarks(batch)
    return text_of(with_remarks(remarks, statements_of(batch.data, remarks.apart), words_line))


def as_hex(batch):
    """The batch as commented hex."""
    ones = zip(records_of(batch.data), labels_of(batch.data))
    statements = [Statement(RECORD_BYTES * number, one, label) for number, (one, label) in enumerate(ones)]
    return text_of(with_remarks(Remarks(batch), statements, hex_line))


def text_of(lines):
    """Lines as a text."""
    return "".join(f"{line}\n" for line in lines)
