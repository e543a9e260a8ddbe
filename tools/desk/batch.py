"""A batch with the remarks of its file, from words or from commented hex."""
from typing import NamedTuple, Optional

from records import RECORD_BYTES, records_before
from . import hextext, reading
from .lines import COMMENT, WrongLines, numbered
from .wording import labels_of


class Remark(NamedTuple):
    """A comment of a file, or an empty line."""

    at: int  # how many bytes of the batch stand before it
    text: Optional[str]  # None: an empty line
    behind: bool  # it stands on the line of the bytes before it


class Batch(NamedTuple):
    """The bytes, and what a file says beside them."""

    data: bytes
    remarks: tuple = ()


def comment_text(text):
    """What stands behind '#', without the one space that usually follows it."""
    return (text[1:] if text.startswith(" ") else text).rstrip()


def remark_of(line, at, has_bytes):
    """The remark of a line, or None."""
    statement, mark, comment = line.partition(COMMENT)
    if mark:
        return Remark(at, comment_text(comment), has_bytes)
    return None if statement.strip() else Remark(at, None, False)


def read_text(name, text, read_line, whole_records):
    """A batch from lines; where records have to be whole, only the last may be cut."""
    data, remarks, wrong, cut = bytearray(), [], WrongLines(name), None
    for number, line, words in numbered(text):
        try:
            part = read_line(words)
        except (reading.NotWords, hextext.NotHex) as problem:
            wrong.add(number, problem)
            continue
        if part and cut:
            wrong.add(cut, f"these bytes end inside a record, and line {number} follows; expected four bytes to each record")
            break
        data += part
        cut = number if whole_records and part and len(data) % RECORD_BYTES else cut
        remark = remark_of(line, len(data), bool(part))
        if remark:
            remarks.append(remark)
    wrong.see_none()
    return Batch(bytes(data), tuple(remarks))


def own_words(remark, labels):
    """A remark behind a record without the record's label, which `writing` puts there; None where nothing is left."""
    place = records_before(remark.at) - 1
    if not remark.behind or remark.text is None or place < 0:
        return remark
    if remark.text == labels[place]:
        return None
    if remark.text.startswith(f"{labels[place]}: "):
        return remark._replace(text=remark.text[len(labels[place]) + 2:])
    return remark


def from_words(name, text):
    """A batch from words; name is what messages call it."""
    return read_text(name, text, reading.read_line, whole_records=True)


def from_hex(name, text):
    """A batch from hex, whose remarks are those that somebody made, without labels."""
    batch = read_text(name, text, hextext.read_line, whole_records=False)
    labels = labels_of(batch.data)
    kept = (own_words(remark, labels) for remark in batch.remarks)
    return batch._replace(remarks=tuple(remark for remark in kept if remark))
