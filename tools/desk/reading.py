"""Words to records. A statement is one form of the table FORMS; each gives the bytes of one record, or of two."""
import difflib
from typing import Callable, NamedTuple

import records
from records import CONTROL_BITS, RECORD_BYTES
from .hextext import NotHex, bytes_of_words
from .statements import BYTE, COUNT, LEVEL, SEPARATOR, NotWords, assigned, is_register, number, register_number, taken, words_in
from .terminal import shortened

SHAPE_OF_BYTES = "bytes 0a 01 02 03"
BITS = "V0 V1 V2 F0 to F6 P R0 R1 M0 M1 TY"


class Form(NamedTuple):
    """One form of statement: how it is written, what it means, and how the words behind its first one become bytes."""

    shape: str
    meaning: str
    read: Callable

    @property
    def first(self):
        """The word by which it is known."""
        return self.shape.split()[0]


def assign(words):
    """The register, '=' and its value."""
    return records.put(*assigned(words))


def select(words):
    """By the register's name, or by any byte."""
    word, = taken(words, 1, "select R16")
    return records.select(register_number(word) if is_register(word) else number(word, BYTE, "what names a register"))


def write(words):
    """To the register that is named."""
    word, = taken(words, 1, "write 63")
    return records.write(number(word, BYTE, "a register's value"))


def read(words):
    """From the register that is named, or from one that is named here."""
    if not words:
        return records.read()
    word, = taken(words, 1, "read' or 'read R16")
    return records.get(register_number(word))


def clock(words):
    """Character clocks."""
    word, = taken(words, 1, "clock 20")
    return records.clocks(number(word, COUNT, "the number of clocks"))


def fetch(words):
    """Display fetches."""
    word, = taken(words, 1, "fetch 32")
    return records.fetches(number(word, COUNT, "the number of fetches"))


def reset(words):
    """Of either chip."""
    chips = {"controller": records.reset_controller, "multiplexer": records.reset_multiplexer}
    chip = " ".join(words).lower()
    if chip not in chips:
        raise NotWords("expected 'reset controller' or 'reset multiplexer'")
    return chips[chip]()


def bus(words):
    """A bus cycle."""
    way, address = taken(words, 2, "bus read $A000' or 'bus write $A000")
    if way.lower() not in ("read", "write"):
        raise NotWords(f"a bus cycle is a 'bus read' or a 'bus write', not a 'bus {shortened(way)}'")
    return records.bus(number(address, COUNT, "an address"), int(way.lower() == "read"))


def control(words, value, shape):
    """The bus write that sets or clears a control bit."""
    word, = taken(words, 1, shape)
    if word.upper() not in CONTROL_BITS:
        raise NotWords(f"'{shortened(word)}' is no control bit; they are {BITS}")
    return records.control(CONTROL_BITS.index(word.upper()), value)


def levels(words):
    """Of HS and DA0."""
    shape = "levels HS 0 DA0 1"
    hs, first, da0, second = taken([word for word in words if word != "="], 4, shape)
    if (hs.upper(), da0.upper()) != ("HS", "DA0"):
        raise NotWords(f"expected it as in '{shape}'")
    return records.levels(number(first, LEVEL, "the level of HS"), number(second, LEVEL, "the level of DA0"))


def as_they_stand(words):
    """Bytes in hex."""
    try:
        given = bytes_of_words(words)
    except NotHex as problem:
        raise NotWords(f"{problem}, as in '{SHAPE_OF_BYTES}'") from problem
    if not given:
        raise NotWords(f"expected bytes in hex, as in '{SHAPE_OF_BYTES}'")
    return given


def alone(make, shape):
    """How a word is read that nothing follows."""
    return lambda words: make(*taken(words, 0, shape))


FORMS = (
    Form("R0 = 63", "name R0 and write 63 to it (two records)", assign),
    Form("select R16", "name a register", select),
    Form("write 63", "write the register that is named", write),
    Form("read", "read the register that is named; 'read R16' names it first", read),
    Form("status", "read the status, L and V", alone(records.status, "status")),
    Form("clock 20", "20 character clocks; 'clock 0' is a look where it stands", clock),
    Form("strike", "the light pen fires", alone(records.strike, "strike")),
    Form("locate", "ask for the cell of the last strike", alone(records.locate, "locate")),
    Form("reset controller", "reset a chip; also 'reset multiplexer'", reset),
    Form("bus read $A000", "a cycle of the processor; also 'bus write $A000'", bus),
    Form("set V0", "the bus write that sets a control bit", lambda words: control(words, 1, "set V0")),
    Form("clear TY", f"or clears it: {BITS}", lambda words: control(words, 0, "clear TY")),
    Form("fetch 32", "32 display fetches; 'fetch 0' is a look where they stand", fetch),
    Form("levels HS 0 DA0 1", "the levels of HS and DA0", levels),
    Form(SHAPE_OF_BYTES, "a record as it is, in hex, when it is to be damaged", as_they_stand),
)
BY_FIRST_WORD = {form.first: form for form in FORMS if form.read is not assign}


def guess(word):
    """What somebody may have meant by a word that is none."""
    close = difflib.get_close_matches(word.lower(), BY_FIRST_WORD, n=1)
    if close:
        return f"did you mean '{close[0]}'?"
    return f"expected a register, as 'R0 = 63', or one of {', '.join(BY_FIRST_WORD)}"


def read_statement(text):
    """The bytes of one statement."""
    words = words_in(text)
    if not words:
        return b""
    if is_register(words[0]):
        return assign(words)
    form = BY_FIRST_WORD.get(words[0].lower())
    if form is None:
        raise NotWords(f"there is no word '{shortened(words[0])}'; {guess(words[0])}")
    return form.read(words[1:])


def read_line(text):
    """The bytes of a line's statements; only the last may end inside a record."""
    data = b""
    for part in text.split(SEPARATOR):
        given = read_statement(part)
        if given and len(data) % RECORD_BYTES:
            raise NotWords(f"'{shortened(part.strip())}' cannot follow bytes that end inside a record; expected four bytes to each record")
        data += given
    return data
