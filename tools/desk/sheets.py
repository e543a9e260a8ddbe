"""Settings from a file: a sheet in words, commented hex, or bytes. A setting is sixteen bytes, R0 to R15."""
from typing import NamedTuple

from records import SETTING_BYTES, settings_of
from . import hextext
from .batch import read_text
from .lines import WrongLines, numbered
from .statements import SEPARATOR, NotWords, assigned, is_register, words_in
from .terminal import shortened
from .vocabulary import register_value

BEGIN = "setting"
SHAPES = (
    (f"{BEGIN} 40 x 25", "begin a setting; what follows the word is its name"),
    ("R0 = 63", f"set a register of it, R0 to R{SETTING_BYTES - 1}; those not set are 0"),
)


class Setting(NamedTuple):
    """A setting: its name, which may be empty, and its bytes, too few where the file ends inside it."""

    name: str
    data: bytes


class Sheet:
    """The settings of a sheet as far as it is read: of each the name, and the values of its registers."""

    def __init__(self):
        self.begun = []

    def begin(self, name):
        """A further setting."""
        self.begun.append((name, {}))

    def put(self, register, value):
        """A register of the setting that was begun last. What stands before the first one is a setting without a name."""
        if not self.begun:
            self.begin("")
        values = self.begun[-1][1]
        if register in values:
            raise NotWords(f"R{register} is set twice in this setting, at first to {register_value(register, values[register])}; "
                           f"expected one value for it, or '{BEGIN}' before the next setting")
        values[register] = value

    def read_statement(self, text):
        """Takes one statement."""
        first, *others = text.split() or [""]
        words = words_in(text)
        if first.lower() == BEGIN:
            self.begin(" ".join(others))
        elif words and is_register(words[0]):
            self.put(*assigned(words, SETTING_BYTES, another="one"))
        elif words:
            self.begin("")  # that may have been meant; so what follows is not told to be set twice
            raise NotWords(f"there is no word '{shortened(first)}' here; expected a register, as 'R0 = 63', or '{BEGIN}' and a name")

    def read_line(self, text):
        """Takes the statements of a line."""
        for part in text.split(SEPARATOR):
            self.read_statement(part)

    def settings(self):
        """The settings; a register that was not set is 0."""
        return [Setting(name, bytes(values.get(register, 0) for register in range(SETTING_BYTES))) for name, values in self.begun]


def from_words(name, text):
    """Settings from words; name is what messages call the file."""
    sheet, wrong = Sheet(), WrongLines(name)
    for number, _line, words in numbered(text):
        try:
            sheet.read_line(words)
        except NotWords as problem:
            wrong.add(number, problem)
    wrong.see_none()
    return sheet.settings()


def from_hex(name, text):
    """Settings from hex, which have no names."""
    return from_bytes(read_text(name, text, hextext.read_line, whole_records=False).data)


def from_bytes(data):
    """Settings from bytes, which have no names; the last may be cut."""
    return [Setting("", one) for one in settings_of(data)]


def bytes_of(settings):
    """The bytes of settings, one behind the other."""
    return b"".join(one.data for one in settings)
