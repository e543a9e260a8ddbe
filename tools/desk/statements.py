"""What statements in words have alike, in a batch and in a sheet of settings: numbers, registers, and how they are taken apart."""
import re

from .terminal import shortened
from .vocabulary import REGISTER_NUMBERS

BYTE, COUNT, LEVEL = 255, 65535, 1  # the greatest values
MOST_DIGITS = 8  # more than any number in range has
SEPARATOR = ";"


class NotWords(Exception):
    """A statement that is none of the forms; says what was expected."""


def words_in(text):
    """The words of a statement; '=' is one, whatever stands beside it."""
    return text.replace("=", " = ").split()


def number(word, most, what):
    """A number from 0 to most, decimal or with $ in hex."""
    limits = f"0 to {most}" + (f", or $0 to ${most:X} in hex" if most > LEVEL else "")
    if not re.fullmatch(r"[0-9]+|\$[0-9A-Fa-f]+", word):
        raise NotWords(f"'{shortened(word)}' is not a number; {what} is one from {limits}")
    digits = word.lstrip("$").lstrip("0") or "0"
    value = int(digits, 16 if word.startswith("$") else 10) if len(digits) <= MOST_DIGITS else most + 1
    if value > most:
        raise NotWords(f"{shortened(word)} is too large; {what} goes from {limits}")
    return value


def is_register(word):
    """Whether a word looks like a register's name."""
    return re.fullmatch(r"[Rr][0-9]+", word) is not None


def register_number(word, count=REGISTER_NUMBERS):
    """The number of a register that is named, one of so many from R0 on."""
    match = re.fullmatch(r"[Rr]([0-9]{1,2})", word)
    if not match or int(match.group(1)) >= count:
        raise NotWords(f"'{shortened(word)}' is none of the registers R0 to R{count - 1}")
    return int(match.group(1))


def taken(words, count, shape, another="record"):
    """The words behind the first, which are to be so many; another is what may follow on the line."""
    if len(words) < count:
        raise NotWords(f"something is missing; expected it as in '{shape}'")
    if len(words) > count:
        raise NotWords(f"'{shortened(words[count])}' is too much; expected it as in '{shape}', "
                       f"with ';' before another {another} and '#' before a comment")
    return words


def assigned(words, count=REGISTER_NUMBERS, another="record"):
    """The register, one of so many, and the value of a statement such as 'R0 = 63'."""
    target = register_number(words[0], count)
    if words[1:2] != ["="]:
        raise NotWords(f"expected '=' behind it, as in '{shortened(words[0])} = 63'")
    value, = taken(words[2:], 1, f"{words[0]} = 63", another)
    return target, number(value, BYTE, "a register's value")
