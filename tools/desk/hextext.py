"""Hex digits to bytes."""

from .terminal import shortened

EXPECTED = "expected two hex digits to a byte, and '#' before a comment"
DIGITS = set("0123456789abcdefABCDEF")


class NotHex(Exception):
    """Words that are not whole bytes of hex digits; says why."""


def bytes_of_words(words):
    """The bytes of runs of hex digits, each of whole bytes."""
    given = []
    for word in words:
        for letter in word:
            if letter not in DIGITS:
                raise NotHex(f"{letter!r} in '{shortened(word)}' is not a hex digit; {EXPECTED}")
        if len(word) % 2:
            raise NotHex(f"'{shortened(word)}' has an odd number of hex digits; {EXPECTED}")
        given.append(bytes.fromhex(word))
    return b"".join(given)


def read_line(text):
    """The bytes of a line."""
    return bytes_of_words(text.split())
