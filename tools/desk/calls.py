"""Calls on a serial line, from words, hex or bytes: what the proved program 'cuts' reads, and why that is no list of calls where it is
none."""
from compared.calls import CLOSE, CLOSING, CUT, HEAD_BYTES, MOST_CALLS_BYTES, first_call, in_call
from compared.rooms import MOST_ROOM
from . import hextext
from .batch import read_text
from .settings import number_of
from .statements import NotWords, number
from .terminal import shortened

MOST_CUT_BYTES = MOST_CALLS_BYTES - HEAD_BYTES
SHAPE = "cut 16 04000000 09"
SHAPES = (
    (SHAPE, "a cut of these bytes, and 16 bytes for its answers"),
    ("cut 16", "a cut of no bytes"),
    ("close", "close the line"),
)
EMPTY = "the list is empty: it has no call"


def cut_call(words):
    """The bytes of a call with a cut, from the words behind the first."""
    if not words:
        raise NotWords(f"the room is missing; expected it as in '{SHAPE}'")
    room, cut = number(words[0], MOST_ROOM, "the room of a cut"), hextext.bytes_of_words(words[1:])
    if len(cut) > MOST_CUT_BYTES:
        raise NotWords(f"this cut has {len(cut):,} bytes; of calls at most {MOST_CALLS_BYTES:,} bytes are taken, "
                       f"which leaves {MOST_CUT_BYTES:,} for a cut")
    return in_call(room, cut)


def read_line(text):
    """The bytes of a line's call."""
    first, *others = text.split() or [""]
    if first.lower() == "cut":
        return cut_call(others)
    if first.lower() == "close":
        if others:
            raise NotWords(f"'{shortened(others[0])}' is too much; expected 'close' alone, and '#' before a comment")
        return CLOSING
    if first:
        raise NotWords(f"there is no word '{shortened(first)}' here; expected 'cut', a room and bytes in hex, as in '{SHAPE}', or 'close'")
    return b""


def from_words(name, text):
    """The bytes of calls in words, with the remarks of their file, which messages call by this name."""
    return read_text(name, text, read_line, whole_records=False)


def from_hex(name, text):
    """The same from hex."""
    return read_text(name, text, hextext.read_line, whole_records=False)


def why_no_call(at, rest):
    """Why no call begins with the rest of a list, which begins at this place."""
    if rest[0] not in (CUT, CLOSE):
        return f"byte {at + 1} is {rest[0]:02x}; a call begins with {CUT:02x}, which is a cut, or with {CLOSE:02x}, which closes the line."
    if len(rest) < HEAD_BYTES:
        return f"the call at byte {at + 1} is cut off: {len(rest)} of the {HEAD_BYTES} bytes are there that come before a cut."
    length = int.from_bytes(rest[HEAD_BYTES - 2:HEAD_BYTES], "big")
    return (f"the call at byte {at + 1} is cut off: {len(rest) - HEAD_BYTES:,} of the {number_of(length, 'byte', 'bytes')} are there that "
            "its cut is said to have.")


def why_none(data):
    """Why no call is made of a list; nothing where some are."""
    if not data:
        return EMPTY
    if len(data) > MOST_CALLS_BYTES:
        return (f"the calls have {len(data):,} bytes; at most {MOST_CALLS_BYTES:,} are taken, {HEAD_BYTES} and its own bytes for each cut "
                "and one for closing. Cut the list at a place where you can begin each part with the setting: the chips start fresh in "
                "each run.")
    rest = data
    while rest:
        call = first_call(rest)
        if call is None:
            return why_no_call(len(data) - len(rest), rest)
        rest = rest[len(call.written):]
    return ""
