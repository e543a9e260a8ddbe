"""The files that hold a batch, settings or calls: words, commented hex, or bytes."""
import codecs
import contextlib
import os
import stat
from typing import Callable, NamedTuple

from records import MOST_BATCH_BYTES, MOST_SETTINGS, SETTING_BYTES
from . import batch, calls, sheets
from .lines import BadInput
from .terminal import tell

WORDS, HEX, BYTES = "words", "hex", "bytes"
BY_SUFFIX = {".hex": HEX, ".bin": BYTES}
MOST_STREAM = 1 << 26  # bytes; far more than any file has that is taken, so that an input that never ends is told
STANDARD_INPUT = "-"


class Sort(NamedTuple):
    """What a sort of file holds, how its name ends where it is in words, the most bytes that are taken, and how each form is read."""

    holds: str
    suffix: str
    most_bytes: int
    from_words: Callable  # is given what messages call the file, and its text
    from_hex: Callable  # is given the same
    from_bytes: Callable  # is given the bytes


BATCH = Sort("a batch", ".batch", MOST_BATCH_BYTES, batch.from_words, batch.from_hex, batch.Batch)
SETTINGS = Sort("settings", ".settings", MOST_SETTINGS * SETTING_BYTES, sheets.from_words, sheets.from_hex, sheets.from_bytes)
CALLS = Sort("calls", ".calls", calls.MOST_CALLS_BYTES, calls.from_words, calls.from_hex, batch.Batch)


def form_of(sort, name, said):
    """How a file's bytes are meant: as was said, or by its ending."""
    form = said or {sort.suffix: WORDS, **BY_SUFFIX}.get(os.path.splitext(name)[1].lower())
    if form is None:
        raise BadInput(f"{name}: cannot tell what it holds; expected a name that ends in {sort.suffix} (words), .hex (hex) or "
                       ".bin (bytes), or one of --as words, --as hex and --as bytes")
    return form


def see_a_file(name):
    """Sees that there is a file of this name, and not a folder."""
    if os.path.isdir(name):
        raise BadInput(f"{name}: this is a folder; expected a file")
    if not os.path.lexists(name):
        raise BadInput(f"{name}: there is no such file")


def see_another_output(name, file):
    """Sees that standard output does not go to the file itself, which would then be empty or grow."""
    with contextlib.suppress(OSError):
        if file.fileno() != 1 and os.path.sameopenfile(file.fileno(), 1):  # where standard output is closed, the file has its number
            raise BadInput(f"{name}: standard output goes to this very file, so that the shell has emptied it or would add to it; "
                           "expected another file behind '>'")


def read_bytes(sort, name, place):
    """All bytes of a file or of standard input. place is its path, or its number."""
    try:
        with open(place, "rb", closefd=place != 0) as file:
            if stat.S_ISREG(os.fstat(file.fileno()).st_mode):
                see_another_output(name, file)
                return file.read()
            given = file.read(MOST_STREAM + 1)
    except (OSError, ValueError) as problem:
        raise BadInput(f"{name}: cannot be read: {getattr(problem, 'strerror', None) or problem}") from problem
    if len(given) > MOST_STREAM:
        raise BadInput(f"{name}: more than {MOST_STREAM:,} bytes have come; of {sort.holds} at most {sort.most_bytes:,} are taken")
    return given


def decoded(name, given):
    """A file's text: in UTF-8, in UTF-16 where it says so, or else with a letter for each byte."""
    if given.startswith((codecs.BOM_UTF16_LE, codecs.BOM_UTF16_BE)):
        text = given.decode("utf-16", errors="replace")
    else:
        try:
            text = given.decode("utf-8-sig")
        except UnicodeDecodeError:
            text = given.decode("latin-1")
    if "\0" in text:
        raise BadInput(f"{name}: this is not text; expected words or hex, or --as bytes for what it is")
    return text


def read_file(sort, name, said=None):
    """What a file of some sort holds, or standard input."""
    place = name
    if name == STANDARD_INPUT:
        name, place = "standard input", 0
    else:
        see_a_file(name)
    form = form_of(sort, name, said)
    if place == 0 and os.isatty(place):
        tell(f"reading {sort.holds} from the keyboard; Ctrl-D on a line of its own is the end")
    given = read_bytes(sort, name, place)
    if form == BYTES:
        return sort.from_bytes(given)
    return (sort.from_words if form == WORDS else sort.from_hex)(name, decoded(name, given))


def read_batch(name, said=None):
    """The batch of a file, or of standard input."""
    return read_file(BATCH, name, said)


def read_settings(name, said=None):
    """The settings of a file, or of standard input."""
    return read_file(SETTINGS, name, said)


def read_calls(name, said=None):
    """The calls of a file, or of standard input, as the bytes of their list."""
    return read_file(CALLS, name, said)
