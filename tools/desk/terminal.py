"""Width and weight of what is shown, and words for people on standard error."""
import contextlib
import os
import shutil
import textwrap

WHO = "vorstelpijp"
LEAST_WIDTH = 60
LONGEST_WORD = 40  # that a message repeats
BOLD, PLAIN = "\033[1m", "\033[0m"


def printable(text):
    """A text with everything that a terminal would not show as a letter written out."""
    return "".join(letter if letter.isprintable() or letter in "\t\n" else repr(letter)[1:-1] for letter in text)


def tell(words):
    """A line on standard error."""
    with contextlib.suppress(OSError):
        os.write(2, f"{WHO}: {printable(str(words))}\n".encode())


def shortened(word, most=LONGEST_WORD):
    """A word for a message, its beginning where it is long."""
    return word if len(word) <= most else word[:most] + ".."


class Paper:
    """What a text is laid out for: a terminal of some width, or a pipe or a file, where a line is as long as it is."""

    def __init__(self, width=None, heavy=False):
        self.width = width
        self.heavy = heavy

    @classmethod
    def of_output(cls):
        """For standard output as it is."""
        if not os.isatty(1):
            return cls()
        plain = "NO_COLOR" in os.environ or os.environ.get("TERM") in (None, "dumb")
        return cls(max(shutil.get_terminal_size().columns, LEAST_WIDTH), not plain)

    def laid(self, before, words, stands_out=False):
        """A line with something before its words, which go on below themselves where the terminal ends."""
        if self.width is None:
            return f"{before}{words}".rstrip()
        room = max(self.width - len(before), LEAST_WIDTH // 2)
        lines = textwrap.wrap(words, room, break_long_words=False, break_on_hyphens=False) or [""]
        if stands_out and self.heavy:
            lines = [f"{BOLD}{line}{PLAIN}" for line in lines]
        return ("\n" + " " * len(before)).join([f"{before}{lines[0]}".rstrip(), *lines[1:]])
