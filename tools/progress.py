"""A line that tells how far some long work is."""
import shutil
import sys


class Progress:
    """On a terminal the line is written over by the next one; elsewhere each is a line of its own."""

    def __init__(self, who):
        self.who = who
        self.rewrites = sys.stderr.isatty()
        self.shown = False

    def say(self, words):
        """A line that stays."""
        self.close()
        print(f"{self.who}: {words}", file=sys.stderr, flush=True)

    def show(self, words):
        """How far it is."""
        if not self.rewrites:
            self.say(words)
            return
        width = shutil.get_terminal_size().columns - 1
        print("\r" + f"{self.who}: {words}"[:width].ljust(width), end="", file=sys.stderr, flush=True)
        self.shown = True

    def close(self):
        """Takes the line away that would be written over."""
        if self.shown:
            width = shutil.get_terminal_size().columns - 1
            print("\r" + " " * width + "\r", end="", file=sys.stderr, flush=True)
            self.shown = False
