"""The lines of a file, and what is told of those that cannot be read."""

COMMENT = "#"
MOST_TOLD = 20  # wrong lines of one file


class BadInput(Exception):
    """An input that is not what it is taken for; has a message for each thing that is wrong."""

    def __init__(self, *messages):
        super().__init__("\n".join(messages))
        self.messages = messages


class WrongLines:
    """The lines of a file that cannot be read; name is what messages call the file."""

    def __init__(self, name):
        self.name = name
        self.messages = []

    def add(self, number, words):
        """A line by its number, and what is wrong with it."""
        self.messages.append(f"{self.name}, line {number}: {words}")

    def see_none(self):
        """Sees that there are none. Tells no more of them than one can read."""
        rest = len(self.messages) - MOST_TOLD
        if self.messages:
            more = [f"{self.name}: {rest} more lines are wrong"] if rest > 0 else []
            raise BadInput(*self.messages[:MOST_TOLD], *more)


def split_lines(text):
    """The lines of a text, whatever ends them; what follows the last end is a line if it is not empty."""
    lines = text.replace("\r\n", "\n").replace("\r", "\n").split("\n")
    return lines if lines[-1] else lines[:-1]


def numbered(text):
    """The lines of a text, each with its number and what stands before its comment."""
    for number, line in enumerate(split_lines(text), start=1):
        yield number, line, line.partition(COMMENT)[0]
