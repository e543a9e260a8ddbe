"""What the comparison has to know of a program: its command, how its input is made up, and how its output is read and counted."""
from proving import binary


class NotReadable(Exception):
    """An output that is not laid out as the program's outputs are."""


class Program:
    """A program under comparison: what all have alike, and what each has to say of itself."""

    name = ""  # of the crate
    second_part = ()  # the words that the second program is started with to do the same
    reads_as_it_comes = False  # whether it answers before its input has ended, so that it matters in which pieces that comes
    edge_lengths = ()  # of the inputs at the program's edges, in bytes
    good_input = b""  # one that is taken

    @property
    def proved(self):
        """The path of the proved program, as it is built."""
        return binary(self.name)

    def second_words(self, second):
        """The words that run the second program, built at this path, in the part of this one."""
        return [str(second), *self.second_part]

    def edge_inputs(self, length):
        """The inputs of one length that the program is tried on, each with words for it."""
        raise NotImplementedError

    def told_of_input(self, given):
        """The lines in which a message shows an input."""
        raise NotImplementedError

    def read(self, text):
        """What an output says. Raises NotReadable where it is no output of this program."""
        raise NotImplementedError

    def read_for(self, given, text):
        """What the output for an input says. Raises NotReadable where it is none for that; most are read without a look at the input."""
        return self.read(text)

    def count(self, given, text, tally):
        """Has a tally count what the output for an input says."""
        raise NotImplementedError

    def place_of_line(self, given, line_number):
        """What the line with this number, from 0, of the output for an input stands for."""
        raise NotImplementedError

    def lines_to_show(self, unequal):
        """Which lines to show of two outputs that differ, by the numbers of all lines that do: the first."""
        return unequal[:1]


def set_in(lines):
    """Lines that show an input, set in; words where there is none."""
    return [f"  {line}" for line in lines] or ["  (no byte)"]
