"""The listing: a line for each answer, and one for the ending."""
import re

from .program import NotReadable
from .replay import Reading, Replay, place_of_record


class Listing(Replay):
    """Reads a batch as it is. The remark behind an answer is no part of it."""

    name = "listing"
    lone_words = ("too long",)
    layout = re.compile(r"(?:[0-9a-f]{16}(?: odd)?\n)*end [034]\n")

    def read_answers(self, text):
        """The first sixteen digits of each line but the last, which has the ending."""
        if not self.layout.fullmatch(text):
            raise NotReadable
        *answers, ending = text.splitlines()
        return Reading([bytes.fromhex(answer[:16]) for answer in answers], int(ending.split()[1]))

    def place_of_line(self, given, line_number):
        """Each line is of the record with its number."""
        return place_of_record(given, line_number)


LISTING = Listing()
