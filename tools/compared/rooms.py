"""Rooms: a replay into an output of a chosen length, of which every byte is shown."""
import re

from records import ANSWER_BYTES, ENDINGS
from .program import NotReadable
from .replay import Reading, Replay, place_of_record

ROOM_BYTES = 2  # in front of the batch, high byte first
MOST_ROOM = 8192  # output bytes; more count as these
# The line of the counts, the output in lines of an answer's length, and what is left of it.
LAYOUT = re.compile(r"(?:[0-9a-f]{16}\n)+(?:(?:[0-9a-f]{2}){1,7}\n)?")
TRIED = ("2000", "0000", "0014", "ffff")  # as the first two bytes have them: the most, none, a few, too many


def in_room(room, batch):
    """The input of rooms: two bytes for the room, then the batch."""
    return room.to_bytes(ROOM_BYTES, "big") + batch


class Rooms(Replay):
    """Reads two bytes for the room and then a batch; its first line has the ending and the counts."""

    name = "rooms"
    second_part = ("--room",)
    lone_words = ("too long", "no room")

    def records_in(self, given):
        """The batch stands behind the room."""
        return given[ROOM_BYTES:]

    def edge_inputs(self, length):
        """Also those with rooms in front, as far as these go."""
        yield from super().edge_inputs(length)
        for room in TRIED if length else ():
            for what, given in super().edge_inputs(max(length - ROOM_BYTES, 0)):
                yield f"room {room} and {what}", (bytes.fromhex(room) + given)[:length]

    def told_of_input(self, given):
        """The room comes first."""
        return [f"room, two bytes: {given[:ROOM_BYTES].hex() or '(none)'}", *super().told_of_input(given)]

    def read_answers(self, text):
        """As many answers as the first line counts; they have to be there, each whole."""
        if not LAYOUT.fullmatch(text):
            raise NotReadable
        counts, *output = [bytes.fromhex(line) for line in text.splitlines()]
        ending, written = counts[0], int.from_bytes(counts[3:5], "big")
        whole = [answer for answer in output[:written] if len(answer) == ANSWER_BYTES]
        if ending not in ENDINGS or len(whole) != written:
            raise NotReadable
        return Reading(whole, ending)

    def place_of_line(self, given, line_number):
        """The first line is of the whole replay, each other of a record."""
        if line_number == 0:
            return "the line of the ending, the bytes taken and the answers written"
        return place_of_record(self.records_in(given), line_number - 1)

    def lines_to_show(self, unequal):
        """Where the first line differs, also the first answer that does."""
        return unequal[:2] if unequal[:1] == [0] else unequal[:1]


ROOMS = Rooms()
