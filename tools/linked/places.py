"""Reports on settings into a number of places: what the linked call lays there beside what the second program does.

The listing of a report has places enough for every report, so only here can there be too few: refusal 11. The trials are the same
ones in every run."""
import collections
import random
import re

from batches import Batch, settings
from compared.counts import place_of_row, told_of_settings
from compared.program import NotReadable, Program
from records import REPORT_REFUSAL_NAMES, ROW_NUMBERS, SETTING_BYTES, are_settings
from .hosts import ROOM

SEED = 6545
COUNT_BYTES = 2  # in front of the settings, high byte first
MOST_PLACES = 1024
UNTOUCHED = 8 * "a5"
LAYOUT = re.compile(r"(0|10|11)\n((?:[0-9a-f]{16}\n)*)")
NO_COUNT = "no room\n"
FEWEST = 2 * ROW_NUMBERS  # places that any report needs
ENOUGH = 10  # times that the trials have to show each refusal


class Places(Program):
    """Reads two bytes for the number of places and then settings; its first line has the refusal."""

    name = "places"
    second_part = ("--places",)

    @property
    def proved(self):
        """The host that has the linked call do it."""
        return ROOM / self.name

    def told_of_input(self, given):
        """The number of places comes first."""
        return [f"places, two bytes: {given[:COUNT_BYTES].hex() or '(none)'}", *told_of_settings(given[COUNT_BYTES:])]

    def read(self, text):
        """The refusal and the places, in hex; one that refuses has to leave them all alone. Nothing where their number was not given."""
        if text == NO_COUNT:
            return None, []
        laid = LAYOUT.fullmatch(text)
        if not laid:
            raise NotReadable
        refusal, places = int(laid.group(1)), laid.group(2).split()
        if refusal and set(places) - {UNTOUCHED}:
            raise NotReadable
        return refusal, places

    def place_of_line(self, given, line_number):
        """The first line has the refusal, each other a place."""
        if line_number == 0:
            return "the line of the refusal"
        at, given = line_number - 1, given[COUNT_BYTES:]
        row = f", of {place_of_row(given, at // ROW_NUMBERS)}" if are_settings(given) else ""
        return f"place {line_number}{row}"

    def lines_to_show(self, unequal):
        """Where the first line differs, also the first place that does."""
        return unequal[:2] if unequal[:1] == [0] else unequal[:1]


PLACES = Places()


def in_places(count, given):
    """The input: two bytes for the number of places, then the settings."""
    return count.to_bytes(COUNT_BYTES, "big") + given


def needed(given):
    """The places that the rows of so many whole settings and their totals need."""
    return ROW_NUMBERS * (len(given) // SETTING_BYTES + 1)


def counts_for(rng, given):
    """Numbers of places: just enough, one less, one more, without the totals, with one row alone, none, any too few, and many."""
    need = needed(given)
    return need, need - 1, need + 1, need - ROW_NUMBERS, ROW_NUMBERS, 0, rng.randrange(need), MOST_PLACES, MOST_PLACES + 1, 65535


def one_setting(rng):
    """A single small frame."""
    return settings.small_settings(rng, 1)


def few_settings(rng):
    """A few small frames."""
    return settings.small_settings(rng, rng.randint(2, 9))


def one_too_many(rng):
    """A setting more than a report takes."""
    return settings.small_settings(rng, settings.MOST_SETTINGS + 1)


MAKERS = (
    one_setting, few_settings, settings.any_settings, settings.most_settings,
    settings.no_settings, settings.cut_settings, settings.cut_settings, one_too_many, settings.too_many_settings,
)


def all_trials():
    """Each input, with its number and what its settings are. The last two do not even say how many places there are."""
    inputs = []
    for turn, make in enumerate(MAKERS):
        rng = random.Random(f"{SEED} {turn}")
        given = make(rng)
        inputs += [(make.__name__.replace("_", " "), in_places(count, given)) for count in counts_for(rng, given)]
    inputs += [("no count", b""), ("no count", b"\x0e")]
    return [Batch(number, sort, PLACES, given) for number, (sort, given) in enumerate(inputs, 1)]


def unseen(texts):
    """What the outputs of all trials should show and do not, in words; None where they show all of it."""
    readings = [PLACES.read(text) for text in texts]
    refusals = collections.Counter(refusal for refusal, _places in readings)
    for number, name in REPORT_REFUSAL_NAMES.items():
        if refusals[number] < ENOUGH:
            return f"a report that ends with {number} ({name}) {ENOUGH} times"
    if sum(refusal == 10 and len(places) < FEWEST for refusal, places in readings) < ENOUGH:
        return f"refusal 10 before 11 {ENOUGH} times: bytes that are no settings, and too few places for any report"
    return None
