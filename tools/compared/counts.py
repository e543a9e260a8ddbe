"""Counts: a line of seven numbers for each setting, and one of totals."""
import re
from typing import NamedTuple

from records import MOST_SETTINGS, REPORT_REFUSAL_NAMES, ROW_NUMBERS, are_settings, settings_of
from .contents import GOOD_SETTINGS, contents
from .program import NotReadable, Program, set_in

REFUSAL = 10  # the only one that this program gives: it has places enough for every report
REFUSED = f"refused {REFUSAL}\n"
NUMBER = "(?:0|[1-9][0-9]*)"
ROW = f"{NUMBER}(?: {NUMBER}){{{ROW_NUMBERS - 1}}}\n"
LAYOUT = re.compile(f"(?:{ROW}){{1,{MOST_SETTINGS}}}total {ROW}")


class Report(NamedTuple):
    """What a report on settings says."""

    rows: list  # of seven numbers, for each setting one; the totals are none of them
    refusal: int  # 0 where it is done


class Counts(Program):
    """Reads settings. What it prints answers no record."""

    name = "counts"
    second_part = ("--counts",)
    edge_lengths = (*range(0, 18), *range(31, 34), *range(1007, 1027))
    good_input = GOOD_SETTINGS

    def edge_inputs(self, length):
        """Settings."""
        yield from contents(length, "good settings", GOOD_SETTINGS)

    def told_of_input(self, given):
        """The settings in hex."""
        return told_of_settings(given)

    def read(self, text):
        """The rows; the last line has to be the totals of the others."""
        if text == REFUSED:
            return Report([], REFUSAL)
        if not LAYOUT.fullmatch(text):
            raise NotReadable
        *rows, totals = [[int(number) for number in line.split()[-ROW_NUMBERS:]] for line in text.splitlines()]
        if totals != totals_of(rows):
            raise NotReadable
        return Report(rows, 0)

    def count(self, given, text, tally):
        """By its rows and its refusal."""
        tally.add_report(*self.read_for(given, text))

    def place_of_line(self, given, line_number):
        """Each line is of the setting with its number; the totals follow."""
        if not are_settings(given):
            return f"the refusal, since {REPORT_REFUSAL_NAMES[REFUSAL]}"
        return place_of_row(given, line_number)


def told_of_settings(given):
    """The lines in which a message shows settings: one for each."""
    return ["settings in hex:", *set_in(setting.hex() for setting in settings_of(given))]


def place_of_row(given, at):
    """Names a row of the report on settings by its number, from 0."""
    settings = settings_of(given)
    if at < len(settings):
        return f"setting {at + 1}, {settings[at].hex()}"
    return "the totals" if at == len(settings) else "what follows the totals"


def totals_of(rows):
    """The sums of the rows, and the greatest of the largest changes, which stand last."""
    *sums, largest = zip(*rows)
    return [*(sum(numbers) for numbers in sums), max(largest)]


COUNTS = Counts()
