"""The batches for the pen at the end of a line: that they strike there, on every sort of line, and in every sort of picture."""
import collections
import random
import unittest

from batches.controller import line_length, picture_size
from batches.line_ends import full_pictures, full_setting, short_lines, short_setting, to_line_end
from records import is_allowed, locate, records_of, strike

OFTEN = 20
DRAWS = 400


def places(setting_of):
    """Many settings, each with the column, the line and the row that a strike falls in."""
    for number in range(DRAWS):
        rng = random.Random(number)
        setting = setting_of(rng)
        _kind, high, low, _data = to_line_end(rng, setting)
        lines, column = divmod(256 * high + low, line_length(setting))
        row, line = divmod(lines, setting[9] + 1)
        yield setting, column, line, row


class LineEnds(unittest.TestCase):
    """Settings and places by themselves, and whole batches."""

    def test_every_strike_is_among_the_last_three_characters_of_a_row_that_is_shown(self):
        for setting_of in (full_setting, short_setting):
            for setting, column, line, row in places(setting_of):
                self.assertIn(setting[0] - column, range(3))
                self.assertLess(row, picture_size(setting)[0])
                self.assertLessEqual(line, setting[9])

    def test_all_that_two_times_can_lead_to_comes_often(self):
        seen = collections.Counter()
        for setting, column, line, row in places(full_setting):
            if column < setting[1] and setting[0] - column < 2:
                last, bottom = line == setting[9], row == setting[4]
                seen["middle line"] += not last
                seen["next row"] += last and not bottom
                seen["adjust lines"] += last and bottom and setting[5] > 0
                seen["new frame"] += last and bottom and setting[5] == 0
                seen["row below the picture"] += last and not bottom and row + 1 == setting[6]
                seen["by row and column"] += setting[8] == 4
                seen["rows of one line"] += setting[9] == 0
        for what in ("middle line", "next row", "adjust lines", "new frame", "row below the picture", "by row and column", "rows of one line"):
            self.assertGreaterEqual(seen[what], OFTEN, what)

    def test_pictures_end_with_the_line_just_before_its_last_two_characters_and_between(self):
        reached = collections.Counter(setting[1] - setting[0] for setting, *_ in places(full_setting))
        self.assertEqual(set(reached), {-1, 0, 1, 2})
        self.assertGreaterEqual(min(reached.values()), OFTEN)

    def test_short_lines_have_one_or_two_characters(self):
        lengths = collections.Counter(line_length(setting) for setting, *_ in places(short_setting))
        self.assertEqual(set(lengths), {1, 2})
        self.assertGreaterEqual(min(lengths.values()), OFTEN)

    def test_a_locate_follows_every_strike(self):
        for make in (full_pictures, short_lines):
            records = list(records_of(make(random.Random(5))))
            self.assertTrue(all(is_allowed(one) for one in records))
            struck = [behind for one, behind in zip(records, records[1:]) if one == strike()]
            self.assertGreaterEqual(len(struck), OFTEN)
            self.assertEqual(set(struck), {locate()})


if __name__ == "__main__":
    unittest.main()
