"""How a proof may reach for its facts."""
import unittest

from checks import proofs


def lines(text):
    """The numbers of the lines that are refused."""
    return [number for number, _ in proofs.wrong_lines(text)]


class Paths(unittest.TestCase):
    """Paths into the facts of a proof."""

    def test_three_steps_back_are_allowed(self):
        self.assertEqual(lines("returns c = c .before .before .before .put .ensures"), [])

    def test_four_steps_back_are_refused(self):
        self.assertEqual(lines("a c = refl\nreturns c = c .before .before .before .before .put .ensures"), [2])

    def test_four_steps_at_the_end_of_a_line_are_refused(self):
        self.assertEqual(lines("    let turn = c .before .before .before .before\n    in turn .put"), [1])

    def test_four_steps_to_a_bracket_or_over_lines_are_refused(self):
        self.assertEqual(lines("(c .before .before .before .before)\n(c .before .before .before\n  .before .put)"), [1, 2])

    def test_a_waypoint_breaks_a_path(self):
        self.assertEqual(lines("let turn = c .before .before .before in turn .before .before .before .args"), [])


class Towers(unittest.TestCase):
    """Successors of successors."""

    def test_two_are_allowed(self):
        self.assertEqual(lines("two (suc (suc n)) = refl"), [])

    def test_three_are_refused(self):
        self.assertEqual(lines("three (suc (suc (suc n))) = refl"), [1])


if __name__ == "__main__":
    unittest.main()
