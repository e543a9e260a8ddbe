"""How a batch is handed over piece by piece, tried with programs that stand in for the real ones."""
import pathlib
import sys
import unittest
from unittest import mock

import feeding
from batches import Batch
from batches.pieces import Plan, plan_for
from compared import LISTING, SERIAL
from feeding import outcome_fed, outcome_on

READER = pathlib.Path(__file__).with_name("reader.py")
PIECES = [b"\1\0\0\1", b"\5", b"\0\0", b"\0\3\0\0\1\4\0\0\0\2", b"\0"]  # four records and two bytes
LENGTHS = [len(piece) for piece in PIECES]
MORE_THAN_A_PIPE_HOLDS = 200_000
SETTING = "QEMU_LOG"
TELLS_SETTING = f"import os; print(os.environ.get('{SETTING}'))"


def reader(fault="none"):
    """The words that run a stand-in with a fault."""
    return [sys.executable, "-I", "-S", str(READER), fault]


def fed(fault, pieces, seconds=30, pauses=()):
    """What becomes of pieces that a stand-in with a fault is fed with."""
    return outcome_fed(reader(fault), Plan(pieces, frozenset(pauses)), seconds)


class Feeding(unittest.TestCase):
    """A program that is right, and some that are wrong or stop."""

    def test_each_read_sees_one_piece(self):
        for pauses in ((), (0, 2, 4)):
            self.assertEqual(fed("none", PIECES, pauses=pauses), (4 * "answer\n" + f"end {LENGTHS}\n", None))

    def test_no_piece_at_all(self):
        self.assertEqual(fed("none", []), ("end []\n", None))

    def test_answers_that_come_at_the_end_only(self):
        with mock.patch.object(feeding, "SECONDS_FOR_A_LINE", 0.3):
            outcome = fed("answers at the end", PIECES)
        self.assertEqual(outcome, ("", "got 4 bytes, and printed fewer than 1 lines within 0.3 seconds, without getting more"))

    def test_answers_that_come_a_byte_late(self):
        with mock.patch.object(feeding, "SECONDS_FOR_A_LINE", 0.3):
            outcome = fed("waits for one byte more", [b"\1\0\0", b"\1\5", b"\0\0\0"])
        self.assertEqual(outcome, ("answer\n", "got 8 bytes, and printed fewer than 2 lines within 0.3 seconds, without getting more"))

    def test_a_program_that_stops_reading(self):
        self.assertEqual(fed("stops reading", PIECES), ("answer\n", None))
        self.assertEqual(fed("stops reading", [b"\1\0\0\1", bytes(MORE_THAN_A_PIPE_HOLDS)]), ("answer\n", None))

    def test_a_program_that_never_reads(self):
        for pieces in (PIECES, [bytes(MORE_THAN_A_PIPE_HOLDS)]):
            self.assertEqual(fed("never reads", pieces, seconds=0.3), ("", "did not end within 0.3 seconds"))

    def test_a_program_that_does_not_even_begin_to_read(self):
        self.assertEqual(outcome_fed(["true"], Plan(PIECES, frozenset())), ("", None))

    def test_what_a_program_says_and_how_it_ends(self):
        self.assertEqual(fed("says more", []), ("end []\n", "ended well, but said on standard error: done"))
        self.assertEqual(outcome_fed(["sh", "-c", "exit 3"], Plan([], frozenset())).problem, "ended with status 3, saying: nothing")

    def test_a_program_gets_no_settings_of_the_emulator(self):
        with mock.patch.dict("os.environ", {SETTING: "cpu"}):
            outcome = outcome_fed([sys.executable, "-I", "-S", "-c", TELLS_SETTING], Plan([], frozenset()))
        self.assertEqual(outcome, ("None\n", None))


class Readers(unittest.TestCase):
    """Who gets a batch whole, and who in which pieces."""

    GIVEN = 30 * b"\4\0\0\0"

    def lengths(self, program, who):
        """The lengths of what a stand-in reads of a batch of a program."""
        batch = Batch(7, "some sort", program, self.GIVEN, 5)
        outcome = outcome_on(reader(), batch, who)
        self.assertIsNone(outcome.problem)
        return outcome.text.splitlines()[-1], batch

    def test_a_batch_is_whole(self):
        self.assertEqual(self.lengths(LISTING, "proved")[0], f"end [{len(self.GIVEN)}]")

    def test_what_comes_off_the_line_comes_in_other_pieces_to_each_reader(self):
        came = {}
        for who in ("proved", "second"):
            came[who], batch = self.lengths(SERIAL, who)
            self.assertEqual(came[who], f"end {[len(piece) for piece in plan_for(batch, who).pieces]}")
        self.assertNotEqual(came["proved"], came["second"])

    def test_the_time_limit_is_handed_on(self):
        for program in (LISTING, SERIAL):
            outcome = outcome_on(reader("never reads"), Batch(7, "some sort", program, self.GIVEN), "proved", 0.3)
            self.assertEqual(outcome, ("", "did not end within 0.3 seconds"))


if __name__ == "__main__":
    unittest.main()
