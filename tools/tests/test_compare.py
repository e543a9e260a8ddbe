"""tools/compare where there is nothing to compare with, and what it does with programs that stand in for the real ones."""
import contextlib
import io
import os
import runpy
import subprocess
import sys
import unittest
from unittest import mock

from batches import DEAL, Batch
from batches.outputs import ENOUGH, Tally
from commands import TOP
from compared import COUNTS, LISTING, ROOMS
from programs import Pair
from records import CALL_ENDING_NAMES, KIND_NAMES, REFUSAL_NAMES

COMPARE = runpy.run_path(str(TOP / "tools" / "compare"), run_name="compare")
SEED = 11
ALIKE = {LISTING: "too long", ROOMS: "too long", COUNTS: "refused 10"}  # what the stand-ins print
REPORT = "8 8 1 0 20 32 3\n0 0 0 0 1 0 0\ntotal 8 8 1 0 21 32 3\n"


def first_of(program):
    """The number of the first batch that a program has."""
    return next(number for number, (_sort, reads) in enumerate(DEAL, start=1) if reads is program)


def printing(words):
    """The words that run a program which prints the same for every input."""
    return ["sh", "-c", f"cat >/dev/null; echo '{words}'"]


class NoCommit(unittest.TestCase):
    """The seeds of a commit, asked for where git finds none."""

    def test_the_seeds_of_no_commit(self):
        done = subprocess.run([sys.executable, str(TOP / "tools" / "compare"), "--seeds-of-commit", "--batches", "3"],
                              env={**os.environ, "GIT_DIR": os.devnull}, stdin=subprocess.DEVNULL, capture_output=True, text=True)
        self.assertEqual(done.returncode, 2)
        self.assertIn("there is no commit to take seeds from", done.stderr)
        self.assertNotIn("no difference", done.stdout)


class StandIns(unittest.TestCase):
    """A run in which each program prints the same for every batch, up to the first batch of one of them."""

    def compared(self, other, second_of_other):
        """What is found, and what was counted, where all print alike but the second program in the part of that one."""
        pairs = {program: Pair(program, printing(words), printing(words)) for program, words in ALIKE.items()}
        pairs[other] = pairs[other]._replace(second=printing(second_of_other))
        tally = Tally()
        with contextlib.redirect_stderr(io.StringIO()) as said:
            found = COMPARE["compare"](pairs, SEED, first_of(other), tally)
        return found, tally, said.getvalue().splitlines()

    def test_all_agree(self):
        count = first_of(ROOMS)
        found, tally, said = self.compared(ROOMS, "too long")
        self.assertIsNone(found)
        self.assertEqual(tally.endings, {"too long": count})
        self.assertEqual(said, [f"compare: seed {SEED}, {count} batches",
                                f"compare: {count} of {count} batches agree, 0 records and 0 settings"])

    def test_the_second_program_differs_in_one_part(self):
        count = first_of(ROOMS)
        found, tally, _said = self.compared(ROOMS, "no room")
        self.assertTrue(found.startswith(f"batch {count} (rooms), through rooms:\nroom, two bytes: "), found)
        self.assertTrue(found.endswith("  proved: too long\n  second: no room"), found)
        self.assertEqual(tally.endings, {"too long": count - 1})

    def test_the_second_program_differs_in_a_report(self):
        count = first_of(COUNTS)
        found, tally, _said = self.compared(COUNTS, "refused 11")
        self.assertIn(f"batch {count} (", found)
        self.assertIn("through counts:\nsettings in hex:\n", found)
        self.assertTrue(found.endswith("  proved: refused 10\n  second: refused 11"), found)
        self.assertEqual((sum(tally.endings.values()), tally.reports), (count - 1, {}))

    def test_reports_that_agree(self):
        count = first_of(COUNTS)
        found, tally, _said = self.compared(COUNTS, "refused 10")
        self.assertIsNone(found)
        self.assertEqual((tally.endings, tally.reports), ({"too long": count - 1}, {10: 1}))


class Counting(unittest.TestCase):
    """What the tally counts, and what it finds too seldom."""

    def counted(self, *outputs):
        """A tally of outputs, each with its program."""
        tally = Tally()
        for number, (program, text) in enumerate(outputs, 1):
            tally.add(Batch(number, "some sort", program, b""), text)
        return tally

    def seldom(self, words, *outputs):
        """The lines with some words on what these outputs, each as often as is enough, show too seldom."""
        return [line for line in self.counted(*outputs * ENOUGH).seen_too_seldom() if words in line]

    def test_a_report_answers_no_record(self):
        tally = self.counted((COUNTS, REPORT), (COUNTS, "refused 10\n"))
        self.assertEqual((tally.records, tally.settings, tally.reports), (0, 2, {0: 1, 10: 1}))
        self.assertFalse(tally.refusals or tally.endings or tally.done or tally.refused)
        self.assertEqual(tally.sorts, {"some sort": 2})

    def test_a_replay_is_no_report(self):
        tally = self.counted((LISTING, "0500000000000000\n0a01000000000000\nend 3\n"))
        self.assertEqual((tally.records, tally.settings, tally.reports), (2, 0, {}))
        self.assertEqual((tally.refusals, tally.endings), ({0: 1, 1: 1, 3: 1}, {3: 1}))

    def test_all_that_is_not_seen_is_told(self):
        lines = self.counted().seen_too_seldom()
        self.assertEqual(len(lines), len(KIND_NAMES) + len(REFUSAL_NAMES) + 2 + len(CALL_ENDING_NAMES) + 1)
        self.assertEqual(lines[-7:-5], [f"reports ended with 0 (done) 0 times, fewer than {ENOUGH}",
                                        f"reports ended with 10 (the bytes are not 1 to 64 whole settings) 0 times, fewer than {ENOUGH}"])

    def test_reports_that_are_seen_often_enough(self):
        self.assertEqual(self.seldom("reports", (COUNTS, REPORT), (COUNTS, "refused 10\n")), [])

    def test_reports_that_are_never_refused_or_never_done(self):
        for output, words in (((COUNTS, REPORT), "ended with 10 "), ((COUNTS, "refused 10\n"), "ended with 0 (done)")):
            lines = self.seldom("reports", output)
            self.assertEqual([words in line for line in lines], [True], lines)

    def test_records_that_are_done_are_no_reports(self):
        self.assertEqual(len(self.seldom("reports", (LISTING, "0500000000000000\nend 0\n"))), 2)

    def test_what_is_printed_of_reports(self):
        said = self.counted((COUNTS, REPORT), (COUNTS, REPORT), (COUNTS, "refused 10\n")).report()
        self.assertTrue(said.endswith("settings:\n        4 in reports\nreports on settings:\n        2 0 done\n"
                                      "        1 10 the bytes are not 1 to 64 whole settings"), said)


class HowFar(unittest.TestCase):
    """How often the run says how far it is."""

    def told(self, rewrites, count):
        """The numbers of the batches after which a line is shown that may be written over, and one that stays."""
        progress = mock.Mock(rewrites=rewrites)
        for number in range(1, count + 1):
            COMPARE["tell"](progress, number, count, Tally())
        return [[int(call.args[0].split()[0]) for call in way.call_args_list] for way in (progress.show, progress.say)]

    def test_on_a_terminal(self):
        self.assertEqual(self.told(True, 12), [[5, 10], [12]])

    def test_elsewhere(self):
        self.assertEqual(self.told(False, 250), [[100, 200], [250]])
        self.assertEqual(self.told(False, 200), [[100], [200]])


if __name__ == "__main__":
    unittest.main()
