"""What tools/compare does with batches off the serial line and with lists of calls, with programs that stand in for the real ones."""
import contextlib
import io
import pathlib
import runpy
import sys
import unittest
from unittest import mock

import feeding
from batches import Batch
from batches.outputs import ENOUGH, Tally
from commands import TOP
from compared import CUTS, LISTING, SERIAL
from compared.calls import CLOSING, in_call
from programs import Pair
from records import CALL_ENDING_NAMES

COMPARE = runpy.run_path(str(TOP / "tools" / "compare"), run_name="compare")
READER = pathlib.Path(__file__).with_name("reader.py")
STRIKES = 5 * b"\4\0\0\0"
STRUCK = 5 * "0400000200000000\n" + "end 0\n"
# A byte that is held and two closings, which end with 0, 3 and 12; and a cut that ends with 4.
CALLS, SHOWN = in_call(0, b"\4") + CLOSING + CLOSING, "0000010000000000\n0300000000000000\n0c00000000000000\n"
NO_ROOM, LACKING = in_call(8, STRIKES[:8]), "0400040001000000\n0400000200000000\n"


def printing(text):
    """The words that run a program which prints the same for every input."""
    return ["sh", "-c", f"cat >/dev/null; printf '%s' '{text}'"]


def answering(text):
    """The words that run a program which prints a text at once, and reads all of its input."""
    return ["sh", "-c", f"printf '%s' '{text}'; cat >/dev/null"]


class OffTheLine(unittest.TestCase):
    """One batch off the line, through stand-ins for serial, for the second program and for the listing."""

    def compared(self, given, proved, second, listing):
        """What is found where the programs are these, and what was counted."""
        pairs = {SERIAL: Pair(SERIAL, proved, second), LISTING: Pair(LISTING, listing, None)}
        tally = Tally()
        stand_in = {"make_batch": lambda seed, number: Batch(number, "some sort", SERIAL, given, seed)}
        with mock.patch.dict(COMPARE["all_outcomes"].__globals__, stand_in), contextlib.redirect_stderr(io.StringIO()):
            return COMPARE["compare"](pairs, 5, 1, tally), tally

    def test_all_print_the_same(self):
        found, tally = self.compared(STRIKES, answering(STRUCK), answering(STRUCK), printing(STRUCK))
        self.assertIsNone(found)
        self.assertEqual((tally.endings, tally.records, tally.done), ({0: 1}, 5, {4: 5}))

    def test_the_second_program_differs(self):
        found, _tally = self.compared(STRIKES, answering(STRUCK), answering(STRUCK.replace("end 0", "end 3")), printing(STRUCK))
        self.assertTrue(found.startswith("batch 1 (some sort), through serial:\nbatch in hex:\n  04000000 "), found)
        self.assertTrue(found.endswith("  proved: end 0\n  second: end 3"), found)

    def test_the_listing_differs(self):
        found, _tally = self.compared(STRIKES, answering(STRUCK), answering(STRUCK), printing(STRUCK[17:]))
        self.assertIn("whole output of the proved program:\n", found)
        self.assertIn("whole output of the listing program:\n", found)

    def test_the_listing_ends_badly(self):
        found, _tally = self.compared(STRIKES, answering(STRUCK), answering(STRUCK), ["sh", "-c", "exit 3"])
        self.assertIn("the listing program ended with status 3", found)

    def test_what_is_too_long_for_the_listing_does_not_go_through_it(self):
        for records, runs in ((1024, True), (1025, False)):
            text = records * "0400000200000000\n" + "end 0\n"
            found, _tally = self.compared(records * STRIKES[:4], answering(text), answering(text), ["sh", "-c", "exit 3"])
            self.assertEqual(found is not None, runs, records)

    def test_a_program_that_waits_for_the_end_of_its_input(self):
        late = [sys.executable, "-I", "-S", str(READER), "answers at the end"]
        with mock.patch.object(feeding, "SECONDS_FOR_A_LINE", 0.3):
            for who, programs in (("proved", (late, answering(STRUCK))), ("second", (answering(STRUCK), late))):
                found, _tally = self.compared(STRIKES, *programs, printing(STRUCK))
                self.assertRegex(found, rf"\nthe {who} program got \d+ bytes, and printed fewer than [1-5] lines within 0.3 seconds")

    def test_the_same_that_is_no_output(self):
        found, _tally = self.compared(STRIKES, *3 * [answering(STRUCK.replace("end 0", "end 4"))])
        self.assertIn("both programs print the same, and it is no output of serial:", found)


class Calls(unittest.TestCase):
    """What the tally counts of calls, and what it finds too seldom."""

    def counted(self, *outputs):
        """A tally of outputs, each with the list of calls that it is for."""
        tally = Tally()
        for number, (given, text) in enumerate(outputs, 1):
            tally.add(Batch(number, "some sort", CUTS, given), text)
        return tally

    def seldom(self, *outputs):
        """The lines on calls that these outputs, each as often as is enough, show too seldom."""
        return [line for line in self.counted(*outputs * ENOUGH).seen_too_seldom() if "call" in line]

    def test_the_endings_of_calls_are_none_of_a_replay(self):
        tally = self.counted((CALLS, SHOWN), (NO_ROOM, LACKING), (b"", ""), (b"\3", "no call\n"))
        self.assertEqual(tally.calls, {0: 1, 3: 1, 12: 1, 4: 1, "no call": 1})
        self.assertFalse(tally.endings or tally.reports)
        self.assertEqual(tally.sorts, {"some sort": 4})

    def test_the_answers_of_calls_are_answers_to_records(self):
        tally = self.counted((NO_ROOM, LACKING))
        self.assertEqual((tally.records, tally.done, tally.refusals), (1, {4: 1}, {0: 1}))

    def test_all_endings_often_enough(self):
        self.assertEqual(self.seldom((CALLS, SHOWN), (NO_ROOM, LACKING), (b"\3", "no call\n")), [])

    def test_an_ending_that_is_not_seen(self):
        self.assertEqual(self.seldom((CALLS, SHOWN), (b"\3", "no call\n")),
                         [f"calls on a line ended with 4 ({CALL_ENDING_NAMES[4]}) 0 times, fewer than {ENOUGH}"])
        self.assertEqual(self.seldom((CALLS, SHOWN), (NO_ROOM, LACKING)),
                         [f"what is no list of calls was given 0 times, fewer than {ENOUGH}"])
        self.assertEqual([line.split(" (")[0] for line in self.seldom((NO_ROOM, LACKING), (b"\3", "no call\n"))],
                         [f"calls on a line ended with {number}" for number in (0, 3, 12)])

    def test_what_is_printed_of_calls(self):
        said = self.counted((CALLS, SHOWN), (CALLS, SHOWN), (b"\3", "no call\n")).report()
        self.assertIn("calls on a line:\n        2 0 done\n        2 3 the line is closed with one to three bytes held\n"
                      "        0 4 the output has no room for another answer\n        2 12 the line was closed before\n"
                      "        1 no call\n", said)


if __name__ == "__main__":
    unittest.main()
