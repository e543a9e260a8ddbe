"""What tools/check-programs takes and what it refuses, tried with programs that stand in for the real ones."""
import pathlib
import sys
import unittest

from compared import COUNTS, CUTS, LISTING, PROGRAMS, ROOMS, SERIAL
from compared.calls import calls_of
from edges import BROKEN, check, runs_on_broken, runs_on_inputs
from programs import Pair

STAND_IN = pathlib.Path(__file__).with_name("stand_in.py")
START = 'if test -d /dev/stdin; then exec "$@" folder </dev/null; fi; exec "$@" file'


def stand_in(name, fault="none"):
    """The words that run a stand-in with a fault."""
    return ["sh", "-c", START, "sh", sys.executable, "-I", "-S", str(STAND_IN), name, fault]


def pairs_of(fault="none"):
    """Pairs in which all proved programs have a fault and the second program has none."""
    return [Pair(program, stand_in(program.name, fault), stand_in(program.name)) for program in PROGRAMS]


def fault_found(fault, lengths):
    """What is found where all proved programs have a fault."""
    return check(pairs_of(fault), lengths)


class CheckPrograms(unittest.TestCase):
    """One program that is right and some that are wrong."""

    def test_a_right_program_is_taken(self):
        count, found = fault_found("none", (0, 3, 4092))
        self.assertIsNone(found)
        self.assertEqual(count, 88)

    def test_nothing_printed_for_a_length(self):
        self.assertIn(4092, LISTING.edge_lengths)
        _, found = fault_found("prints nothing for 4,092 bytes", (4092,))
        self.assertIn("listing, 4092 bytes, zeros", found)

    def test_a_folder_taken_for_an_empty_batch(self):
        _, found = fault_found("takes a folder for no bytes", ())
        self.assertIn("listing, started with </", found)

    def test_a_message_after_every_success(self):
        _, found = fault_found("says more after every success", (0,))
        self.assertIn("ended well, but said on standard error: done", found)

    def test_nothing_printed_for_a_room_and_a_byte(self):
        self.assertIn(3, ROOMS.edge_lengths)
        _, found = fault_found("prints nothing for a room and a byte", (3,))
        self.assertIn("rooms, 3 bytes, zeros", found)

    def test_nothing_printed_for_64_settings(self):
        self.assertIn(1024, COUNTS.edge_lengths)
        _, found = fault_found("prints nothing for 64 settings", (1024,))
        self.assertIn("counts, 1024 bytes, zeros", found)

    def test_nothing_printed_for_as_many_bytes_as_are_read_at_a_time(self):
        self.assertIn(256, SERIAL.edge_lengths)
        _, found = fault_found("prints nothing for 256 bytes off the line", (256,))
        self.assertIn("serial, 256 bytes, zeros", found)

    def test_nothing_printed_for_the_longest_list_of_calls(self):
        self.assertIn(4096, CUTS.edge_lengths)
        _, found = fault_found("prints nothing for 4,096 closings", (4096,))
        self.assertIn("cuts, 4096 bytes, closings", found)


class Runs(unittest.TestCase):
    """The runs that are made, without making them."""

    def test_each_program_runs_at_its_own_edges(self):
        runs = runs_on_inputs(pairs_of())
        for program in PROGRAMS:
            lengths = {len(run.given) for run in runs if run.pair.program is program}
            self.assertEqual(lengths, set(program.edge_lengths))
        due = [given for program in PROGRAMS for length in program.edge_lengths for _what, given in program.edge_inputs(length)]
        self.assertCountEqual([run.given for run in runs], due)

    def test_the_short_inputs_come_first(self):
        lengths = [len(run.given) for run in runs_on_inputs(pairs_of())]
        self.assertEqual(lengths, sorted(lengths))

    def test_each_program_runs_on_each_broken_input_or_output(self):
        runs = list(runs_on_broken(pairs_of()))
        self.assertEqual(len(runs), len(BROKEN) * len(PROGRAMS))
        for run in runs:
            self.assertTrue(run.given)
            self.assertEqual(run.given, run.pair.program.good_input)

    def test_a_good_list_of_calls_has_something_printed(self):
        self.assertTrue(calls_of(CUTS.good_input))


if __name__ == "__main__":
    unittest.main()
