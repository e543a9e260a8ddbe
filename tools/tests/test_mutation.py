"""The table of tools/mutants, which has to keep up with the second program, and how a changed program is tried."""
import pathlib
import runpy
import tempfile
import unittest
from unittest import mock

from batches import Batch
from commands import TOP, CannotRun
from compared import COUNTS, CUTS, LISTING, PROGRAMS, ROOMS, SERIAL
from linked.places import PLACES
from mutation import CHANGES, counts, line
from mutation.change import Change
from mutation.workshop import BY_COMPARISON, BY_NEITHER, BY_TESTS, Verdict, Workshop, named, see_table
from programs import Outcome

MUTANTS = runpy.run_path(str(TOP / "tools" / "mutants"), run_name="mutants")
# It stands in for a changed program.
BY_ITS_WORDS = """#!/bin/sh
cat >/dev/null
case "$*" in
    "") echo "too long" ;; --room) echo "no room" ;; --counts) echo "refused 10" ;; --places) echo "11" ;;
    --serial) echo "end 0" ;; --cuts) echo "no call" ;;
esac
"""
ALIKE = {LISTING: "too long\n", ROOMS: "no room\n", COUNTS: "refused 10\n", PLACES: "11\n", SERIAL: "end 0\n", CUTS: "no call\n"}
NO_LIST = b"\x03"  # of calls; the other programs can print their words for it, too


class Table(unittest.TestCase):
    """Every change can be made, and is another than all others."""

    def test_every_old_text_is_there_once(self):
        see_table(CHANGES)

    def test_a_text_that_is_not_there_or_twice_is_stale(self):
        for old in ("no such text", "fn "):
            with self.assertRaises(CannotRun):
                see_table([Change("record.rs", old, "another", "nothing")])

    def test_no_change_stands_there_twice(self):
        self.assertEqual(len({change[:3] for change in CHANGES}), len(CHANGES))
        self.assertEqual(len({(change.file, change.wrong) for change in CHANGES}), len(CHANGES))

    def test_no_change_has_both_reasons(self):
        self.assertFalse([change for change in CHANGES if change.same and change.tests_only])

    def test_the_counting_is_changed_in_each_of_its_files(self):
        files = {path.relative_to(TOP / "second/src").as_posix() for path in (TOP / "second/src/counts").glob("*.rs")}
        self.assertLessEqual(files - {"counts/mod.rs"}, {change.file for change in counts.CHANGES})
        self.assertLessEqual(set(counts.CHANGES), set(CHANGES))

    def test_the_line_is_changed_in_each_of_its_files(self):
        self.assertLessEqual({"line.rs", "serial.rs", "cuts.rs"}, {change.file for change in line.CHANGES})
        self.assertLessEqual(set(line.CHANGES), set(CHANGES))


class Trial(unittest.TestCase):
    """A changed program on batches of all programs."""

    def first_difference(self, **others):
        """The number of the first batch on which the stand-in differs from what the proved programs print, some of them others."""
        outputs = {program: others.get(program.name, text) for program, text in ALIKE.items()}
        batches = [Batch(number, "some sort", program, NO_LIST) for number, program in enumerate(outputs, 1)]
        with tempfile.TemporaryDirectory() as folder:
            workshop = Workshop(pathlib.Path(folder))
            workshop.program = pathlib.Path(folder) / "program"
            workshop.program.write_text(BY_ITS_WORDS)
            workshop.program.chmod(0o755)
            found = workshop.first_difference([(batch, Outcome(text, None)) for batch, text in zip(batches, outputs.values())])
            return found and found.number

    def test_each_batch_is_run_in_the_part_of_its_program(self):
        self.assertLessEqual(set(PROGRAMS), set(ALIKE))
        self.assertIsNone(self.first_difference())

    def test_the_first_batch_that_differs(self):
        self.assertEqual(self.first_difference(rooms="too long\n"), 2)
        self.assertEqual(self.first_difference(listing="end 0\n", rooms="too long\n"), 1)
        self.assertEqual(self.first_difference(counts="0 0 0 0 1 0 0\ntotal 0 0 0 0 1 0 0\n"), 3)
        self.assertEqual(self.first_difference(places="10\n"), 4)
        self.assertEqual(self.first_difference(serial="end 3\n"), 5)
        self.assertEqual(self.first_difference(cuts=""), 6)


class Told(unittest.TestCase):
    """What is told of a change."""

    CHANGE = Change("a.rs", "old", "new", "a fault")

    def test_batches_of_the_comparison_and_reports_into_places(self):
        self.assertEqual(named(Batch(7, "some sort", COUNTS, b"")), "batch 7")
        self.assertEqual(named(Batch(7, "some sort", PLACES, b"")), "places 7")

    def test_who_sees_a_change(self):
        batch = Batch(7, "some sort", LISTING, b"")
        self.assertEqual(MUTANTS["told"](Verdict(self.CHANGE, BY_COMPARISON, batch)), "batch 7")
        self.assertEqual(MUTANTS["told"](Verdict(self.CHANGE, BY_TESTS, None)), "tests only")
        self.assertEqual(MUTANTS["told"](Verdict(self.CHANGE, BY_NEITHER, None)), "NEITHER")

    def test_what_is_wrong_about_a_change(self):
        hidden = self.CHANGE._replace(tests_only="a reason")
        for by, change, wrong in ((BY_COMPARISON, self.CHANGE, None), (BY_TESTS, self.CHANGE, None), (BY_TESTS, hidden, None),
                                  (BY_NEITHER, self.CHANGE, "nobody sees it"),
                                  (BY_COMPARISON, hidden, "the table says that no batch can show it")):
            self.assertEqual(MUTANTS["mistake"](Verdict(change, by, None)), wrong)


class Proved(unittest.TestCase):
    """What the changed programs are compared with, with stand-ins for all that is proved."""

    def test_the_batches_of_the_gate_and_the_reports_into_places(self):
        stand_ins = {
            "find_kit": lambda: None, "c_compiler": lambda kit: [], "build_host": lambda kit, compiler, name: name,
            "running": lambda kit, program: ["linked", program], "outcome_on": lambda command, batch, reader: [*command, reader],
            "pairs_with": lambda kit: {program: mock.Mock(proved=[program.name]) for program in PROGRAMS},
        }
        with mock.patch.dict(MUTANTS["proved_outcomes"].__globals__, stand_ins):
            proved = MUTANTS["proved_outcomes"]()
        self.assertEqual([batch.number for batch, _ in proved[:MUTANTS["BATCHES"]]], list(range(1, MUTANTS["BATCHES"] + 1)))
        self.assertEqual({batch.program for batch, _ in proved}, {*PROGRAMS, PLACES})
        for batch, command in proved:
            self.assertEqual(command, ["linked", "places", "proved"] if batch.program is PLACES else [batch.program.name, "proved"])


if __name__ == "__main__":
    unittest.main()
