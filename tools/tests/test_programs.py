"""What counts as a program that ended well, how the programs are built, and with which words they run."""
import contextlib
import io
import pathlib
import sys
import unittest
from unittest import mock

import programs
from commands import TOP
from compared import NAMES, PROGRAMS
from kit import Kit
from programs import SECOND, in_order, outcome_of, pairs_with, problem_of

SETTING = "QEMU_LOG"
TELLS_SETTING = f"import os; print(os.environ.get('{SETTING}'))"
LOUD = "import sys; print('end 0'); print('a word', file=sys.stderr)"
SLOW = "import time; time.sleep(60)"


class Programs(unittest.TestCase):
    """Status, standard error and time of a program."""

    def test_only_status_0_and_an_empty_standard_error_are_well(self):
        self.assertIsNone(problem_of(0, b""))
        self.assertEqual(problem_of(0, b"a word\n"), "ended well, but said on standard error: a word")
        self.assertEqual(problem_of(0, b"\n"), "ended well, but said on standard error: an empty line")
        self.assertEqual(problem_of(3, b""), "ended with status 3, saying: nothing")

    def test_a_word_on_standard_error_is_a_problem_beside_the_output(self):
        outcome = outcome_of([sys.executable, "-I", "-S", "-c", LOUD], b"")
        self.assertEqual(outcome, ("end 0\n", "ended well, but said on standard error: a word"))

    def test_a_program_that_hangs_is_stopped(self):
        outcome = outcome_of([sys.executable, "-I", "-S", "-c", SLOW], b"", 0.2)
        self.assertEqual(outcome, ("", "did not end within 0.2 seconds"))

    def test_a_program_gets_no_settings_of_the_emulator(self):
        with mock.patch.dict("os.environ", {SETTING: "cpu"}):
            outcome = outcome_of([sys.executable, "-I", "-S", "-c", TELLS_SETTING], b"")
        self.assertEqual(outcome, ("None\n", None))

    def test_work_is_given_back_in_its_order(self):
        self.assertEqual(list(in_order(lambda item: 2 * item, range(40))), list(range(0, 80, 2)))


class Words(unittest.TestCase):
    """The words that run each pair."""

    def test_the_kit_runs_the_proved_program_itself(self):
        for emulator in (None, "/kit/emulator"):
            pairs = pairs_with(Kit("a machine", pathlib.Path("/kit"), "/kit/linker", emulator))
            self.assertEqual(set(pairs), set(PROGRAMS))
            for program, pair in pairs.items():
                library = ["/kit/lib/ld-linux-x86-64.so.2", "--library-path", "/kit/lib"]
                self.assertEqual(pair.proved, ([emulator] if emulator else []) + library + [str(program.proved)])
                self.assertEqual((pair.program, pair.second), (program, program.second_words(SECOND)))


class Building(unittest.TestCase):
    """What is told and done, in its order, with stand-ins for the builds."""

    def setUp(self):
        self.done = []
        self.said = io.StringIO()
        for name in ("need", "see_built"):
            self.stand_in(name, lambda *_words: None)
        self.stand_in("quietly", lambda words, folder: self.done.append((words[:2], folder, self.said.getvalue())))
        self.stand_in("prove", lambda who, names: self.done.append((who, names)))

    def stand_in(self, name, work):
        """Puts something else in the place of a function, for one test."""
        patch = mock.patch.object(programs, name, work)
        patch.start()
        self.addCleanup(patch.stop)

    def test_it_is_told_what_is_built_before_it_is(self):
        with contextlib.redirect_stderr(self.said):
            programs.build("a tool")
        told = "a tool: building the second program with cargo\n"
        self.assertEqual(self.done, [(["cargo", "build"], TOP / "second", told), ("a tool", NAMES)])


if __name__ == "__main__":
    unittest.main()
