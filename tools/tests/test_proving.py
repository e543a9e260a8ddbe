"""What is told of a run of rt while it proves."""
import contextlib
import io
import os
import pathlib
import runpy
import signal
import subprocess
import threading
import time
import unittest
from unittest import mock

import proving
from checks.crates import needed
from commands import CannotRun
from progress import Progress
from tests.trees import TreeTest

RUN = runpy.run_path(str(proving.TOP / "tools" / "run"), run_name="run")
SAID = ("rt: chose --jobs 2 for basics\n", "fn basics::put: proved\n", "logic=proved functions=1\n", "rt: chose --jobs 2 for text\n",
        "logic=proved functions=2\n", None, "rt: chose --jobs 2 for listing\n", "logic=proved functions=3\n",
        "linked target=x86_64-unknown-linux-gnu files=out/listing.o\n", "rt: running out/listing; to give it other input, run that file yourself\n")


class Needed(TreeTest):
    """The crates that a program stands on."""

    FILES = {"crates.txt": "# a line\nbasics:\npen:\n\ntext: basics\nlisting: text\nrooms: text\n"}

    def test_all_below_in_their_order(self):
        self.write()
        self.assertEqual(needed(self.top, ["listing"]), ["basics", "text", "listing"])
        self.assertEqual(needed(self.top, ["rooms", "listing"]), ["basics", "text", "listing", "rooms"])


class Told(unittest.TestCase):
    """What somebody sees."""

    BELOW = {"basics": ["basics"], "text": ["basics", "text"], "listing": ["basics", "text", "listing"]}

    def told(self, lines, rewrites=False):
        """All that is told of lines of rt's; None is a moment in which it says nothing."""
        heard = io.StringIO()
        with contextlib.redirect_stderr(heard), mock.patch.object(proving, "needed", lambda top, names: self.BELOW[names[0]]), \
                mock.patch.object(proving, "lines_of", lambda process: iter(lines)):
            progress = Progress("desk")
            progress.rewrites = rewrites
            proving.Telling(progress, proving.Proving(["listing"]), ["listing"]).follow(None)
            progress.close()
        return heard.getvalue()

    def test_each_crate_that_is_proved(self):
        lines = self.told(SAID).splitlines()
        self.assertEqual(len(lines), 4)
        self.assertIn("proving and building listing", lines[0])
        self.assertIn("1 of 3 crates proved", lines[1])
        self.assertIn("3 of 3 crates proved", lines[3])

    def test_crates_below_that_were_proved_before(self):
        lines = self.told(SAID[6:]).splitlines()
        self.assertEqual(len(lines), 2)
        self.assertIn("3 of 3 crates proved", lines[1])

    def test_nothing_is_told_where_nothing_is_left_to_prove(self):
        self.assertEqual(self.told(["rt: nothing has changed since the last proved build, by out/listing.stamp, so nothing is checked now\n",
                                    "rt: running out/listing; to give it other input, run that file yourself\n"]), "")

    def test_on_a_terminal_each_moment_shows(self):
        told = self.told([SAID[3], None, None, SAID[4], None], rewrites=True)
        self.assertEqual(told.count("1 of 3 crates proved"), 2)
        self.assertEqual(told.count("2 of 3 crates proved"), 2)
        self.assertEqual(told.count("; now text"), 2)
        self.assertTrue(told.endswith(" \r"))

    def test_a_slow_machine_that_has_nothing_to_prove(self):
        self.assertEqual(self.told([None, None, None], rewrites=True), "")

    def test_elsewhere_something_is_told_now_and_then(self):
        with mock.patch.object(proving, "A_WHILE", -1):
            self.assertEqual(self.told([None, None]).count("0 of 3 crates proved"), 2)


class Turns(TreeTest):
    """Runs of rt, by one that says a word on both outputs and may make a file where it is run."""

    FILES = {"crates.txt": "text:\n", "crates/text/src/main.rt": "",
             "bin/rt": "#!/bin/sh\necho 'rt: a word' >&2\necho 'a line'\n[ -z \"$MADE\" ] || echo made >made\nexit ${STATUS:-0}\n"}

    def have_rt(self, task="run", **settings):
        """A run of it, from which the file 'made' is due."""
        self.write()
        (self.top / "bin/rt").chmod(0o755)
        environment = {**os.environ, "PATH": f"{self.top}/bin:{os.environ['PATH']}", **settings}
        with mock.patch.object(proving, "TOP", self.top), mock.patch.dict(os.environ, environment):
            proving.have_rt("desk", task, ["text"], lambda name: self.top / "crates" / name / "made")

    def test_a_run_that_ends_well(self):
        self.have_rt(MADE="yes")

    def test_a_run_that_fails(self):
        with self.assertRaisesRegex(CannotRun, "'rt run' in crates/text failed, saying:\nrt: a word$"):
            self.have_rt(STATUS="1")

    def test_a_program_that_is_built_and_ends_badly(self):
        self.files["bin/rt"] = self.files["bin/rt"].replace("a word", "running out/text; to give it other input, run that file yourself")
        self.have_rt(MADE="yes", STATUS="7")

    def test_a_library_that_fails(self):
        with self.assertRaisesRegex(CannotRun, "'rt lib' in crates/text failed, saying:\nrt: a word\na line$"):
            self.have_rt("lib", STATUS="1")

    def test_a_run_that_makes_nothing(self):
        with self.assertRaisesRegex(CannotRun, "ended well, but made no crates/text/made"):
            self.have_rt()

    def test_the_archive_is_handed_on_under_its_own_name(self):
        self.files["crates.txt"] = "exports_c staticlib:\n"
        self.files["crates/exports_c/out/libexports_c.a"] = "what is linked"
        self.write()
        (self.top / "bin/rt").chmod(0o755)
        with mock.patch.object(proving, "TOP", self.top), mock.patch.object(proving, "ARCHIVE", self.top / "target/libexports.a"), \
                mock.patch.dict(os.environ, {"PATH": f"{self.top}/bin:{os.environ['PATH']}"}):
            proving.prove_archive("desk")
        self.assertEqual((self.top / "target/libexports.a").read_text(), "what is linked")

    def test_one_at_a_time(self):
        self.write()
        heard, order = io.StringIO(), []
        with mock.patch.object(proving, "TOP", self.top), contextlib.redirect_stderr(heard):
            def second():
                with proving.in_turn(Progress("second")):
                    order.append("second")
            with proving.in_turn(Progress("first")):
                thread = threading.Thread(target=second)
                thread.start()
                patience = time.monotonic() + 60
                while not heard.getvalue() and time.monotonic() < patience:
                    time.sleep(0.01)
                order.append("first")
            thread.join()
        self.assertEqual(order, ["first", "second"])
        self.assertEqual(heard.getvalue(), "second: another run is proving here; waiting for it\n")


class Noted(TreeTest):
    """Programs that were proved, by a stand-in for rt that builds one and tells that it was called."""

    FILES = {
        "crates.txt": "low:\ntext: low\n", "crates/low/src/lib.rt": "// Low.\n", "crates/low/proofs/Low.antt": "-- Low.\n",
        "crates/text/src/main.rt": "// Text.\n", "crates/text/stdin": "",
        "bin/rt": '#!/bin/sh\n[ "$1" = version ] && exec cat "$TOP/version"\nmkdir -p out\necho built >out/text\necho "$1" >>"$TOP/calls"\n',
        "version": "a kit\n",
    }

    def calls(self):
        """What rt was asked to do where the program is wanted once more."""
        self.write()
        (self.top / "bin/rt").chmod(0o755)
        (self.top / "calls").write_text("")
        environment = {"PATH": f"{self.top}/bin:{os.environ['PATH']}", "TOP": str(self.top)}
        with mock.patch.object(proving, "TOP", self.top), mock.patch.object(proving, "NOTES", self.top / "target/proved"), \
                mock.patch("commands.TOP", self.top), mock.patch.dict(os.environ, environment):
            proving.prove("desk", ["text"])
        return (self.top / "calls").read_text().split()

    def test_once_is_enough(self):
        self.assertEqual([self.calls(), self.calls()], [["run"], []])

    def test_anything_that_changes(self):
        for path in ("crates/low/src/lib.rt", "crates/low/proofs/Low.antt", "crates/text/src/main.rt", "crates.txt", "version"):
            with self.subTest(path):
                self.calls()
                self.files[path] += "# more\n" if path == "crates.txt" else "// more\n"
                self.assertEqual([self.calls(), self.calls()], [["run"], []])

    def test_another_program_in_its_place(self):
        self.calls()
        (self.top / "crates/text/out/text").write_text("something else")
        self.assertEqual(self.calls(), ["run"])

    def test_no_program(self):
        self.calls()
        (self.top / "crates/text/out/text").unlink()
        self.assertEqual(self.calls(), ["run"])

    def test_what_it_does_not_rest_on(self):
        self.calls()
        self.files["crates/text/stdin"] = "more"
        self.assertEqual(self.calls(), [])

    def younger(self, *changed):
        """What is found to be younger than the program, where these files were changed after it was built, and no others."""
        self.calls()
        built = (self.top / "crates/text/out/text").stat().st_mtime_ns
        for path in self.files:
            time_of_it = built + (1 if path in changed else -1)
            os.utime(self.top / path, ns=(time_of_it, time_of_it))
        with mock.patch.object(proving, "TOP", self.top):
            found = proving.younger_than("text")
        return found and str(found.relative_to(self.top))

    def noted_by_hand(self, younger):
        """The status of `tools/run --note`, and the programs that it noted, where this file is younger than the program."""
        noted, note_all = [], RUN["note_all"]
        there = {"programs": lambda _: ["text"], "binary": lambda _: pathlib.Path(__file__), "younger_than": lambda _: younger, "note": noted.extend}
        with mock.patch.dict(note_all.__globals__, there), contextlib.redirect_stderr(io.StringIO()) as heard:
            status = note_all()
        return status, noted, heard.getvalue()

    def test_nothing_is_noted_of_a_program_that_is_older_than_a_source(self):
        self.assertEqual(self.noted_by_hand(None), (0, ["text"], ""))
        status, noted, said = self.noted_by_hand(proving.TOP / "crates/low/src/lib.rt")
        self.assertEqual((status, noted), (1, []))
        self.assertIn("crates/low/src/lib.rt was changed after text was built", said)

    def test_a_program_that_is_younger_than_its_sources(self):
        self.assertIsNone(self.younger())
        self.assertIsNone(self.younger("crates/text/stdin", "version"))

    def test_a_source_that_was_changed_after_the_program_was_built(self):
        for path in ("crates/low/src/lib.rt", "crates/low/proofs/Low.antt", "crates/text/src/main.rt", "crates.txt"):
            with self.subTest(path):
                self.assertEqual(self.younger(path), path)


class Stopped(unittest.TestCase):
    """Somebody stops a run while rt proves."""

    def test_what_rt_started_ends_too(self):
        with subprocess.Popen(["sh", "-c", "sleep 60 & echo begun; wait"], stdout=subprocess.PIPE, start_new_session=True) as process:
            with self.assertRaises(KeyboardInterrupt), proving.stopped_with_us(process):
                process.stdout.readline()
                os.kill(os.getpid(), signal.SIGTERM)
                time.sleep(60)
            self.assertEqual(process.stdout.read(), b"")  # whose end comes when the last that could write there is gone
        self.assertEqual(signal.getsignal(signal.SIGTERM), signal.SIG_DFL)

    def test_a_signal_that_is_not_heard_stays_so(self):
        before = signal.signal(signal.SIGHUP, signal.SIG_IGN)
        self.addCleanup(signal.signal, signal.SIGHUP, before)
        with proving.stopped_with_us(None):
            self.assertEqual(signal.getsignal(signal.SIGHUP), signal.SIG_IGN)


if __name__ == "__main__":
    unittest.main()
