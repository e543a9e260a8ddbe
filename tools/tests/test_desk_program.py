"""The desk program as a command: its help, how it ends, and what it needs."""
import os
import pty
import shutil
import subprocess
import sys
import tempfile
import unittest
from unittest import mock

from commands import TOP
from desk.commands import COMMANDS
from desk.files import read_batch
from desk.lines import BadInput
from desk.main import command_line, main
from desk.terminal import Paper

# It knows where the toolchain is, and proves nothing.
RT = f"""#!/bin/sh
case "$1" in doc) exec {shutil.which("rt")} doc ;; *) echo 'rt: text NOT PROVED' >&2; exit 1 ;; esac
"""


def desk(*words, path=os.environ["PATH"], given=b"", **more):
    """Runs it. Gives its status, and what it says on both outputs."""
    done = subprocess.run([sys.executable, TOP / "vorstelpijp", *words], input=given, capture_output=True, env={**os.environ, "PATH": path}, **more)
    return done.returncode, done.stdout.decode(), done.stderr.decode()


class Help(unittest.TestCase):
    """What a new user asks first."""

    def test_the_commands(self):
        status, printed, said = desk("--help")
        self.assertEqual((status, said), (0, ""))
        for command in COMMANDS:
            self.assertIn(f"{command.name} ", printed)
            self.assertIn(command.summary, printed)

    def test_each_command(self):
        for command in COMMANDS:
            with self.subTest(command.name):
                status, printed, _said = desk(command.name, "--help")
                self.assertEqual(status, 0)
                self.assertIn(command.about.splitlines()[0], printed)

    def test_no_line_of_help_is_wider_than_a_terminal(self):
        parser = command_line()
        texts = [parser.format_help(), *(command.about + command.more for command in COMMANDS)]
        self.assertEqual([line for text in texts for line in text.splitlines() if len(line) > 80], [])


class Ends(unittest.TestCase):
    """How it ends where not all is there."""

    def test_without_the_toolchain(self):
        status, printed, said = desk("listing", "--as", "words", "-", path="/nowhere", given=b"strike\n")
        self.assertEqual((status, printed), (1, ""))
        self.assertEqual(said, "vorstelpijp: the command rt is not on the PATH\n")

    def test_a_wrong_input_is_told_before_anything_is_run(self):
        status, printed, said = desk("listing", "--as", "words", "-", path="/nowhere", given=b"stike\n")
        self.assertEqual((status, printed), (2, ""))
        self.assertIn("standard input, line 1", said)

    def test_words_and_hex_need_no_toolchain(self):
        for command, printed in (("words", "strike\n"), ("hex", "04000000  # strike\n"), ("bytes", "\x04\0\0\0")):
            with self.subTest(command):
                self.assertEqual(desk(command, "--as", "hex", "-", path="/nowhere", given=b"04000000"), (0, printed, ""))

    def test_a_program_that_is_not_proved(self):
        with tempfile.TemporaryDirectory() as folder:
            path = os.path.join(folder, "rt")
            with open(path, "w", encoding="ascii") as file:
                file.write(RT)
            os.chmod(path, 0o755)
            status, printed, said = desk("listing", "--as", "hex", "-", path=f"{folder}:{os.environ['PATH']}", given=b"04000000")
        self.assertEqual((status, printed), (1, ""))
        self.assertIn("'rt run' in crates/listing failed", said)
        self.assertIn("rt: text NOT PROVED", said)

    def test_an_output_that_is_full(self):
        with open("/dev/full", "wb") as full:
            done = subprocess.run([sys.executable, TOP / "vorstelpijp", "words", "--as", "bytes", "-"], input=b"\x04\0\0\0", stdout=full,
                                  stderr=subprocess.PIPE)
        self.assertEqual(done.returncode, 1)
        self.assertIn(b"standard output cannot be written", done.stderr)

    def test_an_output_that_nobody_reads(self):
        read, written = os.pipe()
        os.close(read)
        with open(written, "wb") as pipe:
            done = subprocess.run([sys.executable, TOP / "vorstelpijp", "words", "--as", "bytes", "-"], input=b"\x04\0\0\0", stdout=pipe, stderr=subprocess.PIPE)
        self.assertEqual((done.returncode, done.stderr), (1, b""))

    def test_an_output_that_is_the_input(self):
        with tempfile.TemporaryDirectory() as folder:
            path = os.path.join(folder, "own.batch")
            with open(path, "wb") as file:
                file.write(b"strike\n")
            with open(path, "ab") as file:
                done = subprocess.run([sys.executable, TOP / "vorstelpijp", "words", path], stdout=file, stderr=subprocess.PIPE)
            self.assertEqual(done.returncode, 2)
            self.assertIn(b"this very file", done.stderr)
            with open(path, "rb") as file:
                self.assertEqual(file.read(), b"strike\n")

    def test_an_output_that_is_closed(self):
        words = [sys.executable, TOP / "vorstelpijp", "words", TOP / "examples" / "march.batch"]
        done = subprocess.run(["sh", "-c", 'exec "$@" >&-', "sh", *words], stderr=subprocess.PIPE)
        self.assertEqual(done.returncode, 1)
        self.assertIn(b"standard output cannot be written", done.stderr)

    def test_bytes_are_not_for_a_terminal(self):
        try:
            leader, terminal = pty.openpty()
        except OSError as problem:
            self.skipTest(f"there is no terminal to be had here: {problem}")
        done = subprocess.run([sys.executable, TOP / "vorstelpijp", "bytes", "--as", "hex", "-"], input=b"04000000", stdout=terminal, stderr=subprocess.PIPE)
        os.close(terminal)
        os.close(leader)
        self.assertEqual(done.returncode, 2)
        self.assertIn(b"NEW.bin", done.stderr)

    def test_an_input_that_never_ends(self):
        with mock.patch("desk.files.MOST_STREAM", 1000):
            with self.assertRaisesRegex(BadInput, "more than 1,000 bytes have come"):
                read_batch("/dev/zero", "bytes")

    def test_a_terminal_that_wants_no_weight(self):
        for settings, heavy in (({"TERM": "xterm"}, True), ({"TERM": "dumb"}, False), ({"TERM": "xterm", "NO_COLOR": "1"}, False)):
            with self.subTest(settings), mock.patch("os.isatty", lambda number: True), mock.patch.dict(os.environ, settings, clear=True):
                self.assertEqual(Paper.of_output().heavy, heavy)
        with mock.patch("os.isatty", lambda number: False):
            self.assertIsNone(Paper.of_output().width)

    def test_somebody_stops_it(self):
        with mock.patch("desk.main.run", side_effect=KeyboardInterrupt), mock.patch("desk.main.tell") as told:
            self.assertEqual(main(["words", "x.batch"]), 130)
        self.assertIn("stopped", told.call_args.args[0])


if __name__ == "__main__":
    unittest.main()
