"""What the tests of the desk's commands share: files, a program that stands in for the proved one, and the desk without the toolchain."""
import os
import subprocess
import sys
import tempfile
import unittest
from unittest import mock

from commands import TOP
from desk.main import main


class FilesTest(unittest.TestCase):
    """A base for tests with files."""

    def setUp(self):
        folder = tempfile.TemporaryDirectory()
        self.addCleanup(folder.cleanup)
        self.folder = folder.name

    def path(self, name, content):
        """A file of a name."""
        path = os.path.join(self.folder, name)
        with open(path, "wb") as file:
            file.write(content)
        return path


class CommandTest(FilesTest):
    """A base for tests of a command whose program is not run."""

    COMMAND = ""
    ANSWER = ""  # what the program prints where nothing else is said

    def call(self, *words, answer=None):
        """Calls it, what the program prints being given. Gives its status, what it says on both outputs, and what the program was asked."""
        said = {1: b"", 2: b""}

        def write(number, data):
            """Keeps what would be written to an output."""
            said[number] += data
            return len(data)

        stands_in = mock.Mock(return_value=self.ANSWER if answer is None else answer)
        if isinstance(answer, Exception):
            stands_in.side_effect = answer
        with mock.patch(f"desk.commands.{self.COMMAND}.printed", stands_in), mock.patch("os.write", write), \
                mock.patch("os.isatty", lambda number: False):
            status = main([self.COMMAND, *words])
        return status, said[1].decode(), said[2].decode(), [call.args for call in stands_in.call_args_list]

    def assertNoCommandLine(self, *words):
        """The command does not take these words."""
        with self.subTest(words), mock.patch("sys.stderr"), self.assertRaises(SystemExit) as caught:
            main([self.COMMAND, *words])
        self.assertEqual(caught.exception.code, 2)


def desk_alone(*words, given=b""):
    """Runs the desk without the toolchain, for a terminal of 80 columns. Gives its status, and what it says on both outputs."""
    done = subprocess.run([sys.executable, TOP / "vorstelpijp", *words], input=given, capture_output=True,
                          env={**os.environ, "PATH": "/nowhere", "COLUMNS": "80"})
    return done.returncode, done.stdout.decode(), done.stderr.decode()


class HelpTest(unittest.TestCase):
    """A base for tests of a command's help."""

    def assertOnePage(self, command, *parts):
        """The help of a command fits on a page, and has these parts."""
        status, printed, said = desk_alone(command, "--help")
        self.assertEqual((status, said), (0, ""))
        lines = printed.splitlines()
        self.assertLessEqual(len(lines), 60)
        self.assertEqual([line for line in lines if len(line) > 80], [])
        self.assertEqual([part for part in parts if part not in printed], [])
