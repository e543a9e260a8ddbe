"""Small repositories in temporary folders, for the tests of the checks."""
import pathlib
import tempfile
import unittest


class TreeTest(unittest.TestCase):
    """A test over a small repository: FILES, by their paths, which a test may change before it is written out."""

    FILES = {}

    def setUp(self):
        self.files = dict(self.FILES)
        self.there = {}  # what was written out before
        folder = tempfile.TemporaryDirectory()
        self.addCleanup(folder.cleanup)
        self.top = pathlib.Path(folder.name)

    def edit(self, path, old, new):
        """Changes the one place of a file that has a text."""
        self.assertEqual(self.files[path].count(old), 1, f"{old!r} in {path}")
        self.files[path] = self.files[path].replace(old, new)

    def write(self):
        """Writes the files out that are not there yet as they are."""
        for path, text in self.files.items():
            if self.there.get(path) == text:
                continue
            self.there[path] = text
            (self.top / path).parent.mkdir(parents=True, exist_ok=True)
            (self.top / path).write_text(text)

    def wrong(self):
        """What the check under test finds; a test class says how."""
        raise NotImplementedError

    def assertRight(self):
        """The check finds nothing."""
        self.write()
        self.assertEqual(self.wrong(), [])

    def assertWrong(self, words):
        """The check finds something that says these words."""
        self.write()
        found = self.wrong()
        self.assertTrue(any(words in line for line in found), f"{words!r} is not among {found}")
