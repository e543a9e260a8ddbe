"""A small folder of examples in the place of the real one, for the tests of what examples are held to."""
from unittest import mock

import examples
from tests.trees import TreeTest


class ExamplesTest(TreeTest):
    """A test over a folder of examples: FILES, below examples/."""

    SOURCES = ("batch",)  # what the folder's examples are made from

    def setUp(self):
        super().setUp()
        folder = mock.patch.object(examples, "EXAMPLES", self.top / "examples")
        folder.start()
        self.addCleanup(folder.stop)

    def assertNames(self, words):
        """The folder is not taken, whichever examples are asked for, and the message has these words."""
        self.write()
        for source in self.SOURCES:
            with self.subTest(source), self.assertRaisesRegex(examples.Disagreement, words):
                examples.example_names(source)
