"""What the examples' files are held to, and what a trial of the desk is held to."""
import unittest

import examples
from desk.trials import TRIALS, Trial
from tests.examples_tree import ExamplesTest


class Examples(ExamplesTest):
    """A folder of one example."""

    FILES = {f"examples/one.{ending}": "a line\nanother\n" for ending in ("batch", *examples.MADE)}

    def test_a_whole_example(self):
        self.write()
        self.assertEqual(examples.example_names(), ["one"])
        examples.held("one", "hex", "a line\nanother\n")

    def test_a_file_that_is_missing(self):
        del self.files["examples/one.listing"]
        self.assertNames("examples/one.listing is missing")

    def test_a_file_of_no_example(self):
        self.files["examples/two.hex"] = ""
        self.assertNames("examples/two.hex belongs to no example")

    def test_no_examples(self):
        self.files = {"examples/one.hex": ""}
        self.assertNames("there are no examples")

    def test_texts_that_differ(self):
        self.write()
        for text, place in (("a line\nother\n", "line 2"), ("a line\n", "printed: .nothing."), ("a line\nanother\nmore\n", "due:     .nothing."),
                            ("a line\nanother", "line 3")):
            with self.subTest(text), self.assertRaisesRegex(examples.Disagreement, place):
                examples.held("one", "hex", text)


class Trials(unittest.TestCase):
    """What a call has to do to be as due."""

    def test_what_a_trial_takes(self):
        trial = Trial(("words", "x.batch"), 0, b"strike\n", ("one", "two"))
        self.assertTrue(trial.is_met_by(0, b"strike\n", "one and two"))
        for came in ((1, b"strike\n", "one and two"), (0, b"", "one and two"), (0, b"strike\n", "one")):
            self.assertFalse(trial.is_met_by(*came), came)
        self.assertFalse(Trial(("words",), 0, b"", ()).is_met_by(0, b"", "a word"))

    def test_wrong_input_prints_nothing(self):
        wrong = [trial for trial in TRIALS if trial.status == 2]
        self.assertGreater(len(wrong), 5)
        self.assertTrue(all(trial.printed == b"" and trial.said for trial in wrong))


if __name__ == "__main__":
    unittest.main()
