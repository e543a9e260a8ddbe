"""What tools/check-edits refuses, on a small repository and on logs of each kind."""
import itertools
import os
import unittest
from unittest import mock

from checks import edits, tries
from tests.trees import TreeTest

EDIT = "crates/alpha/must-fail/wrong.edit"
SPECS = "crates/alpha/must-fail/false.edit"
LIB = "crates/alpha/src/lib.rt"
WHERE = "./proofs/one/Answers.antt:9:13: error: "
LAWS = "./proofs/Laws.antt:9:13: error: "
REFUSED = "fn alpha::one: not proved\nlogic=not-proved\n"
FACT = WHERE + "`returns`: `search`: no proof of `x ≡ y`\n" + REFUSED

FILES = {
    "crates.txt": "alpha:\n",
    LIB: "// One.\npub fn one(x: u8) -> u8\n    ensures { result ≡ one_of x }\n{\n    x + 1 // one more\n}\n",
    "crates/alpha/specs/One.antt": "-- One.\npub one_of : ℕ → ℕ\none_of x = x + 1\n",
    "crates/alpha/proofs/One.antt": "-- Proofs.\n",
    EDIT: "# two more\nfile: src/lib.rt\nold:     x + 1\nnew:     x + 2\n",
    SPECS: "# a false statement\nfile: specs/One.antt\nold: one_of x = x + 1\nnew: one_of x = x + 2\n",
}


class EditsTest(TreeTest):
    """A base for the tests of this file."""

    FILES = FILES

    def wrong(self):
        """What the check before the proofs finds."""
        return edits.check_static(self.top)[0]


class Static(EditsTest):
    """Where an edit may edit, and that it edits something."""

    def test_the_tree(self):
        self.assertRight()

    def test_an_edit_of_a_proof(self):
        self.edit(EDIT, "file: src/lib.rt", "file: proofs/One.antt")
        self.edit(EDIT, "    x + 1", "-- Proofs")
        self.assertWrong("is no file in src/ or specs/")

    def test_a_way_round_by_dots(self):
        for path in ("src/../proofs/One.antt", "specs/./../proofs/One.antt", "src//lib.rt", "/src/lib.rt", "src"):
            with self.subTest(path):
                self.files[EDIT] = FILES[EDIT].replace("file: src/lib.rt", f"file: {path}")
                self.assertWrong("is no file in src/ or specs/")

    def test_a_file_that_is_none(self):
        self.edit(EDIT, "file: src/lib.rt", "file: src/none.rt")
        self.assertWrong("there is no file src/none.rt")

    def test_an_edit_of_white_space(self):
        self.edit(EDIT, "new:     x + 2", "new:       x   +   1")
        self.assertWrong("nothing of src/lib.rt but comments or white space")

    def test_an_edit_of_a_comment(self):
        self.edit(EDIT, "old:     x + 1\nnew:     x + 2", "old: // one more\nnew: // two more")
        self.assertWrong("nothing of src/lib.rt but comments or white space")

    def test_an_edit_that_adds_a_comment(self):
        self.edit(EDIT, "new:     x + 2", "new:     x /* and */ + 1")
        self.assertWrong("nothing of src/lib.rt but comments or white space")

    def test_an_edit_of_a_comment_in_a_definition(self):
        self.edit(SPECS, "old: one_of x = x + 1\nnew: one_of x = x + 2", "old: -- One.\nnew: -- Two.")
        self.assertWrong("nothing of specs/One.antt but comments or white space")

    def test_an_edit_that_takes_itself_back(self):
        self.files[EDIT] += "old:     x + 2\nnew:     x + 1\n"
        self.assertWrong("all in all it changes nothing")

    def test_a_text_that_is_not_there(self):
        self.edit(EDIT, "old:     x + 1", "old:     x + 7")
        self.assertWrong("0 times, and not once")

    def test_an_edit_without_a_pair(self):
        self.files[EDIT] = "# nothing\nfile: src/lib.rt\n"
        self.assertWrong("it has no `old:` and `new:` pair")

    def test_a_changed_rule_beside_something_else(self):
        self.files[SPECS] += FILES[EDIT]
        self.assertWrong("it changes a rule and something beside it")

    def test_two_replacements_in_one_function(self):
        self.edit(LIB, "    x + 1 // one more\n", "    let y = x;\n    y + 1\n")
        self.files[EDIT] = "file: src/lib.rt\nold: y + 1\nnew: y + 2\nold: let y = x\nnew: let y = 3\n"
        self.assertWrong(f"{EDIT}: one has two of its replacements, so one could hide the other")
        self.files[LIB] = self.files[LIB].replace("    y + 1\n", "    two_of(y)\n") + "\nfn two_of(y: u8) -> u8 {\n    y + 1\n}\n"
        self.assertRight()

    def test_an_edit_in_a_crate_that_is_not_listed(self):
        self.files["crates/beta/must-fail/wrong.edit"] = FILES[EDIT]
        self.assertWrong("an edit here is not tried")

    def test_an_edit_in_another_folder(self):
        self.files["crates/alpha/must-fail/more/wrong.edit"] = FILES[EDIT]
        self.assertWrong("an edit here is not tried")

    def test_another_file_among_the_edits(self):
        self.files["crates/alpha/must-fail/wrong.edits"] = FILES[EDIT]
        self.assertWrong("no must-fail edit")


class Said(EditsTest):
    """What rt ci says of each edit."""

    LINE = "rt: must-fail alpha/{}.edit: {}"
    FACT = "refused, as it must be: ./proofs/one/Answers.antt:8:13: error: `returns`: `search`: no proof of `x ≡ y`"

    def setUp(self):
        super().setUp()
        self.said = {"wrong": self.FACT, "false": self.FACT}

    def wrong(self):
        """What the check finds in rt ci's output."""
        lines = ["== alpha", "fn alpha::one: proved", *(self.LINE.format(*one) for one in self.said.items()), "2 passed, 0 failed"]
        return edits.check_said(self.top, "\n".join(lines))[0]

    def assertSaid(self, said, words):
        """What is said of an edit is no reason that shows anything."""
        self.said["wrong"] = said
        self.assertWrong(f"crates/alpha/must-fail/wrong.edit: {words}")

    def test_the_tree(self):
        self.assertRight()
        self.assertEqual(edits.check_said(self.top, "\n".join(self.LINE.format(*one) for one in self.said.items()))[1], {"search": 2})

    def test_nothing_is_said(self):
        del self.said["wrong"]
        self.assertWrong("wrong.edit: it was not tried")

    def test_an_edit_that_was_not_refused(self):
        self.assertSaid("NOT REFUSED: the crate is still proved with this edit", "it was not refused")
        self.assertSaid("BAD EDIT: an 'old:' text is in src/lib.rt 0 times, and not once", "it was not refused")
        self.assertSaid("NOT TRIED: its check was killed", "it was not refused")

    def test_a_name_that_the_edit_took_away(self):
        self.assertSaid("refused, as it must be (only because a proof file names what the edit took away, so this says little of the contract: "
                        "change a value and keep the names): ./proofs/one/Answers.antt:8:13: error: `x` is not in scope",
                        "refused for its shape (a name that is not there), which shows nothing: ./proofs/one/Answers.antt:8:13: error: `x` is not")

    def test_a_limit_of_the_prover(self):
        self.assertSaid("refused, as it must be (only by a limit of the prover, which gave no verdict, so this says less of the contract: choose "
                        "a change that it refuses sooner): ./proofs/Laws.antt:8:1: error: `law`: antt ran out of the steps",
                        "refused for its shape (a bound of the prover)")

    def test_no_reason(self):
        self.assertSaid("refused, as it must be", "rt ci names no fact that it is refused for")

    def test_a_shape(self):
        self.assertSaid("refused, as it must be: ./specs/One.antt:3:1: error: `one_of`: expected type `ℕ`, but this has type `Bool`",
                        "refused for its shape (a definition that is not well formed)")
        self.assertSaid("refused, as it must be: ./proofs/Laws.antt:8:1: error: `law`: this λ has 3 binders, but its type has room for only 2",
                        "refused for its shape (another number of arguments)")

    def test_what_is_not_known(self):
        self.assertSaid("refused, as it must be: ./proofs/Laws.antt:8:1: error: `law`: the moon is blue", "refused by what is not known to be a fact")

    def test_facts(self):
        said = {
            "note: src/lib.rt:2:1: it is not proved that what the function ensures holds when it returns (`returns-then`); the facts known there": "returns",
            "note: src/lib.rt:2:1: it is not proved that what `two` requires holds at this call (`two-requires`)": "safety",
            "./proofs/one/Answers.antt:7:13: error: `returns`: as printed, the two types differ only where one has `(one_of c.args.self)`": "differ",
            "./proofs/Laws.antt:22:23: error: `law`: computed as far as they go, the two types differ only where one has `1` (expected) and the": "differ",
            "./proofs/Laws.antt:45:53: error: `law`: `omega`: the goal does not follow from what it read. All of that holds, and the go": "omega",
            "./proofs/Laws.antt:17:44: error: `law`: `grind` found no proof. It did not look into `length c.args.cut.now`, nor every instance": "grind",
            "./proofs/Laws.antt:14:19: error: `law`: give a proof of that as the last argument, `rw L t` (`rw L ?` shows it as a hole's goal)": "rewrite",
            "./proofs/Laws.antt:32:32: error: `law`: expected type `Within (moved_of r s)`, but this has type `Within (top_of r)`": "type",
        }
        for words, name in said.items():
            with self.subTest(words):
                self.assertEqual(edits.check_line("refused, as it must be: " + words), (name, ""))


class Tried(EditsTest):
    """Edits that are tried here, by a stand-in for rt that says what a file of its crate has and how it was called."""

    FILES = {
        **FILES, "crates.txt": "below:\nalpha: below\nabove: alpha\n", "crates/below/src/lib.rt": "// Below.\n", "crates/below/out/rlib/stamp": "built",
        "crates/alpha/out/log": "not taken", "crates/above/src/lib.rt": "// Above.\n",
        "bin/rt": "#!/bin/sh\necho \"$PWD $*\" >>\"$CALLS\"\nls ../* ../below/out/* >>\"$CALLS\"\ngrep 'x + 2' src/lib.rt >>\"$CALLS\"\ncat \"$LOG\"\n",
        "log": FACT,
    }

    def tries(self, whole=True):
        """Tries all edits. Gives what is wrong, how many there are of each class, and what rt was called with."""
        self.write()
        (self.top / "bin/rt").chmod(0o755)
        settings = {"PATH": f"{self.top}/bin:{os.environ['PATH']}", "LOG": str(self.top / "log"), "CALLS": str(self.top / "calls")}
        with mock.patch.dict(os.environ, settings):
            wrong, counts = tries.check(self.top, edits.edits_of(self.top)[0], whole, lambda path, faults: None)
        return wrong, counts, (self.top / "calls").read_text()

    def test_a_fact(self):
        wrong, counts, calls = self.tries()
        self.assertEqual((wrong, counts), ([], {"search": 2}))
        self.assertEqual(calls.count("    x + 2"), 1)  # the one edit's text, and taken back for the other

    def test_the_folder(self):
        _wrong, _counts, calls = self.tries()
        self.assertIn("../below/out/rlib", calls)
        self.assertNotIn("../above", calls)
        self.assertNotIn("must-fail\n", calls)
        self.assertEqual((self.top / LIB).read_text(), FILES[LIB])

    def test_a_shape(self):
        self.files["log"] = LAWS + "`law`: this λ has 3 binders, but its type has room for only 2\n" + REFUSED
        wrong, counts, _ = self.tries()
        self.assertEqual(len(wrong), 2)
        self.assertIn("crates/alpha/must-fail/wrong.edit: refused for its shape", wrong[1])
        self.assertFalse(counts)

    def test_functions_alone(self):
        _wrong, _counts, calls = self.tries(whole=False)
        self.assertIn("crates/alpha check --only one\n", calls)
        self.assertIn("crates/alpha check\n", calls)  # of a definition there is no function

    def test_a_name_of_two_functions(self):
        self.files["log"] = "rattle: error: several functions are named `one`: help: write one of `alpha::one`, `alpha::two::one`\n"
        wrong, _counts, calls = self.tries(whole=False)
        self.assertEqual(calls.count("crates/alpha check --only one\n"), 1)
        self.assertEqual(calls.count("crates/alpha check\n"), 2)  # of that edit too all is asked then
        self.assertEqual(len(wrong), 2)  # and once only: what is said is no refusal

    def test_what_is_built_before(self):
        self.files["crates.txt"] = "base:\nbelow: base\nother:\nalpha: below\nabove: alpha other\n"
        self.write()
        self.assertEqual(tries.below(self.top, ["alpha"]), ["below"])
        self.assertEqual(tries.below(self.top, ["alpha", "above"]), ["other", "alpha"])
        self.assertEqual(tries.below(self.top, ["base"]), [])

    def test_an_edit_that_cannot_be_made(self):
        self.edit(EDIT, "old:     x + 1", "old:     x + 7")
        self.assertIn("0 times, and not once", self.tries()[0][0])


class LogsOfChecks(unittest.TestCase):
    """What a whole log has to say."""

    def test_a_log_that_says_proved(self):
        for log in ("fn alpha::one: proved\nlogic=proved\n", FACT.replace("logic=not-proved", "only=2 proved=2")):
            self.assertIn("does not say that the prover refused it", edits.check_log(log)[1][0])

    def test_functions_alone(self):
        self.assertEqual(edits.check_log(FACT.replace("logic=not-proved", "only=2 proved=1")), ("search", []))

    def test_an_answer_whose_goal_is_gone(self):
        gone = WHERE + "`returns-2`: `goal.returns-2`: module `Rattle.alpha.proofs.one.Goals` has no `returns-2` that can be named from here\n"
        self.assertEqual(edits.check_log(gone + FACT), ("search", []))
        self.assertEqual(edits.check_log(gone + REFUSED), ("", ["its log names no fact that it is refused for"]))
        self.assertIn("refused for its shape", edits.check_log(gone.replace("one/Answers", "Laws") + FACT)[1][0])


class Several(unittest.TestCase):
    """Of several replacements each is refused for a fact of its own."""

    NOTE = "note: src/lib.rt:2:1: it is not proved that what the function ensures holds when it returns (`returns`)\n"
    OPEN = "fn alpha::{0}: no proof: expected answers in ./proofs/{0}/Answers.antt; `search` did not prove `returns`\n"

    def assertHidden(self, log, places, what):
        """One of the replacements has no fact of its own."""
        self.assertIn(what, " ".join(edits.check_log(log, places)[1]))

    def assertSeen(self, log, places):
        """Each has one."""
        self.assertEqual(edits.check_log(log, places)[1], [])

    def of_two(self):
        """A log with a fact of each of two functions, the one from its proof and the other from a note."""
        return FACT.replace(REFUSED, "") + "fn alpha::one: not proved\n" + self.NOTE + self.OPEN.format("two") + "logic=not-proved\n"

    def test_one_fact(self):
        self.assertSeen(FACT, ["one"])
        self.assertHidden(FACT, ["one", "two"], "one of its 2 replacements may be hidden: no fact is of two")

    def test_a_fact_of_each(self):
        self.assertSeen(self.of_two(), ["one", "two"])
        self.assertHidden(self.of_two(), ["one", "three"], "no fact is of three")

    def test_two_facts_of_one_function(self):
        self.assertHidden(FACT + FACT, ["one", "two"], "no fact is of two")
        self.assertHidden(FACT.replace(REFUSED, "") + self.NOTE + REFUSED, ["one", ""], "no fact is of a constant alone")

    def test_two_replacements_in_one_function(self):
        self.assertHidden(self.of_two(), ["one", "one"], "one has two of its replacements")

    def test_a_name_that_another_ends_with(self):
        log = self.NOTE + self.OPEN.format("Two::one") + self.NOTE + self.OPEN.format("no_one") + "logic=not-proved\n"
        self.assertSeen(log, ["Two::one", "no_one"])
        self.assertHidden(log, ["Three::one", "no_one"], "no fact is of Three::one")

    def test_a_constant(self):
        self.assertSeen(self.of_two(), ["one", ""])
        self.assertHidden(self.of_two(), ["one", "", ""], "no fact is of a constant alone")

    def test_facts_of_laws(self):
        law = FACT.replace("proofs/one/Answers.antt", "proofs/Laws.antt").replace(REFUSED, "")
        self.assertHidden(law + law.replace(":9:", ":19:") + FACT, ["one", ""], "no fact is of a constant alone")


class Places(EditsTest):
    """Where a replacement stands."""

    def places(self, *old):
        """The places of replacements of these texts, in a source that has a constant, a function and one of a type."""
        file = "const TWO: u8 = 2;\n\nfn one(x: u8) -> u8\n    ensures { result ≡ x }\n{\n    x + 0\n}\n\nimpl Two {\n    fn one() -> u8\n    {\n        1\n    }\n}\n"
        file += "\nimpl From<Two> for u8 {\n    fn from(two: Two) -> u8 {\n        22\n    }\n}\n"
        file += "\nimpl From<[u8; 4]> for Two {\n    fn from(four: [u8; 4]) -> Two {\n        44\n    }\n}\n"
        self.files[LIB] = file
        self.write()
        text = "file: src/lib.rt\n" + "".join(f"old: {words}\nnew: {words}9\n" for words in old)
        return list(edits.places_of(self.top / "crates/alpha", text))

    def test_places(self):
        self.assertEqual(self.places("    x + 0", "        1", "const TWO: u8 = 2", "fn one(x: u8)"), ["one", "Two::one", "", ""])

    def test_places_in_the_impl_of_a_trait(self):
        self.assertEqual(self.places("        22", "        44"), ["U8FromTwo::from", "TwoFromArrayU84::from"])


class Classes(unittest.TestCase):
    """The classes of what the prover says."""

    def assertShape(self, *said):
        """Each of these is of a shape, also behind a fact."""
        for words in said:
            with self.subTest(words):
                self.assertIn("refused for its shape", " ".join(edits.check_log(FACT.replace(REFUSED, "") + WHERE + words + "\n" + REFUSED)[1]))

    def test_a_definition_that_is_not_well_formed(self):
        log = "./specs/One.antt:3:1: error: `one_of`: expected type `ℕ`, but this has type `Bool`\n" + REFUSED
        self.assertIn("a definition that is not well formed", edits.check_log(log)[1][0])

    def test_names(self):
        self.assertShape(
            "`returns`: `one_of` is not in scope; did you mean `two_of`?",
            "`returns`: record `Controller` has no field `scan`",
            "`returns`: `c .before` has no field `add`; its type is `Given`",
            "`returns`: `Kind` is private to `alpha.Kinds` and the modules below it; to be named from here it wants `pub`",
            "module `alpha.specs.None`: not found: the crate `alpha` has no `None`",
        )

    def test_arguments(self):
        self.assertShape(
            "`returns`: this is applied to an argument but has type `ℕ`, which is not a function or extension (path) type",
            "`returns`: `At` takes 2 field(s) but is given 1",
            "`returns`: this λ has 3 binders, but its type has room for only 2",
        )

    def test_facts_of_another_form(self):
        self.assertShape(
            "`returns`: computed as far as they go, the two types are `a ≡ b` (expected) and `a ≡ b → ⊥` (found)",
            "`returns-2`: a dimension (`0`, `1` or an interval variable) is expected here",
            "`returns`: as printed, the two types first differ where one has `reads.Post`\n  (expected), at the start, and the other has"
            " `mathlib.Core.Path.◌≡◌` (found)",
        )

    def test_a_form_that_is_computed_to_a_value(self):
        log = WHERE + "`returns`: as printed, the two types first differ where one has `Path` (expected), at the start, and the other has"
        log += " `mathlib.Core.Path.◌≡◌` (found)\n  computed as far as they go, the two types differ only where one has `0` (expected)\n"
        self.assertEqual(edits.check_log(log + REFUSED), ("differ", []))

    def test_text(self):
        self.assertShape("expected an expression here", "syntax error: unexpected `)`", "`cc` met a bound of its own", "`returns`: no occurrence of `x`")

    def test_facts(self):
        said = {
            "`returns`: `search`: no proof of `is not in scope x ≡ y`": "search",
            "`returns`: `omega`: the goal does not follow from what it read. All of that holds, and the goal fails, at `x` = 0": "omega",
            "`add-k`: `omega`: the part `.fits` of the goal does not follow from what it read. All of that holds, and the part fails, at `x`": "omega",
            "`returns`: `grind` found no proof. It did not look into `length a`, so this may not break the goal: the goal fails at `x` = `true`": "grind",
            "`loop-again`: computed as far as they go, the two types differ only where one has `0` (expected) and the other has `1` (found)": "differ",
            "`returns`: as printed, the two types first differ where one has `0`": "differ",
            "`loop-i-preserved`: as printed, the two sides first differ where one has `(one_of n)` (expected)": "differ",
            "`returns`: `rw` has no last argument, so what it leaves must be a path whose two ends are equal, and `Path ℕ 1 2` is none": "rewrite",
            "`above`: expected type `8 < kind`, but this has type `9 < kind`": "type",
        }
        for words, name in said.items():
            with self.subTest(words):
                self.assertEqual(edits.check_log(WHERE + words + "\n" + REFUSED), (name, []))

    def test_sentences_in_any_order_and_lines_broken_anywhere(self):
        several = {
            ("differ", ""): (
                "computed as far as they go, the two types are `suc n ≤ 127` (expected) and `suc n ≤ 128` (found)",
                "expected type `n < 127`, but this has type `n < 128`",
            ),
            ("", "a test turned round"): (
                "computed as far as they go, the two types are `T b` (expected) and `T b → ⊥` (found)",
                "expected type `holds b`, but this has type `fails b`",
            ),
            ("", "a statement of another form"): (
                "as printed, the two types first differ where one has `reads.Post` (expected), at the start, and the other has `Path` (found)",
                "expected type `reads.Post x`, but this has type `Path ℕ 1 2`",
            ),
            ("", "another number of arguments"): (
                "this λ has 3 binders, but its type has room for only 2",
                "expected type `ℕ → ℕ → ℕ`",
            ),
            ("rewrite", ""): (
                "`rw` has no last argument, so what it leaves must be a path whose two ends are equal, and `Path ℕ 1 2` is none",
                "give a proof of that as the last argument, `rw L t` (`rw L ?` shows it as a hole's goal), or add what is missing to the list",
            ),
            ("type", ""): (
                "expected type `Shows 1 64`, but this has type `lines 192 ≡ lines 192`",
                "what the two types compute to is not shown, because neither could be computed (expected: computing it took more than 9 steps)",
            ),
        }
        for (fact, shape), sentences in several.items():
            for said in itertools.permutations(sentences):
                for space in (" ", "\n  "):
                    with self.subTest(said):
                        words = " ".join(("`returns`:", *said)).replace(" ", space)
                        first, wrong = edits.check_log(WHERE + words + "\n" + REFUSED)
                        self.assertEqual(first, fact)
                        self.assertIn(shape, " ".join(wrong))
                        self.assertEqual(bool(shape), bool(wrong))

    def test_a_promise_that_does_not_follow(self):
        log = "fn alpha::two: proved\nnote: src/lib.rt:2:1: it is not proved that what the function ensures holds when it returns (`returns`)\n"
        log += "fn alpha::one: no proof: expected answers in ./proofs/one/Answers.antt; `search` did not prove `returns`\nlogic=not-proved\n"
        self.assertEqual(edits.check_log(log), ("returns", []))

    def test_only_what_follows(self):
        log = WHERE + "1 declaration that depends on `returns`, which was not admitted, was not checked: returns\n"
        self.assertEqual(edits.check_log(log + REFUSED), ("", ["its log names no fact that it is refused for"]))

    def test_what_follows_beside_a_fact(self):
        log = "fn alpha::two: no proof: it calls `alpha::one`, which is not proved\n"
        self.assertEqual(edits.check_log(FACT + log), ("search", []))

    def test_what_is_not_known(self):
        self.assertIn("not known to be a fact", edits.check_log(WHERE + "`returns`: the moon is blue\n" + REFUSED)[1][0])

    def test_a_function_without_a_proof(self):
        log = "fn alpha::one: no proof: the borrow checker does not cover this function yet: loops\nlogic=not-proved\n"
        self.assertIn("refused for its shape", edits.check_log(log)[1][0])
