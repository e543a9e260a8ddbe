"""What tools/rests-on finds below a promise, a contract and a definition, and what the check of specs/private/ refuses, on a small repository."""

from unittest import mock

from checks import antt, places, restated
from checks.definitions import CodeType, stands_in, words_in
from checks.grounds import Grounds, Unknown
from checks.things import Things
from tests.trees import TreeTest

HIGH = "crates/beta/specs/High.antt"
SMALL = "crates/beta/specs/private/Small.antt"
FILES = {
    "crates.txt": "alpha:\nbeta: alpha\npromises: alpha beta\n",
    "crates/alpha/src/lib.rt": "pub struct Pair {\n    pub x: u8,\n}\n",
    "crates/alpha/specs/Lib.antt": "pub mod Choice\n",
    "crates/alpha/specs/Choice.antt": """-- Choices.
use mathlib.Core.Bool.{Bool, true, false}

-- the one or the other
-- by a test
infixr 5 when◌then◌else◌
unfoldable pub when◌then◌else◌ : {A : Type 0} → Bool → A → A → A
when true then x else y = x
when false then x else y = y

-- three ways
pub data Way : Type 0 where
  left : Way
  right : Way

-- nobody's
abbrev pub lost : ℕ → ℕ
lost x = x
""",
    "crates/beta/src/lib.rt": """ghost use Rattle.beta.specs.High.{high_of};
ghost use Rattle.beta.specs.private.Small.{Small};

pub fn high(x: u8) -> u8
    ensures { result ≡ high_of x }
{
    x
}

fn small(x: u8) -> u8
    ensures { Small x result }
{
    x
}
""",
    HIGH: """use Rattle.alpha.specs.Choice.{when◌then◌else◌, left}
use Rattle.alpha.specs.declared.Pair.{Pair}
use Rattle.beta.specs.Low.{low_of as low}

-- a number's high part; lowest is named in a comment only
unfoldable pub high_of : ℕ → ℕ
high_of x = when x then low x else 0

-- a statement
pub record High (p : Pair) : Type 0 where
  pub same : p.unread ≡ left

-- read as a field only
abbrev pub unread : ℕ
unread = 0
""",
    "crates/beta/specs/Low.antt": """-- its low part
abbrev pub low_of : ℕ → ℕ
low_of x = x

-- named by nothing public
abbrev pub lowest : ℕ
lowest = 0
""",
    SMALL: """use Rattle.beta.specs.High.{high_of}

-- what the code tells
pub record Small (x y : ℕ) : Type 0 where
  pub is : y ≡ high_of x
""",
    "crates/promises/src/lib.rt": "// No code.\n",
    restated.FILE: """use Rattle.beta.specs.High.{High}
use Rattle.beta.proofs.High.{high}
use Rattle.beta.proofs.high.Reads as BetaHigh
use Rattle.promises.specs.States.{States}

pub high-shown : (p : Pair) → High p
high-shown = high

pub high-given : States BetaHigh.Post (λ κs a r s. r ≡ r)
high-given κs a r s p = p
""",
}
IF = "alpha: when◌then◌else◌"


class GroundsTest(TreeTest):
    """A base for the tests over it."""

    FILES = FILES

    def grounds(self):
        """The repository read."""
        self.write()
        return Grounds(Things(self.top))

    def below(self, name):
        """What a name rests on: its definitions in their order, and its types."""
        grounds = self.grounds()
        found = grounds.definitions.rested_on(grounds.find(name)[1])
        types = {one for one in found if isinstance(one, CodeType)}
        return [str(one) for one in grounds.definitions.in_order(found - types)], types


class RestsOn(GroundsTest):
    """What stands below a name."""

    def test_a_definition_by_another_name_and_a_choice(self):
        self.assertEqual(self.below("beta: high_of"), ([IF, "beta: low_of", "beta: high_of"], set()))

    def test_a_constructor_stands_for_its_type(self):
        self.assertEqual(self.below("high-shown"), (["alpha: Way", "beta: High"], {CodeType("alpha", "Pair")}))

    def test_a_contract(self):
        self.assertEqual(self.below("beta::high"), self.below("beta: high_of"))

    def test_a_promise_that_is_a_contract(self):
        self.assertEqual(self.below("high-given"), self.below("beta::high"))

    def test_the_comment_and_the_text(self):
        one = self.grounds().definitions.find("alpha", "when◌then◌else◌")
        self.assertEqual(one.comment, "-- the one or the other\n-- by a test")
        self.assertEqual(one.text.split("\n")[0], "infixr 5 when◌then◌else◌")
        self.assertTrue(one.text.endswith("when false then x else y = y"))

    def test_names_without_a_mark_with_a_level_and_in_a_block(self):
        self.edit(HIGH, "high_of x = when x then low x else 0", "high_of x = plain (inner x)\n\nplain {ℓ} : ℕ → ℕ\nplain x = low x\n\n"
                  "-- both\nmodule _ (y : ℕ) where\n  outer : ℕ\n  outer = 0\n\n  inner : ℕ → ℕ\n  inner x = when x then y else 0")
        self.assertEqual(self.below("beta: high_of")[0], [IF, "beta: low_of", "beta: high_of", "beta: plain", "beta: outer"])

    def test_names_that_are_none(self):
        for name in ("low-given", "beta::small", "beta: none", "gamma: one", "high_of"):
            with self.subTest(name), self.assertRaises(Unknown):
                self.grounds().find(name)

    def test_the_private_ones(self):
        self.assertEqual([str(one) for one in self.grounds().private()],
                         ["alpha: lost", "beta: lowest", "beta: unread", "beta: Small"])

    def test_what_cannot_be_read(self):
        self.edit(HIGH, "use Rattle.alpha.specs.Choice.{when◌then◌else◌, left}", "use Rattle.alpha.specs.Choice.*")
        with self.assertRaisesRegex(antt.Unreadable, "crates/beta/specs/High.antt: line 1"):
            self.grounds()

    def test_words(self):
        self.assertEqual(words_in("f x .y = (λ a b. c) -- d"), {"f", "x", "=", "λ", "a", "b", "c"})
        self.assertTrue(stands_in("◌then◌", {"then"}))
        self.assertFalse(stands_in("when◌then◌else◌", {"then", "else"}))
        self.assertEqual(words_in("M.f x (N.M.g)"), {"M", ".f", "x", "N", ".M", ".g"})
        self.assertEqual(words_in("m.f (h x).g s.1.0.now"), {"m", "h", "x", "s"})
        self.assertFalse(stands_in("one_of", {"one", "of"}))


class Places(GroundsTest):
    """What stands in the wrong place."""

    def setUp(self):
        super().setUp()
        self.files["crates/alpha/specs/Choice.antt"] = FILES["crates/alpha/specs/Choice.antt"].partition("\n-- nobody's")[0]
        self.edit("crates/beta/specs/Low.antt", "\n-- named by nothing public\nabbrev pub lowest : ℕ\nlowest = 0\n", "")
        self.edit(HIGH, "\n-- read as a field only\nabbrev pub unread : ℕ\nunread = 0\n", "")

    def wrong(self):
        return list(places.check(Things(self.top)))

    def test_each_in_its_place(self):
        self.assertRight()

    def test_a_private_one_among_the_others(self):
        self.files[HIGH] += "\n-- more\nabbrev pub more : ℕ\nmore = 0\n"
        self.assertWrong("crates/beta/specs/High.antt:14: more belongs in specs/private/")

    def test_one_of_a_request_that_is_half_done(self):
        self.files[HIGH] += "\n-- more\nabbrev pub more : ℕ\nmore = 0\n"
        with mock.patch.object(places, "BEGUN", ("beta",)):
            self.assertRight()

    def test_a_public_one_among_the_private(self):
        self.edit(HIGH, "pub same : p.unread ≡ left", "pub same : Small p left")
        self.edit(HIGH, "{low_of as low}", "{low_of as low}\nuse Rattle.beta.specs.private.Small.{Small}")
        self.assertWrong("crates/beta/specs/private/Small.antt:4: Small stands in specs/private/, and a promise or a public contract rests on it")
