"""How antt's text is read."""
import unittest

from checks import antt

TEXT = '''-- commented : ℕ
{- blocked : ℕ -}
use Rattle.std.specs.Prelude.{◌≡◌}

pub record Pair (k : ℕ)
    (l : ℕ) : Type 0 where
  pub first : k ≡ l -- trailing : ℕ
  pub second : k
      ≡ deep : x

pub data Kind : Type 0 where
  one : Kind
  two three : Kind

module _ (hi : ℕ) where
  inner : ℕ
  inner = let y : ℕ = 3 in
    z : q
  record Small : Type 0 where
    pub only : ℕ
  after : ℕ
  after = 1

pub outer : ℕ
outer =
  hidden : ℕ

quoted : String
quoted = "shown : ℕ"

abbrev pub last :
  ℕ
'''


class Declared(unittest.TestCase):
    """The names that a text declares."""

    def test_all_and_no_others(self):
        names = "Pair first second Kind one two three inner Small only after outer quoted last"
        self.assertEqual(antt.declared_in(TEXT), set(names.split()))


class Types(unittest.TestCase):
    """Types taken apart."""

    def test_the_conclusion(self):
        self.assertEqual(antt.conclusion_of("(f : ℕ → ℕ) → A f → B (λ x. x → x)"), ("B (λ x. x → x)", "(f : ℕ → ℕ) → A f →"))
        self.assertEqual(antt.conclusion_of("Whole"), ("Whole", ""))


class Uses(unittest.TestCase):
    """`use` lines."""

    def test_names_and_other_names(self):
        uses, _ = antt.strict_file("use a.B.{c, d as e,\n  f}\nuse a.C.Reads as g\n")
        self.assertEqual([(use.module, use.item, use.name) for use in uses],
                         [("a.B", "c", "c"), ("a.B", "d", "e"), ("a.B", "f", "f"), ("a.C.Reads", "", "g")])

    def test_lines_that_are_not_read(self):
        for line in ("pub use a.{b}", "use a.*", "use a.{b.c}", "use a.{b", "use package.{}"):
            with self.subTest(line), self.assertRaises(antt.Unreadable):
                antt.strict_file(line + "\n")
