"""What tools/check-docs refuses of the promises and their statements, on a small repository."""
from checks import promises, statements
from tests.docs_tree import PROMISES, ONE, FILE, PARTS, FILES, DocsTest


class Promises(DocsTest):
    """PROMISES.md and the file of promises."""

    def assertFile(self, old, new, words):
        """The file with one change is refused."""
        self.assertEdit(FILE, old, new, words)

    def assertPage(self, old, new, words):
        """The page with one change is refused."""
        self.assertEdit(PROMISES, old, new, words)

    def test_another_head(self):
        self.assertPage("| restated as |", "| restated |", "a table with the head promise | statement | proof | restated | refused")

    def test_no_file(self):
        del self.files[FILE]
        self.assertWrong("there is no crates/promises/proofs/Promises.antt")

    def test_a_promise_in_no_row(self):
        self.files[FILE] += "\npub more : (k l : ℕ) → AlphaOnes k l\nmore = ones\n"
        self.assertWrong("no row of docs/PROMISES.md is restated as more")

    def test_a_row_of_no_promise(self):
        self.assertPage("| `ones-of-all` |", "| `ones-of-none` |", "one quoted name of crates/promises/proofs/Promises.antt, and not `ones-of-none`")

    def test_two_names_in_a_row(self):
        self.assertPage("| `ones-of-all` |", "| `ones-of-all`, `one-of-each` |", "under restated as stands one quoted name")

    def test_a_name_in_two_rows(self):
        self.assertPage("| `one-of-each` |", "| `ones-of-all` |", "two rows are restated as ones-of-all")

    def test_a_statement_that_is_none(self):
        self.assertPage("| `crates/alpha/specs/One.antt: Ones` |", "| `crates/alpha/specs/One.antt: Twos` |", "no Twos in crates/alpha/specs/One.antt")

    def test_words_beside_a_statement(self):
        self.assertPage("| `crates/alpha/specs/One.antt: Ones` |", "| `crates/alpha/specs/One.antt: Ones` or so |", "under statement stands")

    def test_a_statement_from_another_module(self):
        self.assertFile("use Rattle.alpha.specs.One.{Ones as AlphaOnes, one_of}", "use Rattle.alpha.proofs.Mine.{Ones as AlphaOnes, one_of}",
                        "does not bring Ones from Rattle.alpha.specs.One")

    def test_another_conclusion(self):
        self.assertFile("→ AlphaOnes k l\n", "→ Unit\n", "does not conclude with AlphaOnes, but with `Unit`")

    def test_a_weaker_conclusion(self):
        self.assertFile("→ AlphaOnes k l\n", "→ AlphaOnes k l ⊎ Unit\n", "concludes with more than AlphaOnes")

    def test_a_promise_that_assumes_itself(self):
        self.assertFile("→ AlphaOnes k l\n", "→ AlphaOnes k l → AlphaOnes k l\n", "names AlphaOnes before its conclusion")

    def test_a_promise_that_assumes_itself_by_its_path(self):
        self.assertFile("→ AlphaOnes k l\n", "→ Rattle.alpha.specs.One.Ones k l → AlphaOnes k l\n", "names Ones before its conclusion")

    def test_a_statement_under_two_names(self):
        self.assertFile("{Ones as AlphaOnes, one_of}", "{Ones as AlphaOnes, Ones as Mine, one_of}", "Rattle.alpha.specs.One.Ones is brought in under two names")

    def test_another_theorem(self):
        self.assertFile("ones-of-all = ones", "ones-of-all = other", "has to be defined as `ones-of-all = ones`")

    def test_a_theorem_with_arguments(self):
        self.assertFile("ones-of-all = ones", "ones-of-all k l = ones k l", "has to be defined as `ones-of-all = ones`")

    def test_a_theorem_from_another_module(self):
        self.assertFile("use Rattle.alpha.proofs.Ones.{ones}", "use Rattle.alpha.proofs.Twos.{ones}", "does not bring ones from Rattle.alpha.proofs.Ones")

    def test_a_theorem_that_is_none(self):
        self.assertPage("proofs/Ones.antt: ones", "proofs/Ones.antt: twos", "no twos in crates/alpha/proofs/Ones.antt")

    def test_a_contract_of_no_function(self):
        self.assertPage("the contract of `alpha::one`", "the contract of `alpha::two`", "no public function alpha::two")

    def test_a_contract_of_another_function(self):
        self.assertPage("the contract of `alpha::one`", "the contract of `alpha::Width::counted`", "does not bring Rattle.alpha.proofs.width.Width.counted.Reads")

    def test_a_promise_without_its_contract(self):
        self.assertFile("States AlphaOne.Post (λ κs a r s.", "States Anything (λ κs a r s.", "its type has to be `States AlphaOne.Post (λ κs a r s. ..)`")

    def test_a_promise_that_has_a_premise_more(self):
        self.assertFile(": States AlphaOne.Post", ": ⊥ → States AlphaOne.Post", "its type has to be `States AlphaOne.Post (λ κs a r s. ..)`")

    def test_another_meaning_of_states(self):
        self.assertFile("specs.States.{States}", "specs.Other.{States}", "does not bring States from Rattle.promises.specs.States")

    def test_a_contract_that_is_not_given_back(self):
        self.assertFile("= (p.0, p.1.0)", "= absurd s", "it has to be defined as `one-of-each κs a r s p = p`")

    def test_a_contract_that_says_something_else(self):
        self.assertFile("(r ≡ one_of a.0)", "(r ≡ r)", "it does not state anything of one_of")

    def test_a_contract_that_is_assumed(self):
        self.assertFile("(r ≡ one_of a.0) ×", "(r ≡ one_of a.0 → r ≡ one_of a.0) ×", "which is no equation")

    def test_a_contract_with_a_way_out(self):
        self.assertFile("(r ≡ one_of a.0) ×", "(r ≡ one_of a.0) ⊎", "which is no equation")

    def test_a_contract_of_nothing(self):
        self.assertFile("(r ≡ one_of a.0) ×", "(one_of a.0 ≡ one_of a.0) ×",
                        "something of `one_of a.0`, which is neither the result nor what a buffer holds afterwards")

    def test_a_contract_that_only_mentions_the_definition(self):
        self.assertFile("(r ≡ one_of a.0) ×", "(r ≡ first a.0 (one_of a.0)) ×", "in which no definition stands with the arguments")

    def test_a_contract_over_itself(self):
        self.assertFile("(r ≡ one_of a.0) ×", "(r ≡ one_of r) ×", "in which no definition stands with the arguments")

    def test_a_contract_with_a_fixed_argument(self):
        self.assertFile("(r ≡ one_of a.0) ×", "(r ≡ one_of 0) ×", "in which no definition stands with the arguments")

    def test_a_contract_with_an_argument_twice(self):
        self.assertFile("(r ≡ one_of a.0) ×", "(r ≡ one_of a.0 a.0) ×", "in which a.0 stands twice")

    def test_a_contract_by_its_length_and_its_bytes(self):
        self.edit(FILE, "(r ≡ one_of a.0) ×", "(r ≡ length (one_of a.0)) × (s.1.0.now ≡ laid_at a.1.0.now 0 (one_of a.0)) ×")
        self.assertRight()

    def test_a_contract_by_the_text_in_its_answer(self):
        self.edit(FILE, "(r ≡ one_of a.0) ×", "(r.text ≡ one_of a.0) ×")
        self.assertRight()

    def test_a_contract_by_something_else_of_its_answer(self):
        for given in ("r.long", "r.text.now", "length r.text", "first r", "text_of r"):
            with self.subTest(given):
                self.files[FILE] = FILES[FILE]
                self.assertFile("(r ≡ one_of a.0) ×", f"({given} ≡ one_of a.0) ×", "which is neither the result nor what a buffer holds afterwards")

    def test_states_that_asks_for_nothing(self):
        self.assertEdit(promises.STATES_FILE, "→ P κs a r s → Q κs a r s", "→ Q κs a r s → Q κs a r s", "States.antt: it has to say `States ")

    def test_no_meaning_of_states(self):
        del self.files[promises.STATES_FILE]
        self.assertWrong("there is no crates/promises/specs/States.antt")

    def test_a_theorem_of_one_value(self):
        self.assertFile("(k l : ℕ)\n    → AlphaOnes k l\n", "(k : ℕ)\n    → AlphaOnes k 0\n", "its statement is about `0`, which is not any value")

    def test_a_theorem_of_one_value_twice(self):
        self.assertFile("(k l : ℕ)\n    → AlphaOnes k l\n", "(k : ℕ)\n    → AlphaOnes k k\n", "its statement has the argument k twice")

    def test_a_theorem_of_a_term_of_one_value(self):
        self.assertFile("→ AlphaOnes k l\n", "→ AlphaOnes k (one_of 0)\n", "its statement is about `(one_of 0)`, which is not any value")

    def test_a_theorem_that_is_not_about_what_it_binds(self):
        self.assertFile("(k l : ℕ)\n", "(k l m : ℕ)\n", "its statement is not about m, which it binds")

    def test_a_theorem_about_nothing(self):
        self.assertFile("(k l : ℕ)\n", "(k l : Nothing)\n", "about things of the type `Nothing`")

    def test_a_theorem_with_a_premise(self):
        self.assertFile("→ AlphaOnes k l\n", "→ k ≡ l → AlphaOnes k l\n", "it has the premise `k ≡ l`")

    def test_a_theorem_of_what_is_left_to_find(self):
        self.assertFile("(k l : ℕ)\n", "{k l : ℕ}\n", "it has the premise `{k l : ℕ}`")

    def test_a_type_from_elsewhere(self):
        self.assertFile("use Prim.Native.Nat.{ℕ}", "use Rattle.alpha.specs.One.{one_of as ℕ}", "is brought in under two names")
        self.files[FILE] = FILES[FILE]
        self.assertFile("use Prim.Native.Nat.{ℕ}", "use mathlib.Core.Empty.{Empty as ℕ}", "Empty of mathlib.Core.Empty is brought in, which the page does not name")

    def test_a_part_of_every_type_under_another_name(self):
        self.assertFile("use Rattle.std.specs.Prelude.{◌≡◌}", "use mathlib.Core.Path.{◌≡◌ as ◌≢◌}", "◌≡◌ is brought in under another name, ◌≢◌")

    def test_a_part_of_no_place(self):
        self.assertPage("One.antt: second` |", "One.antt: third` |", "no third in crates/alpha/specs/One.antt")

    def test_a_part_that_no_row_tells(self):
        self.assertPage(", `crates/alpha/specs/One.antt: second` |", " |", "no row tells the part second of Ones")

    def test_a_part_that_is_gone(self):
        self.assertEdit("crates/alpha/specs/One.antt", "  pub second : k\n      ≡ l\n", "", "no second in crates/alpha/specs/One.antt")

    def test_a_part_without_a_false_version(self):
        self.assertPage("second` | `alpha: false` |", "second` | `alpha: two` |", "none of its edits changes a statement in specs/ of alpha")

    def test_a_table_of_parts_alone(self):
        self.edit(PROMISES, PARTS, "\n| part | statement |\n|---|---|\n")
        self.edit(PROMISES, "second` | `alpha: false` |", "second` |")
        self.assertRight()

    def test_a_definition_in_the_file(self):
        self.assertFile("pub ones-of-all :", "AlphaTwos : Type 0\nAlphaTwos = Unit\n\npub ones-of-all :", "is no `use` line and no statement")

    def test_a_where_in_the_file(self):
        self.assertFile("ones-of-all = ones", "ones-of-all = ones where", "the word `where`")

    def test_a_module_in_the_file(self):
        self.assertFile("pub ones-of-all :", "module _ (x : ⊥) where\n\npub ones-of-all :", "is no `use` line and no statement")

    def test_no_edit(self):
        self.assertPage("| `ones-of-all` | `alpha: false` |", "| `ones-of-all` |  |", "under refused stands `crate: edit`")

    def test_an_edit_that_is_none(self):
        self.assertPage("| `ones-of-all` | `alpha: false` |", "| `ones-of-all` | `alpha: none` |", "no must-fail edit none in crate alpha")

    def test_a_theorem_without_a_false_statement(self):
        self.assertPage("| `ones-of-all` | `alpha: false` |", "| `ones-of-all` | `alpha: two` |", "none of its edits changes a statement in specs/ of alpha")


class Statements(DocsTest):
    """The words of the statements of theorems."""

    CHANGED = f"{ONE}: a statement in it has changed"

    def test_a_part_dropped(self):
        self.assertEdit(ONE, "  pub second : k\n      ≡ l\n", "", self.CHANGED)

    def test_a_part_weakened(self):
        self.assertEdit(ONE, "      ≡ l\n", "      ≡ k\n", self.CHANGED)

    def test_another_equality(self):
        self.assertEdit(ONE, "use Rattle.std.specs.Prelude.{◌≡◌}", "use Rattle.alpha.specs.Mine.{◌≡◌}", self.CHANGED)

    def test_comments_and_white_space(self):
        self.edit(ONE, "  -- hidden : it stands in a comment\n", "\n  -- and another word\n")
        self.edit(ONE, "  pub second : k\n      ≡ l\n", "  pub second : k ≡ l\n")
        self.assertRight()

    def test_a_comment_that_may_hide(self):
        self.assertEdit(ONE, "      ≡ l\n", "      ≡ l -- or not\n", f"{ONE}: line 14: a comment here stands on a line of its own")

    def test_a_statement_that_was_not_read(self):
        statements.SUMS.clear()
        self.assertWrong(f"{ONE}: it holds a statement; read it, and put its sum, ")

    def test_a_sum_of_no_statement(self):
        statements.SUMS["crates/alpha/specs/Two.antt"] = "0" * 16
        self.assertWrong("crates/alpha/specs/Two.antt: tools/checks/statements.py has its sum, and no theorem's statement is in it")
