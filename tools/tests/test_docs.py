"""What tools/check-docs refuses of the rules, the check times and what the pages quote, on a small repository."""
from tests.docs_tree import DECISIONS, EVIDENCE, EXPLAINED, FILES, LISTING, PROMISES, PROVING, RULES, TIMES, DocsTest


class Right(DocsTest):
    """What is right is taken."""

    def test_the_tree(self):
        self.assertRight()


class Rules(DocsTest):
    """RULES.md."""

    def test_a_misspelt_head(self):
        self.assertEdit(RULES, "| code | refused |", "| code | refusd |", "RULES.md:5: a table with the head rule | definition | code | refusd")

    def test_an_entry_without_its_quotes(self):
        self.assertEdit(RULES, "| `alpha: two` |", "| alpha: two |", "each in its quotes, and not alpha: two")

    def test_one_of_two_entries_without_its_quotes(self):
        self.assertEdit(RULES, "`alpha: one_of`, `alpha: first`", "`alpha: one_of`, alpha: none", "each in its quotes")

    def test_no_wrong_program(self):
        self.assertEdit(RULES, "| `alpha: two` |", "|  |", "under refused stands `crate: name`")

    def test_a_remark_for_a_wrong_program(self):
        self.assertEdit(RULES, "| `alpha: two` |", "| (none) |", "under refused stands `crate: name`")

    def test_a_row_that_is_too_short(self):
        self.assertEdit(RULES, " | `alpha: two` |", " |", "RULES.md:7: a row of 3 cells in a table of 4")

    def test_a_row_that_does_not_end(self):
        self.assertEdit(RULES, "| `alpha: two` |", "| `alpha: two`", "a row of a table begins and ends with |")

    def test_a_definition_in_a_comment_only(self):
        self.assertEdit(RULES, "`alpha: first`", "`alpha: ghost_of`", "no definition ghost_of in crate alpha")

    def test_a_field_in_a_comment_only(self):
        self.assertEdit(RULES, "`alpha: first`", "`alpha: hidden`", "no definition hidden in crate alpha")

    def test_a_word_of_a_definition_that_it_does_not_declare(self):
        self.assertEdit(RULES, "`alpha: first`", "`alpha: k`", "no definition k in crate alpha")

    def test_a_function_in_a_comment_only(self):
        self.assertEdit(RULES, "`alpha: one`", "`alpha: ghostly`", "no function or constant ghostly in crate alpha")

    def test_an_edit_that_is_none(self):
        self.assertEdit(RULES, "`alpha: two`", "`alpha: three`", "no must-fail edit three in crate alpha")

    def test_an_edit_in_no_row(self):
        self.assertEdit(RULES, "`alpha: two`", "`alpha: false`", "no row names crates/alpha/must-fail/two.edit")

    def test_a_path_in_a_remark(self):
        self.assertEdit(RULES, "(see crates/alpha)", "(see crates/beta)", "there is no crates/beta")

    def test_an_operator(self):
        self.files["crates/alpha/specs/Two.antt"] = "-- two\nabbrev pub ◌beside◌ : ℕ → ℕ → ℕ\nx beside y = x\n"
        self.edit(RULES, "`alpha: first`", "`alpha: ◌beside◌`")
        self.write()
        self.assertFalse([line for line in self.wrong() if line.startswith(RULES)])
        self.assertEdit(RULES, "`alpha: ◌beside◌`", "`alpha: ◌and◌`", "no definition ◌and◌ in crate alpha")

    def test_a_form_without_code(self):
        self.assertEdit(RULES, "| `alpha: counted` |", "|  |", "under code stands `crate: name`")


class Quotes(DocsTest):
    """What the pages quote."""

    def assertQuote(self, quoted, words):
        """A quoted thing is refused in each page."""
        for page in (DECISIONS, EVIDENCE, LISTING, PROMISES, PROVING, "README.md", RULES, TIMES):
            with self.subTest(page):
                self.files = dict(FILES)
                self.files[page] += f"\nSee {quoted} there.\n"
                self.assertWrong(f"{page}:{self.files[page].count(chr(10))}: {words}")

    def test_paths_that_are_none(self):
        self.assertQuote("`crates/x/y.antt`", "there is no crates/x/y.antt")
        self.assertQuote("`crates/x/y.antt: z`", "there is no crates/x/y.antt")
        self.assertQuote("`tools/none`", "there is no tools/none")
        self.assertQuote("`docs/NONE.md`", "there is no docs/NONE.md")
        self.assertQuote("`alpha/specs/None.antt`", "there is no alpha/specs/None.antt")

    def test_a_path_without_quotes(self):
        self.assertQuote("tools/none", "there is no tools/none")

    def test_a_way_out(self):
        self.assertQuote("`crates/../../etc`", "there is no crates/../../etc")

    def test_functions_that_are_none(self):
        self.assertQuote("the contract of `alpha::two`", "no function alpha::two")
        self.assertQuote("the contract of `alpha::ghostly`", "no function alpha::ghostly")
        self.assertQuote("the contract of `alpha::Width::one`", "no function alpha::Width::one")
        self.assertQuote("`Breadth::counted`", "no function Breadth::counted")
        self.assertQuote("alpha::two", "no function alpha::two")

    def test_names_that_are_none(self):
        self.assertQuote("`alpha: three`", "crate alpha has no three")
        self.assertQuote("`beta: one`", "crate beta has no one")
        self.assertQuote("`three_of`", "`three_of` names nothing")
        self.assertQuote("`has_room-ensures`", "`has_room-ensures` names nothing")
        self.assertQuote("`crates/alpha/specs/One.antt: ghost_of`", "no ghost_of in crates/alpha/specs/One.antt")

    def test_commands_that_are_none(self):
        self.assertQuote("`rt ci beta`", "`rt ci beta` is no command")
        self.assertQuote("`rt dev alpha`", "`rt dev alpha` is no command")
        self.assertQuote("`rt do alpha`", "`rt do alpha` is no command")
        self.assertQuote("`tools/none --all`", "there is no tools/none")
        self.assertQuote("`tools/check-docs --none`", "tools/check-docs has no --none")

    def test_a_quote_that_is_not_closed(self):
        self.assertQuote("`alpha", "a quote that is not closed")

    def test_a_quote_over_two_lines(self):
        self.assertEdit(DECISIONS, "`one_of`\nand", "`three\nOf` and", "names nothing that is there")

    def test_a_comment_that_is_not_seen(self):
        self.assertQuote("<!-- this -->", "a comment that a reader does not see")

    def test_a_link_that_leads_nowhere(self):
        self.assertEdit("README.md", "(docs/RULES.md)", "(RULES.md)", "README.md:3: a link to RULES.md, which is not there")

    def test_a_tool_that_is_not_listed(self):
        self.files["tools/check-more"] = ""
        self.assertWrong("the list of tools lacks check-more")


class Desk(DocsTest):
    """Calls of the desk program, its words, and lines that it explains."""

    def test_a_call_that_is_none(self):
        self.assertEdit(LISTING, "`./vorstelpijp explain FILE`", "`./vorstelpijp tell FILE`", "is no call of the desk program")
        self.assertEdit(LISTING, "    ./vorstelpijp explain", "    ./vorstelpijp tell", "is no call of the desk program")

    def test_words_that_are_none(self):
        self.assertEdit(LISTING, "`R0 = 63; strike`", "`R0 = 63; hit`", "`R0 = 63; hit` names nothing that is there")
        self.assertEdit(LISTING, "`end 0`", "`end 5`", "`end 5` names nothing that is there")

    def test_a_line_that_no_example_has(self):
        self.assertEdit(LISTING, EXPLAINED, EXPLAINED.replace("outside", "in"), "no example has the line")


class Definitions(DocsTest):
    """What a reader has to believe stands apart from what serves private contracts."""

    LONE = "-- lone\nabbrev pub lone_of : ℕ\nlone_of = 0\n"

    def test_a_private_one_among_the_others(self):
        self.files["crates/alpha/specs/Two.antt"] = self.LONE
        self.assertWrong("crates/alpha/specs/Two.antt:2: lone_of belongs in specs/private/")

    def test_a_private_one_in_its_place(self):
        self.files["crates/alpha/specs/private/Two.antt"] = self.LONE
        self.assertRight()


class Times(DocsTest):
    """CHECK-TIMES.md."""

    def test_a_crate_without_a_row(self):
        self.assertEdit(TIMES, "| promises (theorems) | 0 | 1 | 1 |  |\n", "", "0 rows for the crate promises")

    def test_a_crate_that_is_none(self):
        self.assertEdit(TIMES, "| promises (theorems)", "| promised (theorems)", "a row for promised, which crates.txt does not list")

    def test_another_number_of_edits(self):
        self.assertEdit(TIMES, "| alpha | 2 | 1 | 1 | 2 |", "| alpha | 2 | 1 | 1 | 3 |", "alpha has 2 must-fail edits, and the row says 3")

    def test_another_number_of_functions(self):
        self.assertEdit(TIMES, "| alpha | 2 |", "| alpha | 3 |", "alpha has 2 functions, and the row says 3")

    def test_a_crate_that_was_not_measured(self):
        self.edit(TIMES, "| alpha | 2 | 1 | 1 | 2 |", "| alpha | 2 | not measured | not measured | 2 |")
        self.assertRight()
        self.assertEdit(TIMES, "| not measured | not measured |", "| not measured | 1 |", "alpha has its seconds and its memory as numbers")
        self.assertEdit(TIMES, "| not measured | 1 |", "|  |  |", "alpha has its seconds and its memory as numbers")

    def test_another_number_in_the_text(self):
        self.assertEdit(TIMES, "All 2 must-fail", "All 164 must-fail", "164 must-fail edits, and there are 2")

    def test_another_head(self):
        self.assertEdit(TIMES, "| seconds |", "| secnds |", "0 tables with the head")
