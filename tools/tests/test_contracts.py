"""What tools/check-contracts refuses of public functions and their laws, on a small repository."""
from unittest import mock

from checks import contracts, fixed
from tests.contracts_tree import LIB, LAWS, FILES, ContractsTest

ONE = "OneAnswer AlphaOne.Post (λ κs r s. r)\n"


class Right(ContractsTest):
    """What is right is taken."""

    def test_the_tree(self):
        self.assertRight()

    def test_a_type_over_two_lines(self):
        self.edit(LAWS, "pub alpha-one : OneAnswer AlphaOne.Post", "pub alpha-one :\n    OneAnswer\n    AlphaOne.Post")
        self.assertRight()

    def test_the_number_of_functions(self):
        self.write()
        self.assertEqual(contracts.check(self.top)[1], 5)


class LawTypes(ContractsTest):
    """A law is of the very type that the signature asks for."""

    def test_a_type_that_goes_on(self):
        self.assertLaw(ONE, f"{ONE[:-1]} → OneAnswer AlphaOne.Post (λ κs r s. r)\n", "alpha-one has to be of the type")

    def test_a_type_that_goes_on_in_the_next_line(self):
        self.assertLaw(ONE, f"{ONE}  → Unit\n", "alpha-one has to be of the type")

    def test_a_premise_before_it(self):
        self.assertLaw("pub alpha-one : OneAnswer", "pub alpha-one : ⊥ → OneAnswer", "alpha-one has to be of the type")

    def two_written(self):
        """The library with two buffers that are lent to be written."""
        self.edit(LIB, "src: &[u8]) -> bool", "src: &mut [u8]) -> bool")
        self.edit(LIB, "ensures read { src.exit.now ≡ src.entry.now }", "ensures read { src.new ≡ src.old }")

    def test_two_buffers_lent_to_be_written(self):
        self.two_written()
        self.assertRight()

    def test_one_buffer_named_twice(self):
        self.two_written()
        self.assertLaw("s.0.now beside s.1.1.0.now", "s.0.now beside s.0.now", "alpha-put has to be of the type")

    def test_the_buffers_the_other_way_round(self):
        self.two_written()
        self.assertLaw("s.0.now beside s.1.1.0.now", "s.1.1.0.now beside s.0.now", "alpha-put has to be of the type")

    def test_a_buffer_lent_to_be_read(self):
        self.assertLaw("beside s.0.now beside s.1.1.0.now", "beside s.0.now", "alpha-put has to be of the type")

    def test_a_law_over_another_function(self):
        self.assertLaw(ONE, ONE.replace("AlphaOne", "AlphaCounted"), "alpha-one has to be of the type")

    def test_one_answer_where_a_buffer_is_lent(self):
        self.assertLaw("s. r beside s.0.now", "s. r", "alpha-put has to be of the type")

    def test_another_thing_seen(self):
        self.assertLaw(ONE, ONE.replace("s. r)", "s. 0)"), "alpha-one has to be of the type")

    def test_a_written_buffer_by_its_place(self):
        self.edit(LIB, "dst: &mut [u8], at: usize, src: &[u8]", "src: &[u8], at: usize, dst: &mut [u8]")
        self.assertWrong("(λ κs r s. r beside s.1.1.0.now beside s.0.now)`")

    def test_self_counts_as_a_parameter(self):
        self.files["crates/alpha/src/width.rt"] += (
            "impl Width {\n    pub fn both(self, a: &mut [u8], b: &[u8]) -> u8\n        ensures { result ≡ 1 }\n    {\n        1\n    }\n}\n"
        )
        self.edit(LAWS, "use Rattle.alpha.proofs.one", "use Rattle.alpha.proofs.width.Width.both.Reads as AlphaBoth\nuse Rattle.alpha.proofs.one")
        self.files[LAWS] += (
            "\npub alpha-both : OneAnswer AlphaBoth.Post (λ κs r s. r beside s.1.0.now beside s.1.1.0.now)\nalpha-both κs a x y s t p q = p\n"
        )
        self.assertRight()

    def test_a_form_that_is_not_there(self):
        self.files[contracts.FORMS] = self.files[contracts.FORMS].partition("infixr")[0]
        self.assertWrong("it has to say `infixr 20 ◌beside◌`")

    def test_a_form_that_says_less(self):
        for form, due, less in (
            ("OneAnswer", "seen κs x s ≡ seen κs y t", "seen κs x s ≡ seen κs x s"),
            ("OneAnswer", "P κs a x s → P κs a y t →", "P κs a x s → P κs a x s →"),
            ("x beside", "x beside y = (x, y)", "x beside y = (x, x)"),
        ):
            with self.subTest(less):
                self.files[contracts.FORMS] = fixed.FORMS
                self.edit(contracts.FORMS, due, less)
                self.assertWrong(f"it has to say `{form} ")

    def test_another_equality_for_the_forms(self):
        self.edit(contracts.FORMS, "Rattle.std.specs.Prelude.{◌≡◌}", "mathlib.Core.Other.{◌≡◌}")
        self.assertWrong("it has to say `use Rattle.std.specs.Prelude.{◌≡◌}`")

    def test_more_beside_the_forms(self):
        self.files[contracts.FORMS] += "\nruleset more\n"
        self.assertWrong("it says `ruleset more` besides")

    def test_forms_behind_a_comment(self):
        self.edit(contracts.FORMS, "seen κs y t\n", "seen κs y t -- here\n")
        self.assertWrong("a comment here stands on a line of its own")

    def test_three_buffers(self):
        self.assertSource(
            "pub fn three(a: &mut [u8], b: &[u8], c: &[u8])\n    ensures { result ≡ result }\n{\n}\n",
            "has no law alpha-three",
        )

    def test_another_pair(self):
        self.assertLaw("{OneAnswer, ◌beside◌}", "{OneAnswer}\nuse alpha.Other.{◌beside◌}", "◌beside◌ has to stand for")

    def test_a_proof_of_another_form(self):
        self.assertLaw("alpha-one κs a x y s t p q = one_answer p q", "alpha-one κs a x y s t p q = one_answer q p", "is shown by `one_answer p q`")

    def test_nothing_to_be_seen(self):
        self.assertSource("pub fn idle(x: u8)\n    ensures { result ≡ result }\n{\n}\n", "nothing is seen of it")

    def test_a_lent_thing_in_another(self):
        self.assertSource("pub fn pair(a: (&mut [u8], u8))\n    ensures { result ≡ result }\n{\n}\n", "lends something to be written within another type")

    def test_an_answer_that_may_be_written(self):
        self.assertSource("pub fn part(a: &mut [u8]) -> &mut [u8]\n    ensures { result ≡ result }\n{\n    a\n}\n", "a law only for a part of a slice")

    def test_a_type_that_hides_what_is_lent(self):
        self.assertSource("pub struct Lent<'a> {\n    pub bytes: &'a mut [u8],\n}\n", "struct Lent holds a reference")

    def test_a_type_that_hides_what_is_lent_in_a_private_one(self):
        inner = "struct Inner<'a> {\n    bytes: &'a mut [u8],\n}\n"
        self.assertSource(inner + "\npub struct Outer<'a> {\n    inner: Inner<'a>,\n}\n", "struct Inner holds a reference")

    def test_a_name_for_what_is_lent(self):
        self.assertSource("type Lent<'a> = &'a mut [u8];\n", "type Lent holds a reference")


class Functions(ContractsTest):
    """Every public function is seen, however it is written."""

    def test_const(self):
        self.assertSource("pub const fn three(x: u8) -> u8\n    ensures { result ≡ x }\n{\n    x\n}\n", "three has no law alpha-three")

    def test_const_without_a_statement(self):
        self.assertSource("pub const fn three(x: u8) -> u8 {\n    x\n}\n", "three is public and states nothing")

    def test_a_comment_before_fn(self):
        self.edit(LIB, "pub fn one(x: u8) -> u8\n", "pub /* x */ fn one(x: u8) -> u8\n    requires { x ≤ 9 }\n")
        self.assertWrong("one is public and has a requires")

    def test_a_line_between_pub_and_fn(self):
        self.assertSource("pub // x\n  fn three(x: u8) -> u8 {\n    x\n}\n", "three is public and states nothing")

    def test_a_foreign_call_without_pub(self):
        self.assertSource('#[unsafe(no_mangle)]\nextern "C" fn three(x: u8) -> u8 {\n    x\n}\n', "three is public and states nothing")

    def test_a_ghost_clause(self):
        self.edit(LIB, "pub fn one(x: u8) -> u8\n", "pub fn one(x: u8) -> u8\n    ghost { ℕ }\n")
        self.assertWrong("one is public and has a ghost clause")

    def test_a_module_in_a_folder(self):
        self.files["crates/alpha/src/width/inner.rt"] = "pub fn three(x: u8) -> u8\n    ensures { result ≡ x }\n{\n    x\n}\n"
        self.assertWrong("src/width/inner.rt: three has no law alpha-three")

    def test_the_module_of_a_folder(self):
        self.files["crates/alpha/src/deep/mod.rt"] = (
            "pub struct Deep {\n    pub x: u8,\n}\n\nimpl Deep {\n    pub fn three(self) -> u8\n        ensures { result ≡ 1 }\n    {\n        1\n    }\n}\n"
        )
        self.assertWrong("over Rattle.alpha.proofs.deep.Deep.three.Reads")

    def test_a_folder_that_is_a_link(self):
        self.write()
        (self.top / "elsewhere").mkdir()
        (self.top / "crates/alpha/src/linked").symlink_to(self.top / "elsewhere")
        self.assertWrong("src/linked: a link, which is not read")

    def test_a_module_within_a_file(self):
        self.assertSource("mod inner {\n    pub fn three() -> u8 {\n        1\n    }\n}\n", "three is public and states nothing")

    def test_only_a_restricted_pub_is_private(self):
        self.files[LIB] += "pub(crate) fn three(x: u8) -> u8\n    requires { x ≤ 9 }\n{\n    x\n}\n"
        self.assertRight()

    def test_an_attribute_that_may_hide(self):
        self.assertSource("#[cfg(never)]\nmod hidden;\n", "is not known to this check")

    def test_an_attribute_that_hides_behind_another(self):
        self.assertSource("#[cfg_attr(never, repr(C))]\npub struct Hidden {\n    pub x: u8,\n}\n", "is not known to this check")

    def test_a_comment_within_a_comment(self):
        self.assertSource("/* /* */ pub fn three() -> u8 { 1 } // */\n", "a comment within a comment")

    def test_a_type_that_is_named_like_a_clause(self):
        self.assertSource("impl ensures {\n    pub fn three() -> u8 {\n        1\n    }\n}\nfn four() {\n}\n", "crates/alpha/src/lib.rt: ")

    def test_a_clause_at_a_static(self):
        self.assertSource("fn three() -> u8 {\n    1\n}\nstatic GHOST: u8 ensures { 1 } = 1;\n", "crates/alpha/src/lib.rt: ")

    def test_a_ghost_member_of_another_form(self):
        self.assertSource("impl Width {\n    ghost is: { 1 };\n}\n", "a ghost member that is no `ghost NAME = { .. };`")

    def test_a_ghost_member_of_no_trait(self):
        for text in ("impl Width {\n    ghost is = { 1 };\n}\n", "ghost is = { 1 };\n"):
            with self.subTest(text):
                self.files[LIB] = FILES[LIB] + text
                self.assertWrong("a ghost member in no trait's impl")

    def test_a_clause_within_a_body(self):
        closure = "    let same = |y: u8| -> u8\n        ensures { result ≡ y }\n    { y };\n"
        inner = "    fn same(y: u8) -> u8\n        ensures { result ≡ y }\n    {\n        y\n    }\n"
        for text in (closure, inner):
            with self.subTest(text):
                self.files[LIB] = FILES[LIB] + "fn three(x: u8) -> u8 {\n" + text + "    same(x)\n}\n"
                self.assertWrong("a clause that belongs to no function")

    def test_a_comment_in_a_clause(self):
        self.assertSource("pub fn three() -> u8\n    ensures { λ r. -- }\n r ≡ 1 }\n{\n    1\n}\n", "a clause with a comment")

    def test_what_cannot_be_read(self):
        self.assertSource("macro_rules! f { () => {} }\n", "which this check does not know")


class Impls(ContractsTest):
    """The traits that a library's types have."""

    FROM = "impl From<Width> for u8 {\n    ghost from_gives = { λ w n. MEANS };\n\n    fn from(w: Width) -> u8 {\n        5\n    }\n}\n"

    USE = "use Rattle.alpha.proofs.U8FromWidth.from.Reads as AlphaFrom\n"
    LAW = "\npub alpha-from : OneAnswer AlphaFrom.Post (λ κs r s. r)\nalpha-from κs a x y s t p q = one_answer p q\n"

    def conversion(self, means):
        """A conversion that says this of what it takes and gives."""
        return self.FROM.replace("MEANS", means)

    def laws(self):
        """The laws with the conversion's."""
        self.edit(LAWS, "use Rattle.alpha.proofs.one.Reads", f"{self.USE}use Rattle.alpha.proofs.one.Reads")
        self.files[LAWS] += self.LAW

    def test_a_conversion_that_says_what_it_gives(self):
        self.files[LIB] += self.conversion("n ≡ bits_of (one w)")
        self.laws()
        self.assertRight()

    def test_a_conversion_without_its_law(self):
        self.assertSource(self.conversion("n ≡ bits_of w"), "u8::from has no law alpha-from")
        self.assertWrong("no line `use Rattle.alpha.proofs.U8FromWidth.from.Reads as AlphaFrom`")

    def test_a_law_of_a_conversion_by_hand(self):
        self.files[LIB] += self.conversion("n ≡ bits_of w")
        self.laws()
        self.assertLaw("alpha-from κs a x y s t p q = one_answer p q", "alpha-from κs a x y s t p q = (by hand)", "alpha-from is shown by `one_answer p q`")

    def test_a_conversion_that_leaves_a_choice(self):
        for means in ("n ≤ bits_of w", "bits_of w ≡ n", "n ≡ min n 5", "n ≡ bits_of w ⊎ Unit {0}", "n ≡ bits_of w → Unit {0}",
                      "n ≡ bits_of w × n ≡ n", "n ≡ bits_of w ↔ ⊥", "(n ≡ bits_of w) ⊎ Unit {0}", "(k : ℕ) × (n ≡ k)", "n ≡ bits_of w ≡ n"):
            with self.subTest(means):
                self.files[LIB] = FILES[LIB] + self.conversion(means)
                self.assertWrong("the conversion to u8 does not say in one equation")

    def test_a_conversion_that_says_nothing(self):
        self.assertSource("impl From<Width> for u8 {\n}\n", "an impl of From for u8 without `ghost from_gives`")

    def test_a_second_conversion_that_says_nothing(self):
        second = "pub enum Deep {\n    One,\n}\n\nimpl From<Deep> for u8 {\n    fn from(d: Deep) -> u8 {\n        5\n    }\n}\n"
        for text in (self.conversion("n ≡ bits_of w") + second, second + self.conversion("n ≡ bits_of w")):
            with self.subTest(text):
                self.files[LIB] = FILES[LIB] + text
                self.assertWrong("an impl of From for u8 without `ghost from_gives`")
                self.assertWrong("u8::from is public and states nothing")

    def test_two_conversions_to_one_type(self):
        self.files[LIB] += self.conversion("n ≡ bits_of w") + self.conversion("n ≡ bits_of w").replace("Width", "Deep")
        for law in ("alpha-U8FromWidth-from", "alpha-U8FromDeep-from"):
            self.assertWrong(f"u8::from has no law {law}")

    def test_a_conversion_with_clauses_of_its_own(self):
        weak = self.conversion("n ≡ bits_of w").replace("-> u8 {", "-> u8\n        ensures { result ≤ 5 }\n    {")
        self.files[LIB] += weak
        self.laws()
        self.assertRight()  # its proof is the prover's matter
        self.edit(LIB, "ensures { result ≤ 5 }", "requires { w ≡ Five }")
        self.assertWrong("u8::from is public and states nothing")
        self.assertWrong("u8::from is public and has a requires")

    def test_a_slice_of_a_type_that_states_nothing(self):
        text = "impl AsSlice<u8> for Width {\n    ghost items = { λ w. [] };\n\n    fn as_slice(&self) -> &[u8] {\n        &[]\n    }\n}\n"
        self.assertSource(text, "Width::as_slice is public and states nothing")
        self.assertWrong("Width::as_slice has no law alpha-as-slice")

    def test_a_trait_in_a_program(self):
        self.files["crates/listing/src/main.rt"] += self.conversion("n ≡ bits_of w")
        self.assertWrong("an impl of From, in a program")

    def test_a_trait_that_is_not_known(self):
        self.assertSource("impl Shown for Width {\n}\n", "an impl of Shown for Width, a trait which this check does not know")

    def test_a_ghost_field(self):
        self.files[LIB] += "pub struct Small {\n    x: u8,\n    ghost small: { x < 3 },\n}\n"
        self.assertRight()

    def test_a_private_struct_that_holds_a_reference(self):
        self.files[LIB] += "struct Part<'a> {\n    bytes: &'a [u8],\n}\n"
        self.assertRight()


class Models(ContractsTest):
    """What clauses see of a type in place of its fields."""

    USE = "ghost use Rattle.std.specs.Prelude.{List, ℕ, take};\n"
    MODEL = "impl Model for Small {\n    ghost Value = { List ℕ };\n\n    ghost view = { λ t. take t.used t.bytes };\n\n    ghost invariant = { λ t. t.used ≤ 9 };\n}\n"

    def setUp(self):
        super().setUp()
        known = mock.patch.dict(fixed.MODELS, {("alpha", "Small"): fixed.MODELS["text", "Text"]})
        known.start()
        self.addCleanup(known.stop)
        self.files[LIB] += self.USE + self.MODEL

    def test_its_words(self):
        self.assertRight()
        self.edit(LIB, "λ t. t.used ≤ 9", "λ t. t.used ≤ 7")
        self.assertRight()

    def test_a_view_that_shows_nothing(self):
        for old, new in (("λ t. take t.used t.bytes", "λ s. 0"), ("λ t. take t.used t.bytes", "λ t. take 0 t.bytes"), ("List ℕ", "Unit")):
            with self.subTest(new):
                self.files[LIB] = FILES[LIB] + self.USE + self.MODEL
                self.edit(LIB, f"= {{ {old} }}", f"= {{ {new} }}")
                self.assertWrong("of the type Small clauses see `")

    def test_a_view_by_other_words_of_the_same_name(self):
        for old, new in (("{List, ℕ, take}", "{List, ℕ, drop as take}"), ("{List, ℕ, take}", "{List, ℕ}"),
                         (self.USE, self.USE + "ghost use Rattle.alpha.specs.Mine.{take};\n")):
            with self.subTest(new):
                self.files[LIB] = FILES[LIB] + self.USE + self.MODEL
                self.edit(LIB, old, new)
                self.assertWrong("take has to stand for Rattle.std.specs.Prelude.take")

    def test_a_type_that_was_not_read(self):
        self.files[LIB] += self.MODEL.replace("Small", "Large")
        self.assertWrong("an impl of Model for Large; read what clauses see of it")


class Handed(ContractsTest):
    """How a library's functions become public."""

    MORE = "crates/alpha/src/more.rt"
    WEAK = "pub fn one(x: u8) -> u8\n    ensures { x ≡ x }\n{\n    0\n}\n"

    def test_another_function_under_the_name_of_a_public_one(self):
        self.files[self.MORE] = self.WEAK
        self.files[LIB] = self.files[LIB].replace("pub fn one(", "pub fn good(")
        self.files[LIB] += "pub mod more;\npub use good as one;\n"
        self.assertWrong("`pub use good as one`; a library hands things on in lib.rt, by `pub use module::Name;` or")
        self.assertWrong(f"{self.MORE}: one is public, and no line `pub use more::one;` in lib.rt hands it on under its own name")

    def test_other_forms(self):
        for form in ("more::two as three", "more::{two as three}", "more::*", "more", "more::{self, two}", "more::{deep::two}", "{more::two}"):
            with self.subTest(form):
                self.files[LIB] = FILES[LIB] + f"pub use {form};\n"
                self.assertWrong("a library hands things on in lib.rt")

    def test_several_of_one_module(self):
        self.files[self.MORE] = self.WEAK.replace("one", "two") + self.WEAK.replace("one", "three")
        self.files[LIB] += "mod more;\npub use more::{two, three};\n"
        self.write()
        self.assertFalse(any("hands" in line for line in self.wrong()))

    def test_handed_on_by_a_module(self):
        self.files[self.MORE] = "pub use width::Width;\n"
        self.assertWrong(f"{self.MORE}:1: `pub use width :: Width`; a library hands things on in lib.rt")

    def test_a_public_function_of_a_module(self):
        self.files[self.MORE] = self.WEAK.replace("one", "two")
        self.files[LIB] += "mod more;\npub use more::two;\n"
        self.write()
        self.assertFalse(any("hands" in line for line in self.wrong()))


class LawsFile(ContractsTest):
    """The laws' file holds nothing besides."""

    def test_a_definition_of_its_own(self):
        self.assertLaw("pub alpha-one :", "OneAnswer : Type 0\nOneAnswer = Unit\n\npub alpha-one :", "is no `use` line and no statement")

    def test_a_known_name_stated_again(self):
        self.files[LAWS] += "\npub OneAnswer : Type 0\nOneAnswer = Unit\n"
        self.assertWrong("OneAnswer is the law of no public function")

    def test_a_law_besides(self):
        self.files[LAWS] += "\npub more : OneAnswer AlphaOne.Post (λ κs r s. r)\nmore κs a x y s t p q = one_answer p q\n"
        self.assertWrong("more is the law of no public function")

    def test_a_law_twice(self):
        self.files[LAWS] += "\npub alpha-one : OneAnswer AlphaOne.Post (λ κs r s. r)\nalpha-one κs a x y s t p q = one_answer p q\n"
        self.assertWrong("alpha-one is stated twice")

    def test_a_law_that_is_missing(self):
        self.assertLaw(f"pub alpha-one : {ONE}alpha-one κs a x y s t p q = one_answer p q\n", "", "one has no law alpha-one")

    def test_a_second_clause(self):
        self.files[LAWS] += "alpha-counted = one_answer\n"
        self.assertWrong("is no `use` line and no statement")

    def test_a_module(self):
        self.assertLaw("pub alpha-one :", "module _ (x : ⊥) where\n\npub alpha-one :", "is no `use` line and no statement")

    def test_an_infix(self):
        self.assertLaw("pub alpha-one :", "infix 5 ◌→◌\n\npub alpha-one :", "is no `use` line and no statement")

    def test_a_where(self):
        self.files[LAWS] += "  where\n    x : Unit\n    x = tt\n"
        self.assertWrong("the word `where`")

    def test_an_unfolding(self):
        self.assertLaw("alpha-one κs", "unfolding one_answer\nalpha-one κs", "is not followed by its definition")

    def test_a_form_from_elsewhere(self):
        self.assertLaw("specs.OneAnswer.{OneAnswer, ◌beside◌", "specs.OneAnswer.{◌beside◌", "no `use` line brings OneAnswer")

    def test_a_form_of_another_module(self):
        self.assertLaw("use Rattle.one_answer.specs.OneAnswer", "use Rattle.alpha.proofs.Mine", "OneAnswer has to stand for")

    def test_another_thing_under_the_name_of_a_form(self):
        self.assertLaw("{one_answer}", "{one_answer, Trivial as OneAnswer}", "OneAnswer is brought in twice")

    def test_an_alias_of_another_module(self):
        self.assertLaw("proofs.put.Reads as AlphaPut", "proofs.none.Reads as AlphaPut", "AlphaPut has to stand for")

    def test_an_alias_that_is_not_the_expected_one(self):
        self.assertLaw("proofs.put.Reads as AlphaPut", "proofs.put.Reads as AlphaOther", "has to be brought in as AlphaPut")

    def test_a_library_under_another_name(self):
        self.assertLaw("{one_answer}", "{one_answer, evil as Rattle}", "Rattle would stand for the module")

    def test_a_comment_at_the_end_of_a_line(self):
        self.assertLaw(ONE, f"{ONE[:-1]} -- → Unit\n", "a comment here stands on a line of its own")

    def test_a_block_comment(self):
        self.assertLaw("-- One answer.", "{- One answer. -}", "a block comment is not read here")


class StaticLibraries(ContractsTest):
    """A crate whose calls other languages link."""

    CALLS = "crates/alpha_c/src/lib.rt"

    def setUp(self):
        super().setUp()
        self.files["crates.txt"] += "alpha_c staticlib: alpha\n"
        self.files[self.CALLS] = """use alpha::one;

#[unsafe(no_mangle)]
pub extern "C" fn one(x: u8) -> u8
    ensures { result ≡ x }
{
    alpha::one(x)
}
"""

    def test_a_call_of_the_same_name(self):
        self.assertRight()
        self.edit(self.CALLS, "alpha::one(x)", "one(x)")
        self.assertRight()

    def test_other_clauses(self):
        self.edit(self.CALLS, "result ≡ x", "result ≡ result")
        self.assertWrong(f"{self.CALLS}: one is no public function of a library, with these parameters, this answer and these clauses")

    def test_other_parameters(self):
        self.edit(self.CALLS, "one(x: u8)", "one(x: u16)")
        self.assertWrong("one is no public function of a library")

    def test_another_name(self):
        self.edit(self.CALLS, "fn one(", "fn other(")
        self.assertWrong("other is no public function of a library")

    def test_a_body_that_does_more(self):
        for body in ("alpha::one(x + 1)", "let y = x; alpha::one(y)", "alpha::two_of(x)", "x"):
            with self.subTest(body):
                self.files[self.CALLS] = self.files[self.CALLS].replace("alpha::one(x)", body)
                self.assertWrong("one does more than to call alpha::one with its own parameters")
                self.files[self.CALLS] = self.files[self.CALLS].replace(body + "\n}", "alpha::one(x)\n}")

    def test_a_private_function(self):
        self.files[self.CALLS] += "\nfn more(x: u8) -> u8 {\n    x\n}\n"
        self.assertWrong("more is no call for other languages")
