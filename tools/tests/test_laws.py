"""The laws that signatures ask for, a lent struct's and several buffers' among them, and the file of laws written anew."""
from checks import laws, source, written
from tests.contracts_tree import FILES, LAWS, LIB, ContractsTest

CLOCK_IN = """
#[repr(C)]
pub struct Chip {
    pub column: u8,
}

#[unsafe(no_mangle)]
pub extern "C" fn clock_in(c: &mut Chip, hi: u8, value: u8) -> u8
    ensures said { result ≡ hi }
    ensures held { c.new ≡ clock_of c.old hi value }
{
    value
}
"""
CLOCK_LAW = "OneAnswer AlphaClockIn.Post (λ κs r s. r beside s.0.now)"


def function_of(text):
    """The one function of a source."""
    return source.Reader(text).functions[0]


def declared(signature, *clauses):
    """A function by its signature and its clauses."""
    return function_of(f"pub fn f{signature}\n" + "".join(f"    ensures {{ {clause} }}\n" for clause in clauses) + "{\n}\n")


class Signatures(ContractsTest):
    """What is seen of a call, and how a law about it is shown."""

    def assertSeen(self, signature, *terms):
        """What a caller sees of a call with a signature."""
        self.assertEqual([term for term, _ in laws.seen_of(declared(signature))], list(terms), signature)

    def test_what_is_seen(self):
        self.assertSeen("(x: u8) -> u8", "r")
        self.assertSeen("(x: &[u8], y: &mut [u8], z: &'a mut [u8; TEXT]) -> u8", "r", "s.1.0.now", "s.1.1.0.now", "s.0.now")
        self.assertSeen("(x: &mut [u8])", "s.0.now")
        self.assertSeen("(x: &[u8], y: &mut [u8]) -> &[u8]", "r.now", "r.ref_ptr", "s.1.0.now", "s.0.now")
        self.assertSeen("(c: &mut Chip, x: u8) -> Answer", "r", "s.0.now")
        self.assertSeen("(c: &Chip, x: u8) -> Answer", "r", "s.0.now")

    def test_what_is_lent_to_be_read_within_another_type(self):
        self.assertSeen("(x: Option<&[u8]>, y: &mut [u8]) -> u8", "r", "s.1.0.now")
        with self.assertRaisesRegex(laws.NoForm, "to be written within another type"):
            laws.seen_of(declared("(x: Option<&'a mut [u8]>) -> u8"))

    def test_what_is_lent_to_a_method(self):
        function = function_of("impl Chip {\n    pub fn f(&mut self) -> u8 {\n    }\n}\n")
        self.assertEqual(laws.seen_of(function), [("r", "result"), ("s.0.now", "self.new")])
        function = function_of("impl Chip {\n    pub fn f(&self) -> u8 {\n    }\n}\n")
        self.assertEqual(laws.seen_of(function), [("r", "result"), ("s.0.now", "self.exit.now")])

    def test_proofs(self):
        one = "result ≡ f x"
        held, more = "x.new ≡ g", "Counts result x.old"
        self.assertEqual(laws.proof_of(declared("(x: u8) -> u8", one)), "one_answer p q")
        self.assertEqual(laws.proof_of(declared("(x: &mut [u8]) -> u8", held, more, one)), "one_answer p.1.1 q.1.1 and one_answer p.0 q.0")
        self.assertEqual(laws.proof_of(declared("(x: &mut [u8]) -> u8", one)), "")
        self.assertEqual(laws.proof_of(declared("(x: &mut [u8]) -> u8", "(result ≡ f x) × (x.new ≡ g)")), "")
        self.assertEqual(laws.proof_of(declared("(x: u8) -> u8", "result ≡ false → Counts x")), "")
        self.assertEqual(laws.proof_of(declared("(x: u8) -> u8", "let y = x; result ≡ y")), "")

    def test_what_is_generic_over_constants(self):
        text = "impl<const N: usize> Text<N> {\n    pub fn f<'a, const M: u8>(&mut self) -> u8\n        ensures { self.new ≡ [] }\n    {\n    }\n}\n"
        function = function_of(text)
        self.assertEqual(
            laws.law_type(function, "F"),
            "(N : ℕ) (fits-N : Fits w64 N) (M : ℕ) (fits-M : Fits w8 M) → OneAnswer (F.Post N fits-N M fits-M) (λ κs r s. r beside s.0.now)",
        )
        self.assertEqual(laws.binders_of(function), "N fits-N M fits-M κs a x y s t p q")

    def test_what_is_generic_over_a_type(self):
        with self.assertRaisesRegex(laws.NoForm, "generic over F, and there is a law only for constants"):
            laws.law_type(declared("<F: Fn(u8) -> u8>(f: F) -> u8"), "F")

    def test_what_is_lent_to_be_read_needs_its_clause(self):
        one, read = "result ≡ f x.now", "x.exit.now ≡ x.entry.now"
        function = lambda *clauses: declared("(x: &[u8], at: usize) -> u8", *clauses)
        self.assertEqual(laws.law_type(function(one), "F"), "OneAnswer F.Post (λ κs r s. r beside s.0.now)")
        self.assertEqual(laws.proof_of(function(one, read)), "one_answer p.0 q.0 and one_answer p.1 q.1")
        self.assertEqual(laws.proof_of(function(read, one)), "one_answer p.1 q.1 and one_answer p.0 q.0")
        for clauses in ((one,), (one, "x.now ≡ x.now"), (one, "x.entry.now ≡ x.entry.now"), (one, "at ≡ at"), (read,)):
            with self.subTest(clauses):
                self.assertEqual(laws.proof_of(function(*clauses)), "")
        written = declared("(x: &[u8], y: &mut [u8])", read, "y.exit.now ≡ g")
        self.assertEqual(laws.proof_of(written), "")


class Lent(ContractsTest):
    """A public function to which a struct is lent."""

    def setUp(self):
        super().setUp()
        self.files[LIB] += CLOCK_IN
        self.edit(LAWS, "use Rattle.alpha.proofs.one", "use Rattle.alpha.proofs.clock_in.Reads as AlphaClockIn\nuse Rattle.alpha.proofs.one")
        self.files[LAWS] += f"\npub alpha-clock-in : {CLOCK_LAW}\nalpha-clock-in κs a x y s t p q = one_answer p.0 q.0 and one_answer p.1 q.1\n"

    def test_its_law(self):
        self.assertRight()

    def test_a_law_that_leaves_the_struct_out(self):
        self.assertLaw("r beside s.0.now)\nalpha-clock-in", "r)\nalpha-clock-in", "alpha-clock-in has to be of the type")

    def test_a_law_over_no_contract(self):
        self.assertLaw("OneAnswer AlphaClockIn.Post", "OneAnswer AlphaOther.Post", "alpha-clock-in has to be of the type")

    def test_a_law_over_another_part_of_the_contract(self):
        self.assertLaw("OneAnswer AlphaClockIn.Post", "OneAnswer AlphaClockIn.Learnt", "alpha-clock-in has to be of the type")


class Written(ContractsTest):
    """The file of laws written anew."""

    def written(self):
        """The laws' text after it was written."""
        self.write()
        self.said = list(written.write(self.top))
        return (self.top / LAWS).read_text()

    def test_a_file_that_is_right_keeps_its_laws(self):
        text = self.written()
        self.assertEqual(self.wrong(), [])
        self.assertIn("alpha-rest κs a x y s t p q = (by hand)\n", text)
        self.assertTrue(text.startswith("-- One answer.\nuse Rattle.one_answer.specs.OneAnswer.{OneAnswer, ◌beside◌}\nuse Rattle.basics.proofs.Alike.{one_answer}\n"))
        self.assertEqual(list(written.write(self.top)), self.said)
        self.assertEqual((self.top / LAWS).read_text(), text)

    def test_laws_and_names_that_are_missing(self):
        self.files[LAWS] = "-- One answer.\nuse Rattle.one_answer.specs.OneAnswer.{OneOutcome, OneAnswer}\nuse old.Names.{no-more}\n"
        text = self.written()
        self.assertEqual(self.wrong(), [])
        for line in ("use Rattle.basics.proofs.Alike.{one_answer}", "use Rattle.one_answer.proofs.Alike.{◌and◌}"):
            self.assertIn(line + "\n", text)
        self.assertNotIn("OneOutcome", text)
        self.assertNotIn("no-more", text)
        self.assertIn("alpha-rest = ?\n", text)
        self.assertEqual(self.said, [f"{LAWS}: 5 laws, 1 without a proof"])

    def test_a_hole_where_a_lent_slice_may_change(self):
        for clause in ("    ensures read { src.now ≡ src.now }\n", ""):
            with self.subTest(clause):
                self.files = dict(self.FILES)
                self.edit(LIB, "    ensures read { src.exit.now ≡ src.entry.now }\n", clause)
                self.edit(LAWS, " and one_answer p.1.1.1 q.1.1.1", "")
                self.edit(LAWS, "r beside s.0.now beside s.1.1.0.now", "r beside s.0.now")
                text = self.written()
                self.assertIn("pub alpha-put : OneAnswer AlphaPut.Post (λ κs r s. r beside s.0.now beside s.1.1.0.now)\nalpha-put = ?\n", text)
                self.assertEqual(self.said, [f"{LAWS}: 5 laws, 1 without a proof"])

    def test_a_law_besides_and_a_wrong_type(self):
        self.files[LAWS] = FILES[LAWS].replace("(λ κs r s. r)\nalpha-one", "(λ κs r s. 0)\nalpha-one")
        self.files[LAWS] += "\npub more : OneAnswer AlphaOne.Post (λ κs r s. r)\nmore κs a x y s t p q = one_answer p q\n"
        self.assertNotIn("more", self.written())
        self.assertEqual(self.wrong(), [])
