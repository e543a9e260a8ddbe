"""A small repository with a library, its laws and a program, for the tests of tools/check-contracts."""
from checks import contracts, fixed
from tests.trees import TreeTest

LIB = "crates/alpha/src/lib.rt"
LAWS = contracts.LAWS

FILES = {
    "crates.txt": "# crates\nalpha:\nlisting: alpha\none_answer: alpha\n",
    LIB: """// What is public.
#![tactic(auto)]

ghost use Rattle.std.specs.Prelude.{◌≡◌};
mod width;

pub use width::Width;

/* a block
   pub fn hidden() */
pub fn one(x: u8) -> u8
    ensures { result ≡ x }
{
    let quoted = b"pub fn not_one() {";
    let brace = b'{';
    x
}

fn helper(x: u8) -> [u8; 2]
    requires { x ≤ 9 }
{
    [x, x]
}

pub fn put(dst: &mut [u8], at: usize, src: &[u8]) -> bool
    ensures said { result ≡ true }
    ensures held { dst.new ≡ dst.old }
    ensures long { length dst.new ≤ length src.now }
    ensures read { src.exit.now ≡ src.entry.now }
{
    true
}

pub fn rest(batch: &[u8], taken: usize) -> &[u8]
    ensures { result.now ≡ batch.now }
{
    &batch[taken..]
}

#[unsafe(no_mangle)]
pub extern "C" fn two_of(x: u8) -> u8
    ensures { result ≡ x }
{
    x
}
""",
    "crates/alpha/src/width.rt": """#[derive(Clone, Copy)]
pub enum Width {
    Five,
}

impl Width {
    pub fn counted(self, x: u16) -> u16
        ensures { result ≡ x }
    {
        x
    }
}
""",
    "crates/one_answer/src/lib.rt": "// No code.\n",
    contracts.FORMS: "-- The \"forms\".\n" + fixed.FORMS,
    LAWS: """-- One answer.
use Rattle.one_answer.specs.OneAnswer.{OneAnswer, ◌beside◌}
use Rattle.basics.proofs.Alike.{one_answer}
use Rattle.one_answer.proofs.Alike.{◌and◌}
use Rattle.alpha.proofs.one.Reads as AlphaOne
use Rattle.alpha.proofs.put.Reads as AlphaPut
use Rattle.alpha.proofs.rest.Reads as AlphaRest
use Rattle.alpha.proofs.two_of.Reads as AlphaTwoOf
use Rattle.alpha.proofs.width.Width.counted.Reads as AlphaCounted

pub alpha-one : OneAnswer AlphaOne.Post (λ κs r s. r)
alpha-one κs a x y s t p q = one_answer p q

pub alpha-put : OneAnswer AlphaPut.Post
  (λ κs r s. r beside s.0.now beside s.1.1.0.now)
alpha-put κs a x y s t p q =
  one_answer p.0 q.0 and one_answer p.1.0 q.1.0 and one_answer p.1.1.1 q.1.1.1

pub alpha-rest : OneAnswer AlphaRest.Post (λ κs r s. r.now beside r.ref_ptr beside s.0.now)
alpha-rest κs a x y s t p q = (by hand)

pub alpha-two-of : OneAnswer AlphaTwoOf.Post (λ κs r s. r)
alpha-two-of κs a x y s t p q = one_answer p q

pub alpha-counted : OneAnswer AlphaCounted.Post (λ κs r s. r)
alpha-counted κs a x y s t p q = one_answer p q
""",
    "crates/listing/src/main.rt": "// if there is an input\n" + fixed.LISTING,
}


class ContractsTest(TreeTest):
    """A base for the tests over it."""

    FILES = FILES

    def wrong(self):
        """What the check finds."""
        return contracts.check(self.top)[0]

    def assertLaw(self, old, new, words):
        """The laws with one change are refused."""
        self.edit(LAWS, old, new)
        self.assertWrong(words)

    def assertSource(self, text, words):
        """The library with some lines more is refused."""
        self.files[LIB] += text
        self.assertWrong(words)
