"""A small repository with documents, for the tests of tools/check-docs."""
from unittest import mock

from checks import docs, fixed, promises, statements
from tests.trees import TreeTest

RULES, PROMISES, DECISIONS, TIMES = "docs/RULES.md", "docs/PROMISES.md", "docs/DECISIONS.md", "docs/CHECK-TIMES.md"
EVIDENCE, PROVING, LISTING = "docs/EVIDENCE.md", "docs/PROVING.md", "docs/LISTING.md"
EXPLAINED = "04000000  0400000200000000  strike: latch $0002, outside the picture"
ONE = "crates/alpha/specs/One.antt"
FILE = promises.FILE
HEAD = "| promise | statement | proof | restated as | refused |\n|---|---|---|---|---|\n"

PARTS = "\n| part | statement | refused |\n|---|---|---|\n"
FILES = {
    "crates.txt": "alpha:\npromises: alpha\n",
    "tools/check-docs": "takes --all",
    "crates/alpha/src/lib.rt": """// The word ghostly stands in a comment only, as does fn ghostly().
ghost use Rattle.alpha.specs.One.{one_of};
mod width;

const LIMIT: u8 = 9;

pub fn one(x: u8) -> u8
    ensures place { result ≡ one_of x }
{
    let quoted = b"fn ghostly()";
    x
}
""",
    "crates/alpha/src/width.rt": """ghost use Rattle.alpha.specs.One.{counted_of};

pub enum Width {
    Five,
}

impl Width {
    const MASKS: [u8; 2] = [1, 2];

    pub fn counted(self, x: u16) -> u16
        ensures { result ≡ counted_of x }
    {
        x
    }
}
""",
    "crates/alpha/specs/One.antt": """-- ghost_of : ℕ stands in a comment only
use Rattle.std.specs.Prelude.{◌≡◌}

abbrev pub one_of : ℕ → ℕ
one_of x = x

unfoldable pub counted_of : ℕ → ℕ
counted_of x = x

pub record Ones (k l : ℕ) : Type 0 where
  -- hidden : it stands in a comment
  pub first : k ≡ l
  pub second : k
      ≡ l
""",
    "crates/alpha/proofs/Ones.antt": "pub ones : (k l : ℕ) → Ones k l\nones k l = _\n\npub other : (k l : ℕ) → Ones k l\nother = ones\n",
    "crates/alpha/must-fail/two.edit": "# two\nfile: src/lib.rt\nold:     x\nnew:     x + 1\n",
    "crates/alpha/must-fail/false.edit": "# false\nfile: specs/One.antt\nold: pub first : k ≡ l\nnew: pub first : l ≡ k\n",
    "crates/promises/src/lib.rt": "// No code.\n",
    promises.STATES_FILE: "-- What it \"means\".\n" + fixed.STATES,
    FILE: """-- The promises.
use Prim.Native.Nat.{ℕ}
use Rattle.std.specs.Prelude.{◌≡◌}
use Rattle.alpha.specs.One.{Ones as AlphaOnes, one_of}
use Rattle.alpha.proofs.Ones.{ones}
use Rattle.alpha.proofs.one.Reads as AlphaOne
use Rattle.promises.specs.States.{States}

pub ones-of-all :
    (k l : ℕ)
    → AlphaOnes k l
ones-of-all = ones

pub one-of-each : States AlphaOne.Post (λ κs a r s. (r ≡ one_of a.0) × (s.0.now ≡ a.0.now))
one-of-each κs a r s p = (p.0, p.1.0)
""",
    "README.md": """# A thing

`tools/check-docs` and [docs](docs/RULES.md) and `alpha`; a record has `lo`, and `0300000100130000` is a line.

    tools/      check-docs
    `not read: in a block of code`
""",
    RULES: """# Rules

An entry `alpha: one_of` names a thing.

| rule | definition | code | refused |
|---|---|---|---|
| one | `alpha: one_of`, `alpha: first` | `alpha: one`, `alpha: LIMIT`, `alpha: MASKS` | `alpha: two` |
| none | (see crates/alpha) |  | `alpha: false` |

| form | code |
|---|---|
| a form | `alpha: counted` |
""",
    PROMISES: "# Promises\n\nPlaces: `crates/alpha/specs/One.antt: Ones`; the clause `place`.\n\n" + HEAD + (
        "| one is one | `crates/alpha/specs/One.antt: Ones` | `crates/alpha/proofs/Ones.antt: ones` | `ones-of-all` | `alpha: false` |\n"
        "| each | `crates/alpha/specs/One.antt: one_of` | the contract of `alpha::one` | `one-of-each` | `alpha: two` |\n"
    ) + PARTS + "| both | `crates/alpha/specs/One.antt: first`, `crates/alpha/specs/One.antt: second` | `alpha: false` |\n",
    DECISIONS: "# Decisions\n\nSee `alpha/src/width.rt`, `Width::counted`, `alpha::Width`, `Width::MASKS`, `one_of`\nand `alpha::one`.\n",
    EVIDENCE: "# Evidence\n\n| tried | closed by |\n|---|---|\n| one | `alpha` |\n",
    PROVING: "# Proving\n\n`goal.returns-2`, `has_room-requires` and `overflow_add-x` of `c.before.f`; `rt ci alpha`, `rt check --only NAME`, `tools/check-docs --all`.\n",
    LISTING: f"""# Listing

`./vorstelpijp explain FILE` with `--as hex`, `R0 = 63; strike` and `end 0`:

    ./vorstelpijp explain examples/one.batch
    {EXPLAINED}
""",
    "examples/one.batch": "strike\n",
    "examples/one.explained": f"{EXPLAINED}\n          end 0             every record was answered\n",
    TIMES: """# Times

| crate | functions | seconds | memory, MB | must-fail edits |
|---|---|---|---|---|
| alpha | 2 | 1 | 1 | 2 |
| promises (theorems) | 0 | 1 | 1 |  |

All 2 must-fail edits.
""",
}


class DocsTest(TreeTest):
    """A base for the tests over it."""

    FILES = FILES

    def setUp(self):
        super().setUp()
        read = mock.patch.dict(statements.SUMS, {ONE: statements.sum_of(FILES[ONE])}, clear=True)
        read.start()
        self.addCleanup(read.stop)

    def wrong(self):
        """What the check finds."""
        return docs.check(self.top)

    def assertEdit(self, path, old, new, words):
        """A page with one change is refused."""
        self.edit(path, old, new)
        self.assertWrong(words)
