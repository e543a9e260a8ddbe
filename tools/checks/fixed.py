"""Texts that may say only one thing: the forms of the laws, what it means that a contract states something, what clauses see of a type in
place of its fields, the programs and the streams.

Nothing else notices when one of these comes to say less: the laws' and the promises' types only name the forms, and the programs' own code
has no contract. So each is held to its words here, comments and white space apart, and is changed here and there together.
"""
from checks import antt, source
from checks.loops import CUTS, SERIAL

FORMS = """use Rattle.std.specs.Prelude.{◌≡◌}

abbrev pub OneAnswer : {K : Type 0} {D R S A : K → Type 0} → ((κs : K) → D κs → R κs → S κs → Type 0) → (seen : (κs : K) → R κs → S κs → A κs) → Type 0
OneAnswer {K} {D} {R} {S} P seen = (κs : K) (a : D κs) (x y : R κs) (s t : S κs) → P κs a x s → P κs a y t → seen κs x s ≡ seen κs y t

infixr 20 ◌beside◌
abbrev pub ◌beside◌ : {A B : Type 0} → A → B → A × B
x beside y = (x, y)
"""

STATES = """abbrev pub States : {K : Type 0} {D R S : K → Type 0} → (P Q : (κs : K) → D κs → R κs → S κs → Type 0) → Type 0
States {K} {D} {R} {S} P Q = (κs : K) (a : D κs) (r : R κs) (s : S κs) → P κs a r s → Q κs a r s
"""

# What clauses see of a type that has an `impl Model`, by its crate and its name; whoever changes it, or adds one, reads what it shows.
MODELS = {("text", "Text"): {"Value": "{ List ℕ }", "view": "{ λ t. take t.used t.bytes }"}}
# The library's words in these, each under its own name.
PRELUDE, LIBRARY = "Rattle.std.specs.Prelude", {"List", "ℕ", "take"}

LISTING = r"""#![tactic(auto)]

use streams::answer;

fn main(rt: HostRuntime) {
    let mut room = [0u8; lister::INPUT + 1];
    answer(&rt, &mut room, |input| lister::list(input));
}
"""

# The library through which the programs read and write.
STREAMS = r"""#![tactic(auto)]

ghost use Rattle.std.specs.Prelude.{◌≤◌, length, IfOk};

use std::convert::AsSlice;
use std::io;
use std::io::{Read, Write};
use text::said;

pub fn read_full<R: Read>(from: &mut R, buf: &mut [u8]) -> usize
    ensures { result ≤ length buf.new }
{
    let mut n: usize = 0;
    while n < buf.len() {
        match from.read(&mut buf[n..]) {
            Ok(0) | Err(_) => return n,
            Ok(got) => n += got,
        }
    }
    n
}

pub fn read_input<R: Read>(from: &mut R, buf: &mut [u8]) -> io::Result<usize>
    ensures { IfOk result (λ n. n ≤ length buf.new) }
{
    from.read(&mut [])?;
    Ok(read_full(from, buf))
}

pub fn complain(rt: &HostRuntime, readable: bool, written: bool) {
    let unread: &[u8] = b"standard input cannot be read\n";
    let unwritten: &[u8] = b"standard output cannot be written\n";
    let _ = Write::write_all(&mut rt.stderr(), said(!readable, unread));
    let _ = Write::write_all(&mut rt.stderr(), said(!written, unwritten));
}

pub fn answer<T: AsSlice<u8> + Drop, F: Fn(&[u8]) -> T>(rt: &HostRuntime, room: &mut [u8], make: F)
    requires { F.IsAlwaysCallable make }
{
    let came = read_input(&mut rt.stdin(), room);
    let readable = came.is_ok();
    let text = make(&room[..came.unwrap_or(0)]);
    let written = Write::write_all(&mut rt.stdout(), said(readable, text.as_slice()));
    complain(rt, readable, written.is_ok());
}
"""


def program_of(crate, function):
    """A program by its words, as the listing is; it differs in the function that makes the text, and in its crate."""
    return LISTING.replace("lister::list(", f"lister::{function}(").replace("lister::", f"{crate}::")


# The programs whose own code decides nothing, and those that decide only how long to go on.
PROGRAMS = {
    "listing": LISTING,
    "rooms": program_of("rooms_text", "room"),
    "counts": program_of("report_text", "tell"),
    "serial": SERIAL,
    "cuts": CUTS,
}


# The libraries that only read and write. No contract can say what comes in from outside or whether it goes out, so their functions have no
# law, and stand here by their words.
EDGES = {"streams": STREAMS}


def definitions_fault(text, due):
    """Why a file of definitions does not say what is due, or nothing. Its comments are whole lines that begin with `-- `."""
    said = "\n".join("" if line.startswith("-- ") else line for line in text.split("\n"))
    try:
        there = [item.text for item in antt.items_of(antt.strict_text(said))]
    except antt.Unreadable as why:
        return str(why)
    wanted = [item.text for item in antt.items_of(due)]
    for number, item in enumerate(wanted):
        if number >= len(there) or there[number] != item:
            return f"it has to say `{item}`, and says `{there[number] if number < len(there) else 'nothing'}`"
    return f"it says `{there[len(wanted)]}` besides" if len(there) > len(wanted) else ""


def program_fault(tokens, due):
    """Why a program's tokens are not those that are due, or nothing."""
    wanted = [token.text for token in source.tokens_of(due)]
    there = [token.text for token in tokens]
    if there == wanted:
        return ""
    at = next((place for place, (one, other) in enumerate(zip(there, wanted)) if one != other), min(len(there), len(wanted)))
    line = tokens[min(at, len(tokens) - 1)].line if tokens else 1
    return f"line {line}: `{' '.join(there[at:at + 6]) or 'the end'}` where `{' '.join(wanted[at:at + 6]) or 'the end'}` is due"
