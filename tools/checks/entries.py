"""What stands in a cell of docs/PROMISES.md: places of statements and proofs, contracts, and must-fail edits."""
import re

from checks import edits

STATEMENT = r"`crates/(\w+)/specs/([\w/]+)\.antt: ([^`\s]+)`"
THEOREM = re.compile(r"`crates/(\w+)/proofs/([\w/]+)\.antt: ([^`\s]+)`")
CONTRACT = re.compile(r"the contract of `(\w+(?:::\w+)+)`")
REFUSED = r"`(\w+): (\w+)`"


def several(pattern, cell):
    """The entries of a cell that holds nothing but such entries with commas between them, or None."""
    alone = re.sub(r"\((?!\?)", "(?:", pattern)
    return re.findall(pattern, cell) if re.fullmatch(f"{alone}(?:, {alone})*", cell) else None


def check_refused(things, cell, crates_of_statements):
    """Yields what is wrong with a row's edits. Of a theorem one at least makes a statement of its crate false."""
    entries = several(REFUSED, cell)
    if entries is None:
        yield f"under refused stands `crate: edit`, or several with commas between them, and not {cell or 'nothing'}"
        return
    false = False
    for crate, name in entries:
        if not things.has_edit(crate, name):
            yield f"no must-fail edit {name} in crate {crate}"
        else:
            pairs = edits.pairs_of(things.edits[crate, name].read_text())
            false = false or crate in crates_of_statements and any(pair.file.startswith("specs/") for pair in pairs)
    if crates_of_statements and not false:
        yield f"none of its edits changes a statement in specs/ of {' or '.join(sorted(crates_of_statements))}"
