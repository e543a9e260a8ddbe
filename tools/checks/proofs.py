"""How a proof may reach for its facts, so that it can be read and survives a change of the code.

A path into the facts has at most three steps back; further ones begin at a waypoint that has a name. Numbers are told by what is known of
them, and not by a tower of successors.
"""
import re

MOST_BACK = 3
BACK = re.compile(r"(?:\.before\b\s*){%d,}" % (MOST_BACK + 1))
TOWER = re.compile(r"\bsuc \(suc \(suc\b")


def wrong_lines(text):
    """The lines of a proof, with what is wrong with each."""
    found = [(match.start(), f"a path of more than {MOST_BACK} steps back; give a place on the way a name") for match in BACK.finditer(text)]
    found += [(match.start(), "a tower of successors") for match in TOWER.finditer(text)]
    for at, why in sorted(found):
        yield text.count("\n", 0, at) + 1, why


def check(top):
    """Yields what is wrong with the proofs of all crates."""
    for path in sorted((top / "crates").glob("*/proofs/**/*.antt")):
        for number, why in wrong_lines(path.read_text()):
            yield f"{path.relative_to(top)}:{number}: {why}"
