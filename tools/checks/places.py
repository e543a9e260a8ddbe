"""What a reader has to believe stands apart: specs/private/ of a crate holds what serves its private contracts alone, and nothing else does.

A definition in specs/ is one on which a promise, a public contract or a law of one answer rests; one in specs/private/ is one on which
none of them does.
"""
from checks import antt
from checks.grounds import Grounds

PRIVATE = "private/"
# Crates of a request that is half done (W6, a customer's setup in one file): what they state has no proof or no promise yet. A crate leaves
# this list as soon as one of its statements is promised, and no other crate comes into it.
BEGUN = ("setup_reader", "setup_trips")


def check(things):
    """Yields each definition that stands in the other place."""
    try:
        grounds = Grounds(things)
    except antt.Unreadable as why:
        yield str(why)
        return
    believed = grounds.believed()
    for one in grounds.definitions.all:
        path = f"crates/{one.crate}/specs/{one.file}:{one.line}: {one.name}"
        if one.file.startswith(PRIVATE) and one in believed:
            yield f"{path} stands in specs/private/, and a promise or a public contract rests on it"
        elif not one.file.startswith(PRIVATE) and one not in believed and one.crate not in BEGUN:
            yield f"{path} belongs in specs/private/: no promise and no public contract rests on it"
