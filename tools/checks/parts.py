"""The tables of docs/PROMISES.md that tell the parts of the statements: each part of a promised statement has its row there."""
from checks import antt
from checks.entries import STATEMENT, check_refused, several

PAGE = "docs/PROMISES.md"
# with a false version of each part, or without
HEADS = (("part", "statement", "refused"), ("part", "statement"))


def check_part(things, row):
    """Yields what is wrong with a row that tells parts of a statement: their places and, where asked for, a false version that is refused."""
    entries = several(STATEMENT, row.cells.get("statement", ""))
    if not row.cells.get("part"):
        yield "a row without its part"
    if entries is None:
        yield "under statement stands `crates/NAME/specs/File.antt: name`, or several with commas between them"
        return
    for crate, file, name in entries:
        if not things.has_place(f"crates/{crate}/specs/{file}.antt", name):
            yield f"no {name} in crates/{crate}/specs/{file}.antt"
    if "refused" in row.cells:
        yield from check_refused(things, row.cells["refused"], {crate for crate, _, _ in entries})


def check_parts(things, promised, told):
    """Yields each part of a promised statement that no row tells, and of every record of which a row tells one part."""
    for crate, file in sorted({entry[:2] for entry in promised | told}):
        text = (things.top / "crates" / crate / "specs" / f"{file}.antt").read_text()
        for record, fields in antt.records_of(text).items():
            owed = any((crate, file, field) in told for field in fields)
            owed = owed or any(record in antt.words_of(meant(text, name)) for *place, name in promised if tuple(place) == (crate, file))
            for field in fields if owed else ():
                if (crate, file, field) not in told:
                    yield f"{PAGE}: no row tells the part {field} of {record} in crates/{crate}/specs/{file}.antt"


def meant(text, name):
    """A statement's own name, with its definition where it is one."""
    lines = antt.without_comments(text).split("\n")
    starts = [number for number, line in enumerate(lines) if line.startswith(f"{name} =")]
    block = []
    for line in lines[starts[0] :] if starts else ():
        if not line.strip():
            break
        block.append(line)
    return " ".join([name] + block)
