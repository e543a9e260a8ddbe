"""docs/PROMISES.md, held to crates/promises/proofs/Promises.antt name by name.

The file states every promise once more, over names that it imports, and gives for each either the one theorem that it cites or, for a
promise that is a contract, the contract's own proof. It may hold nothing else. Each row of the page's tables says where the statement and
the proof stand, the name under which the promise is restated, and the wrong programs or false statements that are refused.
"""
import re

from checks import antt, fixed, markdown, parts, statements
from checks.entries import CONTRACT, STATEMENT, THEOREM, check_refused, several
from checks.parts import PAGE
from checks.restated import BASE, FILE, STATES, check_contract, check_theorem, local_name

HEAD = ("promise", "statement", "proof", "restated as", "refused")
STATES_FILE = "crates/promises/specs/States.antt"


def check_uses(uses):
    """Yields what is wrong with the file's `use` lines: a name or a thing that comes twice, or one that other lines begin with."""
    heads = {use.module.split(".")[0] for use in uses}
    for name in antt.twice([use.name for use in uses]):
        yield f"{FILE}: {name} is brought in twice"
    for thing in antt.twice([f"{use.module}.{use.item}" for use in uses]):
        yield f"{FILE}: {thing.rstrip('.')} is brought in under two names"
    for use in uses:
        if use.name in heads:
            yield f"{FILE}:{use.line}: {use.name} would stand for the module that other `use` lines begin with"
        if not use.item and not use.module.endswith(".Reads"):
            yield f"{FILE}:{use.line}: a whole module is brought in; name what is needed of it"


def statements_of(uses, entries):
    """The names that a row's statements have in the file, and what is wrong with how they come there."""
    names, wrong = [], []
    for crate, file, name in entries:
        module = f"Rattle.{crate}.specs.{file.replace('/', '.')}"
        here = local_name(uses, module, name)
        names.append(here or name)
        if here is None:
            wrong.append(f"{FILE} does not bring {name} from {module}")
    return names, wrong


def check_row(things, uses, stated, row):
    """Yields what is wrong with one row, given the promises of the file by their names."""
    name = re.fullmatch(r"`([^`\s]+)`", row.cells["restated as"])
    entries = several(STATEMENT, row.cells["statement"])
    theorem, contract = THEOREM.fullmatch(row.cells["proof"]), CONTRACT.fullmatch(row.cells["proof"])
    if not row.cells["promise"]:
        yield "a row without its promise"
    if entries is None:
        yield "under statement stands `crates/NAME/specs/File.antt: name`, or several with commas between them"
    if not theorem and not contract:
        yield "under proof stands one `crates/NAME/proofs/File.antt: name`, or the contract of one `crate::function`"
    yield from check_refused(things, row.cells["refused"], {crate for crate, _, _ in entries or ()} if theorem else set())
    if name is None or name.group(1) not in stated:
        yield f"under restated as stands one quoted name of {FILE}, and not {row.cells['restated as'] or 'nothing'}"
        return
    for crate, file, item in entries or ():
        if not things.has_place(f"crates/{crate}/specs/{file}.antt", item):
            yield f"no {item} in crates/{crate}/specs/{file}.antt"
    names, wrong = statements_of(uses, entries or ())
    yield from wrong
    originals = [item for _, _, item in entries or ()]
    promise = stated[name.group(1)]
    checked = ()
    if theorem:
        checked = check_theorem(things, uses, promise, theorem.groups(), names, originals)
    elif contract:
        checked = check_contract(things, uses, promise, contract.group(1), names)
    yield from (f"{promise.name}: {what}" for what in checked)


def check_tables(things, uses, stated):
    """Yields what is wrong with the page's tables, and between their names and those of the file."""
    by_name, named = {promise.name: promise for promise in stated}, []
    promised, told = set(), set()
    for table in markdown.tables_of((things.top / PAGE).read_text()):
        yield from (f"{PAGE}:{line}: {what}" for line, what in table.wrong)
        if table.head in parts.HEADS:
            for row in table.rows:
                told.update(several(STATEMENT, row.cells.get("statement", "")) or ())
                yield from (f"{PAGE}:{row.line}: {what}" for what in parts.check_part(things, row))
            continue
        if table.head != HEAD:
            yield f"{PAGE}:{table.line}: a table with the head {' | '.join(table.head)}, and not {' | '.join(HEAD)}"
            continue
        for row in table.rows:
            if len(row.cells) == len(HEAD):
                named.append(row.cells["restated as"].strip("`"))
                if THEOREM.fullmatch(row.cells["proof"]):
                    promised.update(several(STATEMENT, row.cells["statement"]) or ())
                yield from (f"{PAGE}:{row.line}: {what}" for what in check_row(things, uses, by_name, row))
    there = {entry for entry in promised | told if things.has_place(f"crates/{entry[0]}/specs/{entry[1]}.antt", entry[2])}
    yield from parts.check_parts(things, promised & there, told & there)
    for name in antt.twice(named):
        yield f"{PAGE}: two rows are restated as {name}"
    for promise in stated:
        if promise.name not in named:
            yield f"{FILE}:{promise.line}: no row of {PAGE} is restated as {promise.name}"


def check_origins(things, uses):
    """Yields each thing that the file brings and that is neither a part of every type nor named by the page."""
    known = set()
    for table in markdown.tables_of((things.top / PAGE).read_text()):
        for row in table.rows if table.head == HEAD else ():
            for crate, file, name in several(STATEMENT, row.cells.get("statement", "")) or ():
                known.add((f"Rattle.{crate}.specs.{file.replace('/', '.')}", name))
            theorem = THEOREM.fullmatch(row.cells.get("proof", ""))
            if theorem:
                known.add((f"Rattle.{theorem.group(1)}.proofs.{theorem.group(2).replace('/', '.')}", theorem.group(3)))
    for use in uses:
        if not use.item:
            continue  # a contract's module: each promise says which
        if (use.module, use.item) in BASE:
            if use.name != use.item:
                yield f"{FILE}:{use.line}: {use.item} is brought in under another name, {use.name}"
        elif (use.module, use.item) not in known:
            yield f"{FILE}:{use.line}: {use.item} of {use.module} is brought in, which the page does not name"


def statement_files(things):
    """The files that hold the statements of theorems and their parts, and what the theorems are about."""
    for table in markdown.tables_of((things.top / PAGE).read_text()):
        for row in table.rows if table.head in (HEAD, *parts.HEADS) else ():
            if table.head in parts.HEADS or THEOREM.fullmatch(row.cells.get("proof", "")):
                for crate, file, _ in several(STATEMENT, row.cells.get("statement", "")) or ():
                    yield f"crates/{crate}/specs/{file}.antt"
    for module, _ in BASE - {STATES}:  # which is held to its very words
        match = re.fullmatch(r"Rattle\.(\w+)\.specs\.(\w+)", module)
        if match and match.group(1) in things.crates:
            yield f"crates/{match.group(1)}/specs/{match.group(2)}.antt"


def check_states(things):
    """Yields what is wrong with the meaning of `States`."""
    if not (things.top / STATES_FILE).is_file():
        yield f"there is no {STATES_FILE}"
        return
    fault = fixed.definitions_fault((things.top / STATES_FILE).read_text(), fixed.STATES)
    if fault:
        yield f"{STATES_FILE}: {fault}"


def check(things):
    """Yields what is wrong with the page's tables and the file."""
    uses, stated = [], []
    if not (things.top / FILE).is_file():
        yield f"there is no {FILE}"
    else:
        try:
            uses, stated = antt.strict_file((things.top / FILE).read_text())
        except antt.Unreadable as why:
            yield f"{FILE}: {why}"
    yield from check_uses(uses)
    yield from check_origins(things, uses)
    yield from check_states(things)
    yield from statements.check(things.top, list(statement_files(things)))
    for name in antt.twice([promise.name for promise in stated]):
        yield f"{FILE}: {name} is stated twice"
    for name in sorted({promise.name for promise in stated} & {use.name for use in uses}):
        yield f"{FILE}: {name} is also the name of what a `use` line brings"
    yield from check_tables(things, uses, stated)
