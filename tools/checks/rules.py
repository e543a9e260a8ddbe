"""docs/RULES.md: every row of its tables names what is there, every rule a wrong program, and every wrong program a rule."""
import re

from checks import markdown

PAGE = "docs/RULES.md"
ENTRY = re.compile(r"`(\w+): ([\w◌-]+)`")
ENTRIES = re.compile(r"`\w+: [\w◌-]+`(?:, `\w+: [\w◌-]+`)*")
REMARK = re.compile(r"\([^()`]+\)")
# The heads of its tables, each with the columns that may be empty or hold a remark in round brackets instead.
HEADS = {("rule", "definition", "code", "refused"): ("definition", "code"), ("form", "code"): ()}


def kinds_of(things):
    """What an entry stands for, by the name of its column: the test, and what it is called."""
    return {
        "definition": (things.has_definition, "definition"),
        "code": (things.has_code, "function or constant"),
        "refused": (things.has_edit, "must-fail edit"),
    }


def check_cell(things, column, cell, may_lack):
    """Yields what is wrong with a cell of entries."""
    there, what = kinds_of(things)[column]
    if may_lack and (not cell or REMARK.fullmatch(cell)):
        return
    if not ENTRIES.fullmatch(cell):
        yield f"under {column} stands `crate: name`, or several with commas between them, each in its quotes, and not {cell or 'nothing'}"
    for crate, name in ENTRY.findall(cell):
        if not there(crate, name):
            yield f"no {what} {name} in crate {crate}"


def check(things):
    """Yields what is wrong in the tables."""
    named = set()
    for table in markdown.tables_of((things.top / PAGE).read_text()):
        yield from (f"{PAGE}:{line}: {what}" for line, what in table.wrong)
        if table.head not in HEADS:
            yield f"{PAGE}:{table.line}: a table with the head {' | '.join(table.head)}, which is none of those that are read"
            continue
        for row in table.rows:
            if not row.cells.get(table.head[0]):
                yield f"{PAGE}:{row.line}: a row without its {table.head[0]}"
            for column in table.head[1:]:
                may_lack = column in HEADS[table.head]
                yield from (f"{PAGE}:{row.line}: {what}" for what in check_cell(things, column, row.cells.get(column, ""), may_lack))
            named.update(ENTRY.findall(row.cells.get("refused", "")))
    for crate, name in things.edits:
        if (crate, name) not in named:
            yield f"{PAGE}: no row names crates/{crate}/must-fail/{name}.edit"
