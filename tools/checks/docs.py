"""The documents: what they quote is there, their paths and links lead somewhere, and their counts are right."""
import re

from checks import markdown, places, promises, proofs, rules
from checks.things import DESK, Things, desk_fault

PAGES = ("README.md", "docs/PROMISES.md", "docs/RULES.md", "docs/DECISIONS.md", "docs/EVIDENCE.md", "docs/CHECK-TIMES.md",
         "docs/PROVING.md", "docs/LISTING.md")
TIMES = "docs/CHECK-TIMES.md"
TIMES_HEAD = ("crate", "functions", "seconds", "memory, MB", "must-fail edits")
NOT_MEASURED = "not measured"  # for seconds and memory, of a crate that came after the measurements


def check_quotes(things, page, text):
    """Yields each quoted thing that names nothing."""
    for line, quoted in markdown.quotes_of(text):
        fault = "a quote that is not closed" if quoted is None else things.fault_of(quoted)
        if fault:
            yield f"{page}:{line}: {fault}"


def check_paths(things, page, text):
    """Yields each path that leads nowhere and each function that is none, quoted or not, and each link."""
    for line, words in markdown.words_outside(text):
        if not things.has_path(words):
            yield f"{page}:{line}: there is no {words}"
    for line, words in markdown.calls_of(text):
        if not things.has_call(words.split("::")):
            yield f"{page}:{line}: no function {words}"
    for line, aim in markdown.links_of(text):
        path = (things.top / page).parent / aim.partition("#")[0]
        if not aim.startswith(("http://", "https://")) and not path.exists():
            yield f"{page}:{line}: a link to {aim}, which is not there"


def check_hidden(things, page, text):
    """Yields each comment, which a reader of the page would not see."""
    for number, line in enumerate(text.split("\n"), 1):
        if "<!--" in line:
            yield f"{page}:{number}: a comment that a reader does not see"


def check_counts(things, page, text):
    """Yields each sentence that says another number of must-fail edits than there are."""
    for match in re.finditer(r"\b([\d,]+)\s+must-fail\s+edits", text):
        if int(match.group(1).replace(",", "")) != len(things.edits):
            yield f"{page}:{text.count(chr(10), 0, match.start()) + 1}: {match.group(1)} must-fail edits, and there are {len(things.edits)}"


def check_desk(things, page, text):
    """Yields each call of the desk in a block of code that is none, and each explained line there that no example has."""
    lines = [line[4:] for line in text.split("\n") if markdown.is_code(line)]
    shown = {line for path in things.top.glob("examples/*.explained") for line in path.read_text().splitlines()}
    for line in lines:
        if line.startswith(DESK) and desk_fault(line):
            yield f"{page}: {desk_fault(line)}"
        if re.match(r"[0-9a-f]{8}  [0-9a-f]{16}  ", line) and line not in shown:
            yield f"{page}: no example has the line {line}"


def check_form(page, text):
    """Yields what is wrong with the form of a page's tables."""
    for table in markdown.tables_of(text):
        yield from (f"{page}:{line}: {what}" for line, what in table.wrong)


def check_crates(things, page, text):
    """Yields each row under `crate` that names none."""
    for table in markdown.tables_of(text):
        for row in table.rows:
            name = row.cells.get("crate", "").split(" ")[0]
            if "crate" in row.cells and name not in things.crates:
                yield f"{page}:{row.line}: there is no crate {name}"


def check_times(things):
    """Yields what is wrong with the table of check times: a crate that is missing or comes twice, a count that is not right."""
    tables = [table for table in markdown.tables_of((things.top / TIMES).read_text()) if table.head == TIMES_HEAD]
    if len(tables) != 1:
        yield f"{TIMES}: {len(tables)} tables with the head {' | '.join(TIMES_HEAD)}, and not one"
        return
    named = []
    for row in tables[0].rows:
        name = row.cells["crate"].removesuffix(" (theorems)")
        named.append(name)
        edits = sum(crate == name for crate, _ in things.edits)
        for column, count in (("functions", str(len(things.functions(name)))), ("must-fail edits", str(edits) if edits else "")):
            said = row.cells.get(column, "")
            if said != count:
                yield f"{TIMES}:{row.line}: {name} has {count or 'no'} {column}, and the row says {said or 'nothing'}"
        measured = [row.cells.get(column, "") for column in ("seconds", "memory, MB")]
        if measured != [NOT_MEASURED] * 2 and not all(said.isdecimal() for said in measured):
            yield f"{TIMES}:{row.line}: {name} has its seconds and its memory as numbers, or '{NOT_MEASURED}' for both"
    for name in things.crates:
        if named.count(name) != 1:
            yield f"{TIMES}: {named.count(name)} rows for the crate {name}, and not one"
    for name in sorted(set(named) - set(things.crates)):
        yield f"{TIMES}: a row for {name}, which crates.txt does not list"


def check_tools(things):
    """Yields the commands in tools/ that the README's list lacks, and those in the list that are none."""
    page = (things.top / "README.md").read_text()
    match = re.search(r"^    tools/ +(\S.*)$", page, re.M)
    listed = match.group(1).split(", ") if match else []
    there = [path.name for path in (things.top / "tools").iterdir() if path.is_file() and not path.suffix]
    yield from (f"README.md: the list of tools lacks {name}" for name in sorted(set(there) - set(listed)))
    yield from (f"README.md: the list of tools has {name}, and there is no tools/{name}" for name in sorted(set(listed) - set(there)))


def check(top):
    """All that is wrong with the documents, line by line."""
    things, wrong = Things(top), []
    for page in PAGES:
        if not (top / page).is_file():
            wrong.append(f"there is no {page}")
    if wrong:
        return wrong
    for page in PAGES:
        text = (top / page).read_text()
        for part in (check_quotes, check_paths, check_hidden, check_counts, check_crates, check_desk):
            wrong += part(things, page, text)
    for page in ("README.md", "docs/DECISIONS.md", "docs/EVIDENCE.md", "docs/PROVING.md", "docs/LISTING.md", TIMES):
        wrong += check_form(page, (top / page).read_text())
    wrong += rules.check(things)
    wrong += promises.check(things)
    wrong += check_times(things)
    wrong += check_tools(things)
    wrong += places.check(things)
    wrong += proofs.check(top)
    return list(dict.fromkeys(wrong))
