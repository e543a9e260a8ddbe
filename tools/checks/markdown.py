"""Documents: their tables, what they quote and where their links lead."""
import dataclasses
import re

QUOTE = re.compile(r"`([^`]+)`")
LINK = re.compile(r"\[[^\]]*\]\(([^)\s]*)\)")


@dataclasses.dataclass(frozen=True)
class Row:
    """A row of a table: its line, and its cells by the names in the table's head."""

    line: int
    cells: dict


@dataclasses.dataclass
class Table:
    """A table: the line of its head, the names in it, its rows, and what is wrong with its form."""

    line: int
    head: tuple
    rows: list
    wrong: list


def is_code(line):
    """Whether a line is part of a block of code."""
    return line.startswith("    ")


def cells_of(line):
    """The cells of a table's line, or none where the line is not of the form `| a | b |`."""
    if not (line.startswith("|") and line.endswith("|") and len(line) > 1):
        return None
    return tuple(cell.strip() for cell in line[1:-1].split("|"))


def tables_of(text):
    """The tables of a document. A line that has something of a row and is none is a fault of its table."""
    tables, table = [], None
    for number, line in enumerate(text.split("\n"), 1):
        bare = line.strip()
        if is_code(line) or "|" not in QUOTE.sub("", bare):
            table = None
            continue
        cells = cells_of(bare)
        if table is None:
            table = Table(number, cells or (), [], [])
            tables.append(table)
        if cells is None:
            table.wrong.append((number, "a row of a table begins and ends with |"))
        elif number == table.line + 1:
            if any(not re.fullmatch(r":?-{3,}:?", cell) for cell in cells) or len(cells) != len(table.head):
                table.wrong.append((number, "the second line of a table has --- for each name in the head"))
        elif number > table.line + 1:
            if len(cells) != len(table.head):
                table.wrong.append((number, f"a row of {len(cells)} cells in a table of {len(table.head)}"))
            table.rows.append(Row(number, dict(zip(table.head, cells))))
    for table in tables:
        if len(set(table.head)) != len(table.head):
            table.wrong.append((table.line, "a name stands twice in the head of a table"))
    return tables


def paragraphs_of(text):
    """The lines that belong together outside blocks of code: the number of the first, and their text. A table's line stands alone."""
    start, lines = 0, []
    for number, line in enumerate(text.split("\n") + [""], 1):
        alone = line.lstrip().startswith("|")
        if lines and (not line.strip() or alone or is_code(line) and not lines[-1].startswith(("   ", "- ", "  ")) or line.startswith("#")):
            yield start, "\n".join(lines)
            lines = []
        if alone:
            yield number, line
        elif line.strip() and not (is_code(line) and not lines):
            start = start if lines else number
            lines.append(line)


def quotes_of(text):
    """Each quoted thing with the number of its line; a quote that is not closed is None."""
    for start, words in paragraphs_of(text):
        if words.count("`") % 2:
            yield start, None
        for match in QUOTE.finditer(words):
            yield start + words.count("\n", 0, match.start()), re.sub(r"\n\s*", " ", match.group(1))


def links_of(text):
    """Each link's aim with the number of its line."""
    for match in LINK.finditer(text):
        yield text.count("\n", 0, match.start()) + 1, match.group(1)


def words_outside(text):
    """Each word that looks like a path of the repository, quoted or not, with the number of its line."""
    for number, line in enumerate(text.split("\n"), 1):
        for match in re.finditer(r"(?<![\w/.·-])((?:crates|tools|docs|second|examples|\.ci)/[\w./·*-]*)", line):
            yield number, match.group(1).rstrip(".")


def calls_of(text):
    """Each word `crate::function` or the like outside blocks of code, quoted or not, with the number of its line."""
    for number, line in enumerate(text.split("\n"), 1):
        if not is_code(line):
            for match in re.finditer(r"\b\w+(?:::\w+)+", line):
                yield number, match.group()
