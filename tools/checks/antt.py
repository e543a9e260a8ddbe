"""antt's text: comments taken out, a file's items, its `use` lines, and the names that it declares."""
import dataclasses
import re

RESERVED = set(
    "data record deriving module where use mod pub package using open as unfoldable abbrev axiom unfold unfolding ruleset mutual"
    " infix infixl infixr".split()
)
UNREAD = {"{-": "a block comment", "-}": "a block comment", '"': "a quoted text", "«": "an escaped name", "\t": "a tab"}
NAME = r"[^\s(){}.;,@\"«»]+"
PATH = rf"{NAME}(?:\.{NAME})*"
MODULE_USE = re.compile(rf"use ({PATH})(?: as ({NAME}))?")
ITEMS_USE = re.compile(rf"use ({PATH})\.\{{ ?(.+?) ?,? ?\}}")
ITEM = re.compile(rf"({NAME})(?: as ({NAME}))?")


class Unreadable(Exception):
    """Text that this reader does not take apart; it says why."""


@dataclasses.dataclass(frozen=True)
class Item:
    """What begins at the edge of a line and goes on over the indented lines below, white space folded."""

    line: int
    text: str


@dataclasses.dataclass(frozen=True)
class Use:
    """A name that a `use` line brings: the module, the item in it (none where the module itself is brought), and the name here."""

    line: int
    module: str
    item: str
    name: str


@dataclasses.dataclass(frozen=True)
class Stated:
    """A public declaration of a strict file: its type, and its one clause with the binders before the `=`."""

    line: int
    name: str
    type: str
    binders: str
    body: str


def without_comments(text):
    """The text with its comments and the insides of its quoted texts made blank, line for line."""
    kept, place, depth = [], 0, 0
    while place < len(text):
        rest = text[place : place + 2]
        if depth == 0 and text[place] == '"':
            end = re.compile(r'"(?:[^"\\]|\\.)*"?').match(text, place).end()
            kept.append('"' + " " * (end - place - 2) + '"' if end - place > 1 else " ")
            place = end
        elif rest == "{-" or (depth and rest == "-}"):
            depth += 1 if rest == "{-" else -1
            kept.append("  ")
            place += 2
        elif depth == 0 and rest == "--":
            end = text.find("\n", place)
            place = len(text) if end < 0 else end
        else:
            kept.append(text[place] if depth == 0 or text[place] == "\n" else " ")
            place += 1
    return "".join(kept)


def strict_text(text):
    """The text without its comments, which must be whole lines that begin with `-- `; no block comments and no quoted text."""
    for sign, what in UNREAD.items():
        if sign in text:
            raise Unreadable(f"{what} is not read here")
    lines = []
    for number, line in enumerate(text.split("\n"), 1):
        if re.match(r"\s*--(?: |$)", line):
            lines.append("")
        elif "--" in line:
            raise Unreadable(f"line {number}: a comment here stands on a line of its own")
        else:
            lines.append(line)
    return "\n".join(lines)


def items_of(text):
    """The items of a text without comments: an item begins where a line begins with no space."""
    items = []
    for number, line in enumerate(text.split("\n"), 1):
        if not line.strip():
            continue
        if line[0].isspace():
            if not items:
                raise Unreadable(f"line {number}: an indented line that belongs to nothing")
            items[-1] = (items[-1][0], items[-1][1] + " " + line.strip())
        else:
            items.append((number, line.strip()))
    return [Item(line, re.sub(r"\s+", " ", words)) for line, words in items]


def uses_of(item):
    """The names that one `use` line brings."""
    whole = ITEMS_USE.fullmatch(item.text)
    if whole is None:
        alone = MODULE_USE.fullmatch(item.text)
        if alone is None or alone.group(1).endswith("*"):
            raise Unreadable(f"line {item.line}: a `use` line that is not of the form `use module.{{names}}` or `use module as name`")
        path = alone.group(1)
        return [Use(item.line, path, "", alone.group(2) or path.rpartition(".")[2])]
    uses = []
    for part in whole.group(2).split(","):
        leaf = ITEM.fullmatch(part.strip())
        if leaf is None:
            raise Unreadable(f"line {item.line}: `{part.strip()}` is no plain name")
        uses.append(Use(item.line, whole.group(1), leaf.group(1), leaf.group(2) or leaf.group(1)))
    return uses


def strict_file(text):
    """The uses and the statements of a file that may hold nothing but comments, `use` lines, and for each name its type and one clause."""
    uses, stated, opened = [], [], None
    for item in items_of(strict_text(text)):
        if opened is not None:
            stated.append(clause_of(opened, item))
            opened = None
        elif item.text.startswith("use "):
            if stated:
                raise Unreadable(f"line {item.line}: a `use` line below a statement")
            uses += uses_of(item)
        else:
            opened = signature_of(item)
    if opened is not None:
        raise Unreadable(f"line {opened[0]}: {opened[1]} has a type and no definition")
    return uses, stated


def signature_of(item):
    """The line, the name and the type of `pub NAME : TYPE`."""
    match = re.fullmatch(rf"pub ({NAME}) : (.+)", item.text)
    if match is None or match.group(1) in RESERVED:
        raise Unreadable(f"line {item.line}: `{item.text[:60]}` is no `use` line and no statement `pub name : type`")
    return item.line, match.group(1), match.group(2)


def clause_of(opened, item):
    """The statement that a type and the clause below it make."""
    line, name, kind = opened
    head, sign, body = item.text.partition(" = ")
    words = head.split(" ")
    if not sign or words[0] != name:
        raise Unreadable(f"line {item.line}: the type of {name} is not followed by its definition, `{name} .. =`")
    for word in re.findall(NAME, item.text):
        if word in RESERVED:
            raise Unreadable(f"line {item.line}: the definition of {name} has the word `{word}`, which is not read here")
    return Stated(line, name, kind, " ".join(words[1:]), body)


def twice(names):
    """The names that come more than once, each once, in order."""
    return sorted({name for name in names if names.count(name) > 1})


def declared_in(text):
    """The names that a text declares: definitions, records and their fields, data types and their constructors.

    A declaration stands as far in as its block: the file, a `module`, a `mutual`, or below the `where` of a record or a data type. What
    stands further in belongs to the declaration above it.
    """
    names, level, opens, ready = set(), 0, False, False
    for line in without_comments(text).split("\n"):
        if not line.strip():
            continue
        indent, words = len(line) - len(line.lstrip()), line.split()
        while words and words[0] in ("pub", "abbrev", "unfoldable"):
            words.pop(0)
        if indent < level or (opens and indent > level and ready):
            level, opens = indent, False
        if indent != level or not words:
            ready = opens and (ready or words[-1:] == ["where"])
            continue
        opens = words[0] in ("record", "data", "module", "mutual")
        ready = words[0] == "mutual" or words[-1] == "where"
        if words[0] in ("record", "data", "ruleset") and len(words) > 1:
            names.add(re.match(NAME, words[1]).group())
        elif words[0] not in ("use", "mod", "module", "mutual", "unfolding", "infix", "infixl", "infixr"):
            names.update(names_before_colon(words))
    return names


def records_of(text):
    """The records that a text declares, each with the names of its fields."""
    records, fields = {}, None
    for line in without_comments(text).split("\n"):
        words = [word for word in line.split() if word not in ("pub", "abbrev", "unfoldable")]
        if not words:
            continue
        if not line.startswith(" "):
            fields = records.setdefault(re.match(NAME, words[1]).group(), []) if words[0] == "record" else None
        elif fields is not None and re.match(r"  \S", line):
            fields += names_before_colon(words)
    return records


def names_before_colon(words):
    """The names of a line `name name .. : type`; none where what stands before the `:` is something else."""
    if ":" not in words:
        return []
    before = words[: words.index(":")]
    return before if all(re.fullmatch(NAME, word) and word != "=" for word in before) else []


def conclusion_of(kind):
    """What a type says past its last `→` that stands in no brackets, and all that stands before it."""
    depth, last = 0, 0
    for place, sign in enumerate(kind):
        depth += {"(": 1, "{": 1, ")": -1, "}": -1}.get(sign, 0)
        if sign == "→" and depth == 0:
            last = place + 1
    return kind[last:].strip(), kind[:last].strip()


def words_of(text):
    """The names that stand in a text; of a path its parts."""
    return re.findall(NAME, text)


def split_outside(text, sign):
    """A text taken apart at a sign that stands in no brackets."""
    parts, part, depth = [], "", 0
    for letter in text:
        depth += {"(": 1, "{": 1, ")": -1, "}": -1}.get(letter, 0)
        if letter == sign and depth == 0:
            parts.append(part)
            part = ""
        else:
            part += letter
    return parts + [part]


def top_words(text):
    """The words of a text; what stands in brackets is one word."""
    return [word for word in split_outside(text.strip(), " ") if word]
