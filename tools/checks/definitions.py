"""The definitions in specs/ of all crates, and what each of them names: other definitions, and types of the code."""
import dataclasses
import re

from checks import antt

HOLE = "◌"  # in the name of an operator, where an argument stands
MARKED = re.compile(r"(?:(?:pub|abbrev|unfoldable) )*")
NAMED = re.compile(rf"(?:record|data) ({antt.NAME})|({antt.NAME})(?: \{{[^}}]*\}})? : ")
BLOCK = re.compile(r"module |mutual\b")
OWN = re.compile(r"Rattle\.(\w+)\.specs\.(.+)")
DECLARED = re.compile(r"declared\.(?:[\w.]+\.)?(\w+?)(?:\.TheVariants)?")
# What stands before a name that is taken from a module, which begins with a capital.
OF_MODULE = re.compile(r"(?:^|[\s(){};,.])[A-Z][^\s(){}.;,]*\.$")


@dataclasses.dataclass(frozen=True, order=True)
class Definition:
    """A definition: its crate, its file in specs/, its line there, its name and its text, with the comment above it."""

    crate: str
    file: str
    line: int
    name: str
    text: str = dataclasses.field(default="", compare=False)
    comment: str = dataclasses.field(default="", compare=False)
    also: tuple = dataclasses.field(default=(), compare=False)  # a data type's constructors, a block's other names

    def __str__(self):
        return f"{self.crate}: {self.name}"


@dataclasses.dataclass(frozen=True, order=True)
class CodeType:
    """A struct or an enum of the code that definitions speak of."""

    crate: str
    name: str


def name_of(item):
    """The name that an item at the edge of a line declares, or nothing where it is something else: a clause, a `use` line, a fixity."""
    match = NAMED.match(item.text, MARKED.match(item.text).end())
    return match.group(1) or match.group(2) if match else ""


def comment_above(lines, number):
    """The comment's lines that stand right above a line."""
    above = []
    while number >= 2 and lines[number - 2].startswith("--"):
        above.insert(0, lines[number - 2])
        number -= 1
    return "\n".join(above)


def read_file(crate, file, text):
    """The definitions of a file, and its `use` lines."""
    lines, bare = text.split("\n"), antt.without_comments(text)
    found, uses, begun = [], [], None
    for item in antt.items_of(bare):
        if item.text.startswith("use "):
            uses += antt.uses_of(item)
        elif re.match(r"infix[lr]? ", item.text):
            begun = item.line  # a fixity stands above its definition, below the comment
        elif name_of(item) or BLOCK.match(item.text):
            found.append((begun or item.line, name_of(item)))
            begun = None
    ends = [line for line, _ in found[1:]] + [len(lines) + 1]
    return [cut_out(crate, file, lines, bare.split("\n"), *one, end) for one, end in zip(found, ends)], uses


def cut_out(crate, file, lines, bare, line, name, end):
    """A definition from its first line to the next definition's, without the comment above that. A block of several counts as one."""
    while end > line and not bare[end - 2].strip():
        end -= 1
    block = "\n".join(bare[line - 1 : end - 1])
    names = antt.declared_in(block) if not name or re.search(r"^(?:pub )?data ", block, re.M) else {name}
    name = name or min(names, key=block.find, default="_")
    return Definition(crate, file, line, name, "\n".join(lines[line - 1 : end - 1]), comment_above(lines, line), tuple(sorted(names - {name})))


def words_in(text):
    """The names that stand in a text by themselves, and those of a path by its module's name; a field that is read, as in `x.f`, does not
    count."""
    bare, words = antt.without_comments(text), set()
    for match in re.finditer(antt.NAME, bare):
        before = bare[max(match.start() - 2, 0) : match.start()]
        if not before.endswith("."):
            words.add(match.group())
        elif OF_MODULE.search(bare[: match.start()].rpartition("\n")[2]):
            words.add("." + match.group())
    return words


def stands_in(name, words):
    """Whether a name stands in a text with these words; of `when◌then◌else◌` each part does."""
    parts = [part for part in name.split(HOLE) if part]
    return name in words or "." + name in words or (HOLE in name and bool(parts) and all(part in words for part in parts))


class Definitions:
    """All definitions of a repository, by what its crates' files say."""

    def __init__(self, things):
        self.things = things
        self.files, self.uses = {}, {}
        for crate in things.crates:
            folder = things.top / "crates" / crate / "specs"
            for path in sorted(folder.rglob("*.antt")):
                file = str(path.relative_to(folder))
                try:
                    self.files[crate, file], self.uses[crate, file] = read_file(crate, file, path.read_text())
                except antt.Unreadable as why:
                    raise antt.Unreadable(f"crates/{crate}/specs/{file}: {why}") from why
        self.all = [one for found in self.files.values() for one in found]

    def find(self, crate, name):
        """The definition of a name in a crate, if there is one."""
        return next((one for one in self.all if one.crate == crate and name in (one.name, *one.also)), None)

    def aims_of(self, use):
        """What a `use` line's name stands for here: a definition, a type of the code, or every definition of a module."""
        match = OWN.fullmatch(use.module)
        if match is None:
            return []
        crate, path = match.groups()
        declared = DECLARED.fullmatch(path)
        if declared:
            return [CodeType(crate, declared.group(1))]
        found = self.files.get((crate, path.replace(".", "/") + ".antt"), [])
        return [one for one in found if not use.item or use.item in (one.name, *one.also)]

    def named_in(self, text, uses, own=()):
        """The definitions and the types that a text names, by the `use` lines of its file and the file's own definitions."""
        words, named = words_in(text), set()
        for use in uses:
            for one in self.aims_of(use):
                if stands_in(use.name if use.item else one.name, words):
                    named.add(one)
        return named | {one for one in own if any(stands_in(name, words) for name in (one.name, *one.also))}

    def under(self, one):
        """What a definition names besides itself."""
        place = (one.crate, one.file)
        return self.named_in(one.text, self.uses[place], self.files[place]) - {one}

    def rested_on(self, roots):
        """All that these name, and what that names, to the bottom; the roots among it."""
        seen, left = set(), list(roots)
        while left:
            one = left.pop()
            if one not in seen:
                seen.add(one)
                left += self.under(one) if isinstance(one, Definition) else []
        return seen

    def file_order(self, crate):
        """A crate's files, each behind those that it uses."""
        order, files = [], sorted(file for owner, file in self.files if owner == crate)

        def put(file):
            if file not in order:
                below = {one.file for use in self.uses[crate, file] for one in self.aims_of(use) if isinstance(one, Definition) and one.crate == crate}
                for other in sorted(below - {file}):
                    put(other)
                order.append(file)

        for file in files:
            put(file)
        return order

    def in_order(self, found):
        """Definitions with the lowest first: by crate, by file, by line."""
        files = {crate: self.file_order(crate) for crate in {one.crate for one in found}}
        return sorted(found, key=lambda one: (self.things.crates.index(one.crate), files[one.crate].index(one.file), one.line))
