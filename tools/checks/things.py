"""What the repository has that a document can name: crates, definitions, functions, constants, types, edits and files."""
import re

from checks import antt, contracts, crates, source
from desk.commands import COMMANDS
from desk.reading import NotWords, read_line

# Quoted things that are no part of the repository: the record's fields and the listing's words as document 01 has them, forms of the
# languages, commands and what they print.
KNOWN = {
    "lo", "hi", "data", "kind",
    "too long", "end", " odd", "no room", "no call",
    "let else", "let .. else", "#[repr(C)]", 'extern "C"', "#![tactic(auto)]", "requires", "ensures", "result", "main", "read", "write",
    "rt", "cargo", "rt: ok", "N passed, 0 failed", "N passed, M failed",
    "abbrev", "unfoldable", "unfolding", "let", "let mut", "match", "&", "&mut", "&&", "eqb", "use", "ghost use", "staticlib",
    "when .. then .. else ..", "==", "..", "let h = c.STEP in ?",
    "c", "x", "goal", "returns", "refl", "cc", "rw", "ap", "simp", "omega", "grind", "search", "search rules", "search cases", "search cases depth 9",
    "Answers.antt", "Invariants.antt", "proofs/F/Answers.antt", "proofs/F/Invariants.antt",
}
PATTERNS = (r"end [034]", r"--as \w+", r"[-#;$]", r"[0-9a-f]{16}", r"\$[0-9A-F]{2,4}", r"\d+", r"R\d{1,2}", r"B\d{1,2}", r"goal\.[\w-]+",
            r"(?:loop-|returns-|overflow_)[\w-]+", r"\w+-requires", r"c?(?:\.[\w-]+)+", r"\w+\.(?:now|old|new)", r"#\[tactic\(auto, using\(.*\)\)\]")
# What rt does, beside a crate, an option, or a word in capitals that stands for such.
RT_TASKS = {"new", "check", "run", "test", "try", "lib", "ci", "must-fail", "fmt", "tidy", "plant", "expand", "lemma", "verdict", "doc", "version"}

DESK = "./vorstelpijp"


def is_statement(quoted):
    """Whether a quoted thing is a statement of a batch in words."""
    try:
        return bool(read_line(quoted))
    except NotWords:
        return False


def desk_fault(call):
    """Why a call of the desk program is none, or nothing where it is one."""
    words = call.split()
    known = {command.name for command in COMMANDS}
    return "" if words[0] == DESK and (len(words) == 1 or words[1] in known) else f"`{call}` is no call of the desk program"


class Things:
    """An index of a repository, made once for all documents."""

    def __init__(self, top):
        self.top = top
        self.crates = crates.listed(top)[0]
        self.specs = {crate: self.files_of(crate, "specs") for crate in self.crates}
        self.proofs = {crate: self.files_of(crate, "proofs") for crate in self.crates}
        self.readers = {crate: self.read(crate) for crate in self.crates}
        self.edits = {(path.parts[-3], path.stem): path for path in sorted(top.glob("crates/*/must-fail/*.edit"))}

    def files_of(self, crate, part):
        """The names that each antt file of a crate declares, by the file's place in its folder."""
        folder = self.top / "crates" / crate / part
        return {str(path.relative_to(folder)): antt.declared_in(path.read_text()) for path in sorted(folder.rglob("*.antt"))}

    def read(self, crate):
        """The readers of a crate's sources."""
        folder = self.top / "crates" / crate
        return [reader for _, reader, _ in source.read_crate(folder) if reader is not None]

    def functions(self, crate):
        """A crate's functions."""
        return [function for reader in self.readers.get(crate, ()) for function in reader.functions]

    def has_definition(self, crate, name):
        """Whether a crate's definitions have a name."""
        return any(name in names for names in self.specs.get(crate, {}).values())

    def declared(self, crate, *kinds):
        """The things of some kinds that a crate's code declares."""
        return [thing for reader in self.readers.get(crate, ()) for thing in reader.declared if thing.kind in kinds]

    def has_code(self, crate, name):
        """Whether a crate's code has a function or a constant of a name."""
        return any(thing.name == name for thing in self.declared(crate, "const") + self.functions(crate))

    def has_edit(self, crate, name):
        """Whether a crate has a must-fail edit of a name."""
        return (crate, name) in self.edits

    def has_type(self, crate, name):
        """Whether a crate's code declares a struct or an enum of a name."""
        return any(thing.name == name for thing in self.declared(crate, "struct", "enum"))

    def find_function(self, words):
        """The crate and the function that `crate::f`, `crate::Type::f` or `Type::f` names, if there is one."""
        *front, name = words
        where = [front.pop(0)] if front and front[0] in self.crates else self.crates
        if len(front) > 1:
            return None
        for crate in where:
            for function in self.functions(crate):
                if function.name == name and function.owner == (front[0] if front else ""):
                    return crate, function
        return None

    def reads_module(self, crate, function):
        """The module of a function's contract."""
        return contracts.reads_module(crate, self.readers[crate], function)

    def has_path(self, words):
        """Whether a path is there, from the top or from crates/; NAME and * stand for any name."""
        pattern = re.sub(r"\bNAME\b", "*", words).rstrip("/")
        if not pattern or pattern.startswith("/") or ".." in pattern.split("/"):
            return False
        folders = [self.top] + ([self.top / "crates"] if pattern.split("/")[0] in self.crates and "/" in pattern else [])
        return any(path.is_dir() or not words.endswith("/") for folder in folders for path in folder.glob(pattern))

    def has_place(self, path, name):
        """Whether an antt file, named from the top, declares a name."""
        match = re.fullmatch(r"crates/(\w+)/(specs|proofs)/(.+\.antt)", path)
        if match is None:
            return False
        files = self.specs if match.group(2) == "specs" else self.proofs
        return name in files.get(match.group(1), {}).get(match.group(3), ())

    def has_call(self, words):
        """Whether `crate::x`, `crate::Type::x`, `Type::x` or `crate::Type` is a function, a constant or a type."""
        if self.find_function(words) is not None:
            return True
        *front, name = words
        where = [front.pop(0)] if front and front[0] in self.crates else self.crates
        if not front:
            return any(self.has_type(crate, name) or self.has_code(crate, name) for crate in where)
        constants = [thing for crate in where for thing in self.declared(crate, "const")]
        return len(front) == 1 and any(thing.name == name and thing.owner == front[0] for thing in constants)

    def has_clause(self, name):
        """Whether some function's contract has a clause of a name."""
        return any(name in function.clause_names for crate in self.crates for function in self.functions(crate))

    def has_word(self, name):
        """Whether a word by itself is a crate, a promise, or some crate's definition, function, constant, type or clause."""
        if name in self.crates or self.has_clause(name) or name in self.proofs.get("promises", {}).get("Promises.antt", ()):
            return True
        return any(self.has_definition(crate, name) or self.has_code(crate, name) or self.has_type(crate, name) for crate in self.crates)

    def command_fault(self, words):
        """Why a command's words name nothing, or nothing where they do: a tool with its options, or a task of rt, of crates."""
        tool, *options = words
        if tool == "rt":
            good = words[1] in RT_TASKS and all(re.fullmatch(r"--[\w-]+|[A-Z]+(?:\.\.)?", word) or word in self.crates for word in words[2:])
            return "" if good else f"`{' '.join(words)}` is no command"
        if not (self.top / tool).is_file():
            return f"there is no {tool}"
        unknown = [word for word in options if word.startswith("--") and word not in (self.top / tool).read_text()]
        return f"{tool} has no {unknown[0]}" if unknown else ""

    def fault_of(self, quoted):
        """Why a quoted thing names nothing, or nothing where it does."""
        if quoted in KNOWN or any(re.fullmatch(pattern, quoted) for pattern in PATTERNS) or is_statement(quoted):
            return ""
        if quoted.startswith(DESK):
            return desk_fault(quoted)
        if re.match(r"(?:rt|tools/\S+) \S", quoted):
            return self.command_fault(quoted.split(" "))
        place = re.fullmatch(r"(\S+/\S+\.\w+): (\S+)", quoted)
        entry = re.fullmatch(r"(\w+): (\S+)", quoted)
        if place:
            if not self.has_path(place.group(1)):
                return f"there is no {place.group(1)}"
            return "" if self.has_place(*place.groups()) else f"no {place.group(2)} in {place.group(1)}"
        if entry:
            there = (self.has_definition, self.has_code, self.has_edit)
            return "" if any(has(*entry.groups()) for has in there) else f"crate {entry.group(1)} has no {entry.group(2)}"
        if re.fullmatch(r"\w+(::\w+)+", quoted):
            return "" if self.has_call(quoted.split("::")) else f"no function {quoted}"
        if re.fullmatch(r"[\w.◌'*-]+", quoted) and self.has_word(quoted):
            return ""
        if "/" in quoted or "." in quoted:
            return "" if self.has_path(quoted) else f"there is no {quoted}"
        return f"`{quoted}` names nothing that is there"
