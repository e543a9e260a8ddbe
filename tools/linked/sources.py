"""The structs and the exported calls, as the Rattle sources declare them."""
import collections
import re

COMMENT = re.compile(r"//[^\n]*")
ATTRIBUTES = r"((?:#\[[^\]]*\]\s*)*)"
UNMANGLED = "#[unsafe(no_mangle)]"
DECLARATION = re.compile(ATTRIBUTES + r"(?:pub(?:\([^)]*\))?\s+)?\b(struct|enum)\s+(\w+)\s*(?:\{([^{}]*)\})?")
FIELD = re.compile(r"(?:pub(?:\([^)]*\))?\s+)?(\w+)\s*:\s*(.+)", re.S)
IMPORT = re.compile(r"^(?:pub\s+)?use\s+([\w:]+?)(?:::\{([^}]*)\})?;", re.M)
EXPORT = re.compile(ATTRIBUTES + r'pub\s+extern\s+"C"\s+fn\s+(\w+)\s*\(([^)]*)\)\s*(?:->\s*([^\n{]+))?')

# text: what stands between the braces, nothing where that is not plain
Declared = collections.namedtuple("Declared", "name kind attributes text path")
# parameters: the names and types as written; result: a type as written, or None
Exported = collections.namedtuple("Exported", "name parameters result path")


class Unfit(Exception):
    """The declarations for C are not those of the proved code, or the proved code has one that C cannot have."""


def named_types(text):
    """The names and types of fields or parameters, as written."""
    parts = [part.strip() for part in text.split(",")]
    found = [FIELD.fullmatch(part) for part in parts if part]
    if None in found:
        raise Unfit(f"'{text.strip()}' are no fields or parameters with a name and a type each")
    return [(match.group(1), match.group(2).strip()) for match in found]


def imports_of(source):
    """Each name that a file takes from elsewhere, and the path of it."""
    found = {}
    for path, names in IMPORT.findall(source):
        ends = [name.strip() for name in names.split(",") if name.strip()]
        for whole in [f"{path}::{end}" for end in ends] or [path]:
            found[whole.split("::")[-1]] = whole
    return found


class Sources:
    """The crates under a folder."""

    def __init__(self, crates):
        self.crates = crates
        self.texts = {path: COMMENT.sub("", path.read_text(encoding="utf-8"))
                      for path in sorted(crates.glob("*/src/**/*.rt"))}

    def crate_of(self, path):
        """The crate that a file belongs to."""
        return path.relative_to(self.crates).parts[0]

    def declared(self, path):
        """The structs and enums of a file, by name."""
        found = {}
        for attributes, kind, name, text in DECLARATION.findall(self.texts[path]):
            found[name] = Declared(name, kind, attributes, text, path)
        return found

    def in_crate(self, crate, name):
        """The one struct or enum of that name in a crate, declared there or handed on by its lib.rt."""
        files = [path for path in self.texts if self.crate_of(path) == crate]
        found = [self.declared(path)[name] for path in files if name in self.declared(path)]
        if len(found) > 1:
            raise Unfit(f"crates/{crate} declares {name} more than once, so that it is open which one C sees")
        if found:
            return found[0]
        top = self.crates / crate / "src" / "lib.rt"
        whole = imports_of(self.texts.get(top, "")).get(name)
        if whole is None or whole.split("::")[0] in ("crate", crate):
            raise Unfit(f"crates/{crate} has no struct {name}")
        return self.in_crate(whole.split("::")[0], name)

    def find(self, name, path):
        """The struct or enum that a file means by a name."""
        whole = name
        if "::" not in name:
            if name in self.declared(path):
                return self.declared(path)[name]
            whole = imports_of(self.texts[path]).get(name, name)
        if "::" not in whole:
            raise Unfit(f"{name}, in {path.relative_to(self.crates.parent)}, is no struct that this check can find")
        first, last = whole.split("::")[0], whole.split("::")[-1]
        return self.in_crate(self.crate_of(path) if first == "crate" else first, last)

    def exported(self):
        """The calls that a crate exports to C; there is one crate that does."""
        found = []
        for path in self.texts:
            for attributes, name, parameters, result in EXPORT.findall(self.texts[path]):
                if UNMANGLED in attributes:
                    found.append(Exported(name, named_types(parameters), result.strip() or None, path))
        if not found:
            raise Unfit(f'the crates export no call: there is no {UNMANGLED} pub extern "C" fn in them')
        exporting = sorted({self.crate_of(one.path) for one in found})
        if len(exporting) > 1:
            raise Unfit(f"{' and '.join(exporting)} both export calls to C, and the archive has those of one crate")
        return found
