"""The layout of the structs that C sees, by the rules of repr(C), and the calls over them."""
import collections
import re

from .sources import Unfit, named_types

PLAIN = {"u8": 1, "u16": 2, "u32": 4, "u64": 8, "usize": 8, "bool": 1}
POINTER = 8
ARRAY = re.compile(r"\[\s*(.+?)\s*;\s*([0-9]+)\s*\]", re.S)
LENT = re.compile(r"&\s*(mut\s+)?(.+)", re.S)
PART = re.compile(r"\[\s*([^;]+?)\s*\]", re.S)

# a type: its size and alignment; in C a thing of it is declared 'base name suffix'
Laid = collections.namedtuple("Laid", "size align base suffix")
# at: the byte that the field begins at
Field = collections.namedtuple("Field", "name at laid")
Shape = collections.namedtuple("Shape", "name source size align fields")
Call = collections.namedtuple("Call", "name parameters result")


def rounded(number, to):
    """The next multiple."""
    return (number + to - 1) // to * to


def laid_fields(types):
    """Fields one after the other, each at the next multiple of its alignment; their size and alignment as a whole."""
    fields, end, align = [], 0, 1
    for name, laid in types:
        at = rounded(end, laid.align)
        fields.append(Field(name, at, laid))
        end, align = at + laid.size, max(align, laid.align)
    return fields, rounded(end, align), align


class Layouts:
    """The structs reached so far, inner ones first."""

    def __init__(self, sources):
        self.sources = sources
        self.shapes = {}

    def shape(self, declared):
        """The layout of a struct, which has to be one that C can have."""
        where = f"{declared.name}, in {declared.path.relative_to(self.sources.crates.parent)},"
        if declared.kind == "enum":
            raise Unfit(f"{where} is an enum, and an exported call reaches it: C has no layout for it")
        if re.findall(r"\brepr\(([^)]*)\)", declared.attributes) != ["C"]:
            raise Unfit(f"{where} lacks #[repr(C)], and an exported call reaches it: its layout is not settled")
        if not declared.text.strip():
            raise Unfit(f"{where} has no plain fields with a name each")
        types = [(name, self.laid(words, declared.path)) for name, words in named_types(declared.text)]
        fields, size, align = laid_fields(types)
        return Shape(declared.name.lower(), declared, size, align, fields)

    def struct(self, declared):
        """The type of a struct; its layout is kept."""
        name = declared.name.lower()
        if name not in self.shapes:
            self.shapes[name] = self.shape(declared)
        shape = self.shapes[name]
        if shape.source != declared:
            raise Unfit(f"two structs that exported calls reach would both be 'struct {name}' in C")
        return Laid(shape.size, shape.align, f"struct {name}", "")

    def laid(self, words, path):
        """A type as a file writes it."""
        if words in PLAIN:
            return Laid(PLAIN[words], PLAIN[words], f"proved_{words}", "")
        array = ARRAY.fullmatch(words)
        if array:
            each, count = self.laid(array.group(1), path), int(array.group(2))
            return Laid(each.size * count, each.align, each.base, f"[{count}]{each.suffix}")
        if not re.fullmatch(r"[\w:]+", words):
            raise Unfit(f"'{words}', in {path.relative_to(self.sources.crates.parent)}, is no type that this check knows")
        return self.struct(self.sources.find(words, path))

    def passed(self, words, path):
        """The type of a parameter or a result; what is lent becomes a pointer."""
        lent = LENT.fullmatch(words)
        if lent:
            return pointer_to(self.passed(lent.group(2), path), lent.group(1))
        laid = self.laid(words, path)
        if laid.suffix:
            raise Unfit(f"an exported call has '{words}' as a parameter or result, and C passes no arrays")
        return laid

    def parameters(self, name, words, path):
        """A parameter as C has it. Of a lent part it has two: a pointer to the first place, and how many places there are."""
        lent = LENT.fullmatch(words)
        part = PART.fullmatch(lent.group(2)) if lent else None
        if not part:
            return [(name, self.passed(words, path))]
        return [(name, pointer_to(self.laid(part.group(1), path), lent.group(1))), (f"{name}_count", self.laid("usize", path))]

    def call(self, exported):
        """An exported call by its types."""
        try:
            parameters = [one for name, words in exported.parameters for one in self.parameters(name, words, exported.path)]
            result = self.passed(exported.result, exported.path) if exported.result else None
        except Unfit as problem:
            raise Unfit(f"{exported.name}: {problem}") from problem
        return Call(exported.name, parameters, result)


def pointer_to(each, mutable):
    """The type of a pointer to something lent; what is not lent to be changed is constant."""
    return Laid(POINTER, POINTER, f"{'' if mutable else 'const '}{each.base} *", "")


def proved_declarations(sources):
    """The structs that C sees, inner ones first, and the calls."""
    layouts = Layouts(sources)
    calls = [layouts.call(exported) for exported in sources.exported()]
    return list(layouts.shapes.values()), calls
