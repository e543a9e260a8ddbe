"""Holds the header for C to the proved declarations: by its names, and by a C file that compiles only where all of it fits."""
import re

from commands import attempt
from .layout import PLAIN
from .sources import Unfit

HEADER = "vorstelpijp.h"
STRICT = ["-std=c11", "-Wall", "-Wextra", "-Wstrict-prototypes", "-Werror"]
COMMENT = re.compile(r"/\*.*?\*/|//[^\n]*", re.S)
# C's own words for the plain types. It has two for 64 bits: the longest one is for numbers, the other for counts of places.
NATIVE = {
    "u8": "unsigned char", "u16": "unsigned short", "u32": "unsigned int", "u64": "unsigned long long", "usize": "unsigned long",
    "bool": "_Bool",
}
BEGINNING = f"""/* Written by tools/check-linked: what the Rattle sources say of each struct and each call that C sees. */
#include "{HEADER}"
"""


def own_types():
    """The plain types by names that no header has; each has to be of the size that the layout goes by."""
    lines = []
    for name, size in PLAIN.items():
        lines += [f"typedef {NATIVE[name]} proved_{name};", demand(f"sizeof(proved_{name}) == {size}", f"C has no {name} here")]
    return lines


def thing(laid, name):
    """The declaration of one thing of a type."""
    return f"{laid.base} {name}{laid.suffix}"


def all_fields(shape):
    """A function that makes the struct of all its fields: one more or one less in C is refused."""
    given = ", ".join(thing(field.laid, field.name) for field in shape.fields if not field.laid.suffix) or "void"
    values = ", ".join("{0}" if field.laid.suffix else field.name for field in shape.fields)
    whole = f"struct {shape.name}"
    return f"{whole} proved_{shape.name}({given}) {{ return ({whole}){{{values}}}; }}"


def demand(condition, otherwise):
    """One demand, and the words for where it is not met."""
    return f'_Static_assert({condition}, "{otherwise}");'


def field_lines(whole, field):
    """What is demanded of a field: its place, its size and its type."""
    one, due = f"(({whole} *)0)->{field.name}", f"{field.laid.base}{field.laid.suffix}"
    return [
        demand(f"__builtin_offsetof({whole}, {field.name}) == {field.at}", f"{whole}: {field.name} is not at byte {field.at}"),
        demand(f"sizeof {one} == {field.laid.size}", f"{whole}: the size of {field.name} is not {field.laid.size}"),
        demand(f"__builtin_types_compatible_p(__typeof__({one}), {due})", f"{whole}: {field.name} is no {due}"),
    ]


def struct_lines(shape):
    """What is demanded of a struct."""
    whole = f"struct {shape.name}"
    lines = ["", demand(f"sizeof({whole}) == {shape.size}", f"{whole}: its size is not {shape.size}"),
             demand(f"_Alignof({whole}) == {shape.align}", f"{whole}: its alignment is not {shape.align}")]
    for field in shape.fields:
        lines += field_lines(whole, field)
    return lines + [all_fields(shape)]


def call_line(call):
    """What is demanded of a call: a pointer to one of its type takes it, and it is there to link."""
    parameters = ", ".join(thing(laid, name) for name, laid in call.parameters) or "void"
    result = call.result.base if call.result else "void"
    return f"{result} (*const proved_{call.name})({parameters}) = {call.name};"


def demands(shapes, calls):
    """The whole C file."""
    lines = [BEGINNING] + own_types()
    for shape in shapes:
        lines += struct_lines(shape)
    return "\n".join(lines + [""] + [call_line(call) for call in calls]) + "\n"


def check_names(text, shapes, calls):
    """Sees that the header declares no struct and no call that the proved code has not."""
    text = COMMENT.sub("", text)
    for kind, found, due in (("struct", re.findall(r"\bstruct\s+(\w+)\s*\{", text), shapes),
                             ("call", re.findall(r"\b([A-Za-z]\w*)\s*\(", text), calls)):
        strange = sorted(set(found) - {one.name for one in due})
        if strange:
            raise Unfit(f"{HEADER} declares the {kind} {strange[0]}, which is none that crates/exports shows to C")


def errors_of(said):
    """What a compiler found wrong; where that is not in our own words, also the line that it shows below."""
    lines, found = said.splitlines(), []
    for line, below in zip(lines, lines[1:] + [""]):
        words = line.partition("error: ")[2]
        if words:
            found.append(words if "assertion" in words else f"{words}\n    {below.partition('|')[2].strip()}")
    return "\n".join(f"  {words}" for words in found) or said.rstrip()


def check_header(compiler, folder, shapes, calls, room):
    """Holds the header in a folder to the proved declarations. Gives the object to link, and writes it into room."""
    source, out = room / "declarations.c", room / "declarations.o"
    source.write_text(demands(shapes, calls), encoding="utf-8")
    well, said = attempt(compiler + STRICT + ["-I", folder, "-c", source, "-o", out])
    if not well:
        raise Unfit(f"{HEADER} does not declare what is proved:\n{errors_of(said)}")
    check_names((folder / HEADER).read_text(encoding="utf-8"), shapes, calls)
    return out
