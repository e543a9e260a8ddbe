"""Products where there may be none: on the way from the locator's `locate` down (document 02, W4).

On the small board a product is a call of a routine, and no contract can tell it from a sum of the same value. A factor, or a divisor, that
is a power of two and written as a number is a shift or a mask, and needs no routine. Divisors are looked at too, since compilers make
products of quotients; the one exception is the remainder in the counters' helper, by the power of two of a width.

What is called is told by its name alone: every function of that name, in the locator and in the crates that it stands on, counts as called,
and none may go by two names. So it refuses too much rather than too little. It does not look at indices (an element whose size is no power
of two is found by a product), nor at what the compiler makes of it all.
"""
import re

from checks import crates, source

CRATE, FIRST = "locator", "locate"
SPARED = {"counted": "%"}  # the sign that a function may have
SIGNS = ("*", "/", "%")
ROUTINE = re.compile(r"(?:\w+_)?(?:mul|pow|div|rem)(?:_\w+)?")
NUMBER = re.compile(r"(0x[0-9a-fA-F_]+|0b[01_]+|[0-9][0-9_]*)(?:[ui](?:8|16|32|64|128|size))?")
NO_OPERAND = ("return", "break", "in", "if", "while", "match", "else", "mut")  # words behind which a value begins


def is_power(token):
    """Whether a token is a power of two, written as a number."""
    match = NUMBER.fullmatch(token.text)
    value = int(match[1].replace("_", ""), 0 if match[1][:2] in ("0x", "0b") else 10) if match else 0
    return value > 0 and value & (value - 1) == 0


def is_operand(token):
    """Whether a token may end a value, so that a sign behind it stands between two."""
    return token.text in (")", "]", "}") or token.kind == "char" or token.kind == "word" and token.text not in NO_OPERAND


def needs_routine(body, at):
    """Whether the sign at this place of a body multiplies or divides, and not by a power of two that is written as a number."""
    sign, behind = body[at].text, body[at + 1]
    if sign.endswith("=") and sign[:-1] in SIGNS:
        return not (is_power(behind) and body[at + 2].text == ";")
    if sign not in SIGNS or not is_operand(body[at - 1]):
        return False
    factor = sign == "*" and is_power(body[at - 1]) and body[at - 2].text not in (*SIGNS, ".", "!")
    return not (factor or is_power(behind) and body[at + 2].text != ".")


def calls(body):
    """The names that a body calls, each with its line."""
    return [(word.text, word.line) for word, sign in zip(body, body[1:]) if word.kind == "word" and sign.text == "("]


def products(body, spared=None):
    """The lines in which a body needs such a routine, by a sign that is not spared or by a call."""
    signs = [body[at].line for at in range(1, len(body) - 2) if body[at].text != spared and needs_routine(body, at)]
    return signs + [line for name, line in calls(body) if ROUTINE.fullmatch(name)]


def renamed(tokens):
    """The lines in which `use` brings a thing in under another name."""
    within = False
    for token in tokens:
        if token.text in ("use", ";"):
            within = token.text == "use"
        elif within and token.text == "as":
            yield token.line


def readers(top):
    """The sources of the locator and of all that it stands on, by their paths; of one that cannot be read, the check of contracts tells."""
    for crate in crates.needed(top, [CRATE]):
        for path, reader, _ in source.read_crate(top / "crates" / crate):
            if reader:
                yield path.relative_to(top), reader


def way_down(top):
    """The names that `locate` reaches, its own among them; for each name the files and bodies that have it."""
    functions, wanted, way = {}, [FIRST], {}
    for where, reader in readers(top):
        for function in reader.functions:
            functions.setdefault(function.name, []).append((where, function.body))
    while wanted:
        name = wanted.pop()
        if name in functions and name not in way:
            way[name] = functions[name]
            wanted += [called for _, body in functions[name] for called, _ in calls(body)]
    return way


def check(top):
    """Yields each place on the way that needs such a routine, and each name that hides what is called."""
    if CRATE not in crates.listed(top)[0]:
        return
    way = way_down(top)
    if not way:
        yield f"crates/{CRATE}: there is no {FIRST}, from which nothing may multiply"
    for where, reader in readers(top):
        for line in renamed(reader.tokens):
            yield f"{where}:{line}: brought in under another name, so that it cannot be told what {FIRST} calls"
    for name, places in sorted(way.items()):
        for where, body in places:
            for line in products(body, SPARED.get(name)):
                yield (f"{where}:{line}: {name} multiplies or divides by what is no power of two written as a number, "
                       f"and {FIRST} reaches a function of that name")
