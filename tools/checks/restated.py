"""One promise of crates/promises/proofs/Promises.antt: its whole type, and what it is defined as.

A promise is either a theorem, which it cites and concludes with, for all that it is about; or it is what a function's contract states.
"""
import re

from checks import antt

FILE = "crates/promises/proofs/Promises.antt"
STATES = ("Rattle.promises.specs.States", "States")
PART = r"p(?:\.\d+)*"
PRELUDE = "Rattle.std.specs.Prelude"
# What the types are made of besides the statements of the page, each under its own name.
BASE = {
    *((PRELUDE, name) for name in ("ℕ", "◌≡◌", "true", "List", "length")),
    ("Rattle.basics.specs.Lay", "laid_at"), ("Rattle.replay.specs.Run", "run_of"),
    ("Rattle.frames.specs.Calls", "Call"), ("Rattle.frames.specs.Calls", "after_calls"), ("Rattle.control.specs.Write", "is_control_of"),
    ("Rattle.control.specs.declared.bits.Control", "Control"), ("Rattle.bench.specs.declared.step.Bench", "Bench"),
    ("Rattle.line.specs.declared.calls.Line", "Line"), STATES,
}
# The library's own words by the names of the modules that declare them, from which a proof may bring them too.
BASE |= {
    ("Prim.Native.Nat", "ℕ"), ("mathlib.Core.Path", "◌≡◌"), ("mathlib.Core.Bool", "true"), ("mathlib.Core.List", "List"),
    ("lib.ListN", "length"),
}
# What a theorem may be about, and the one premise that a promise has before its statement.
ABOUT = ("ℕ", "List ℕ", "List Call", "Bench", "Control", "Line")
PREMISES = ("is_control_of a ≡ true",)
# What a contract speaks of: the result, its bytes or its place, the text in it, or what a lent buffer holds afterwards; and of it, by the
# arguments.
GIVEN = re.compile(r"r|r\.now|r\.ref_ptr|r\.text|s(?:\.\d+)+\.now")
ARGUMENT = r"a(?:\.\d+)+(?:\.[a-z]\w*)?"  # a field of it too, as of a record's four bytes
TERM = rf"([^\s()]+)((?: {ARGUMENT})*)"
DUE = tuple(re.compile(form) for form in (TERM, rf"length \({TERM}\)", rf"laid_at {ARGUMENT} 0 \({TERM}\)"))
KEPT = re.compile(r"a(?:\.\d+)+\.now")


def local_name(uses, module, item):
    """The name that a thing has in the file, if a `use` line brings it."""
    return next((use.name for use in uses if use.module == module and use.item == item), None)


def check_conclusion(stated, names, originals):
    """Yields what is wrong with a theorem's type: it has to conclude with the statement, and may not assume it."""
    conclusion, left = antt.conclusion_of(stated.type)
    words = antt.top_words(conclusion)
    if not words or words[0] not in names:
        yield f"its type does not conclude with {' or '.join(names)}, but with `{conclusion}`"
    elif any(not re.fullmatch(r"[.\w][\w'.-]*|\(.*\)|\{.*\}", word) for word in words):
        yield f"its type concludes with more than {words[0]} and what it is about: `{conclusion}`"
    else:
        yield from check_about(left, words[1:])
    yield from assumed(left, names + originals)


def check_about(left, arguments):
    """Yields what is wrong with what a theorem is about: things of known types, each of any value, and all of them in the statement."""
    bound = []
    groups = re.match(r"(?:\([^():]+ : [^():]+\) ?)*", left).group()
    for variables, kind in re.findall(r"\(([^():]+) : ([^():]+)\)", groups):
        bound += variables.split(" ")
        if kind not in ABOUT:
            yield f"it is about things of the type `{kind}`, which is none of {', '.join(ABOUT)}"
    premises = [part.strip() for part in antt.split_outside(left[len(groups):], "→") if part.strip()]
    yield from (f"it has the premise `{premise}`" for premise in premises if premise not in PREMISES)
    yield from (f"it binds {name} twice" for name in antt.twice(bound))
    used = set()
    for argument in arguments:
        here = set(antt.words_of(argument)) & set(bound)
        if not here or any(word.isdecimal() for word in antt.words_of(argument)):
            yield f"its statement is about `{argument}`, which is not any value"
        used |= here
    yield from (f"its statement has the argument {name} twice" for name in antt.twice([word for word in arguments if word in bound]))
    yield from (f"its statement is not about {name}, which it binds" for name in bound if name not in used)


def assumed(left, names):
    """Yields the names that stand before the conclusion of a type and may not."""
    for name in sorted(set(names) & set(antt.words_of(left))):
        yield f"its type names {name} before its conclusion, so it may assume what it promises"


def check_theorem(things, uses, stated, entry, names, originals):
    """Yields what is wrong with a promise that cites a theorem."""
    crate, file, name = entry
    module = f"Rattle.{crate}.proofs.{file.replace('/', '.')}"
    if not things.has_place(f"crates/{crate}/proofs/{file}.antt", name):
        yield f"no {name} in crates/{crate}/proofs/{file}.antt"
    here = local_name(uses, module, name)
    if here is None:
        yield f"{FILE} does not bring {name} from {module}"
    elif stated.binders or stated.body != here:
        left = f"{stated.name} {stated.binders}".strip()
        yield f"it has to be defined as `{stated.name} = {here}`, and is `{left} = {stated.body}`"
    yield from check_conclusion(stated, names, originals)


def check_contract(things, uses, stated, path, names):
    """Yields what is wrong with a promise that is a function's contract: it has to say that the contract states it, and no more."""
    found = things.find_function(path.split("::"))
    if found is None or not found[1].public or path.split("::")[0] != found[0]:
        yield f"no public function {path}"
        return
    module = things.reads_module(*found)
    alias = local_name(uses, module, "")
    if alias is None:
        yield f"{FILE} does not bring {module}"
        return
    if local_name(uses, *STATES) != "States":
        yield f"{FILE} does not bring States from {STATES[0]}"
    said = re.fullmatch(rf"States {re.escape(alias)}\.Post \(λ κs a r s\. (.+)\)", stated.type)
    if said is None:
        yield f"its type has to be `States {alias}.Post (λ κs a r s. ..)`, and is `{stated.type}`"
        return
    if stated.binders != "κs a r s p" or not re.fullmatch(rf"{PART}|\({PART}(?:, {PART})+\)", stated.body):
        yield f"it has to be defined as `{stated.name} κs a r s p = p`, or as parts of p"
    yield from check_said(said.group(1), names)


def check_said(said, names):
    """Yields what is wrong with what a contract is said to state: one equation or several, in which the definitions stand."""
    stated = set()
    for part in antt.split_outside(said, "×"):
        part = part.strip()
        equation = part[1:-1] if part.startswith("(") and part.endswith(")") else part
        if equation.count(" ≡ ") != 1 or set(equation) & set("→⊎λ⊥↔"):
            yield f"it states `{part}`, which is no equation"
            continue
        given, due = equation.split(" ≡ ")
        if not GIVEN.fullmatch(given):
            yield f"it states something of `{given}`, which is neither the result nor what a buffer holds afterwards"
        if KEPT.fullmatch(due):
            continue
        terms = [match for match in (form.fullmatch(due) for form in DUE) if match]
        if not terms:
            yield f"it states `{part}`, in which no definition stands with the arguments"
            continue
        stated.add(terms[0].group(1))
        for argument in antt.twice(antt.top_words(terms[0].group(2))):
            yield f"it states `{part}`, in which {argument} stands twice"
    for name in names:
        if name not in stated:
            yield f"it does not state anything of {name}, but `{said}`"
