"""Public functions and their laws: each states its whole answer, has no `requires`, and has the one law that its signature asks for. So has
each function of a trait that a type implements.

The laws stand in crates/one_answer/proofs/OneAnswer.antt, over the real contracts (`Post`, which Rattle makes of the source's clauses); the
form that they take is defined in crates/one_answer/specs/OneAnswer.antt. A call of a static library has no law of its own, since no crate
can stand on one: it has to be the call of the same name in a library, with the same clauses, so that the one law speaks of both.
"""
import dataclasses
import re

from checks import antt, crates, fixed, products, source
from checks.laws import WIDTHS, NoForm, binders_of, law_type, proof_of

LAWS = "crates/one_answer/proofs/OneAnswer.antt"
FORMS = "crates/one_answer/specs/OneAnswer.antt"
MODULE = "Rattle.one_answer.specs.OneAnswer"
# The traits that the code implements, each with the ghost members that say what its functions give or what clauses see of the type.
TRAITS = {"From": ("from_gives",), "TryFrom": ("try_from_gives",), "AsSlice": ("items",), "Model": ("Value", "view")}
# The conversions, whose contract is their trait's: that the ghost member of the impl holds of what is taken and what is given. It is one
# equation with a term of names and parentheses alone, so that it leaves no choice.
CONVERSIONS = {"from": "from_gives", "try_from": "try_from_gives"}
GIVES = re.compile(r"\{ λ (\w+) (\w+)\. \2 ≡ ((?!.*\b\2\b)[\w.() ]+) \}")
# What the laws' types are made of, by the names that they have there.
PARTS = {"OneAnswer": (MODULE, "OneAnswer"), "◌beside◌": (MODULE, "◌beside◌"), "ℕ": ("Rattle.std.specs.Prelude", "ℕ"), "Fits": ("mir.Val", "Fits")}
PARTS |= {width: ("mir.Syntax", width) for width in WIDTHS.values()}


@dataclasses.dataclass(frozen=True)
class Wanted:
    """What the laws file has to hold of one public function."""

    where: str
    module: str
    alias: str
    law: str
    type: str
    binders: str
    proof: str = ""  # where it is known


def declaring_modules(readers, owner, function):
    """The modules that declare a method's type."""
    types = [thing for reader in readers for thing in reader.declared if thing.kind in ("struct", "enum")]
    places = sorted({thing.modules for thing in types if thing.name == owner})
    if function.modules in places or not places:
        return function.modules
    if len(places) > 1:
        raise NoForm(f"the type {owner} is declared in {len(places)} modules, so its law has no one place")
    return places[0]


def reads_module(crate, readers, function):
    """The module in which Rattle has a function's contract, read plainly."""
    words = ()
    if function.trait:
        words = function.modules + (function.proved_as,)
    elif function.owner:
        words = declaring_modules(readers, function.owner, function) + (function.owner,)
    return ".".join(("Rattle", crate, "proofs") + words + (function.name, "Reads"))


def names_of(crate, functions):
    """The law's name for each public function: its crate and its name, with its type, or its impl of a trait, where two share the name."""
    names = [function.name for function in functions]
    for function in functions:
        owner = function.proved_as or function.owner
        words = [crate] + ([owner] if names.count(function.name) > 1 and owner else []) + [function.name]
        yield "-".join(words).replace("_", "-")


def alias_of(law):
    """The name of a function's contract beside the law: a module has one thing under one name, and modules begin with a capital."""
    return "".join(word[:1].upper() + word[1:] for word in law.split("-"))


def called(function):
    """A function by its type and its name."""
    return f"{function.owner}::{function.name}" if function.owner else function.name


def read_all(top, crate):
    """The readers of a crate's sources by their paths, and what is wrong with those that cannot be read or hold a strange thing."""
    readers, wrong = {}, []
    for path, reader, why in source.read_crate(top / "crates" / crate):
        where = path.relative_to(top)
        if reader is None:
            wrong.append(f"{where}: {why}")
            continue
        readers[where] = reader
        wrong += [f"{where}:{line}: {what} is not known to this check" for line, what in reader.strange]
        wrong += [
            f"{where}:{thing.line}: {thing.kind} {thing.name} holds a reference to be written, so a signature would not show what is lent"
            for thing in reader.declared
            if thing.kind in ("struct", "enum", "union", "type") and holds_written(thing.tokens)
        ]
        wrong += [f"{where}:{line}: {why}" for line, why in (*check_impls(reader), *check_models(crate, reader))]
    return readers, wrong


def holds_written(tokens):
    """Whether a type's tokens have a reference through which it may be written."""
    words = [token.text for token in tokens if token.kind != "lifetime"]
    return any(one in ("&", "&&") and other == "mut" for one, other in zip(words, words[1:]))


def check_impls(reader):
    """Yields what the `impl` blocks of traits lack, by their lines: a trait that is known, its ghost members, a conversion with one answer."""
    for number, (line, trait, owner) in enumerate(reader.blocks):
        if trait not in TRAITS:
            yield line, f"an impl of {trait} for {owner}, a trait which this check does not know"
        members = members_of(reader, number)
        for name in TRAITS.get(trait, ()):
            if name not in members:
                yield line, f"an impl of {trait} for {owner} without `ghost {name}`"
    for one in reader.members:
        if one.name in CONVERSIONS.values() and not GIVES.fullmatch(" ".join(one.stated.split())):
            yield one.line, f"the conversion to {one.owner} does not say in one equation, `λ x y. y ≡ ..`, what it gives"


def members_of(reader, number):
    """The ghost members of one `impl` by their names, each with its words."""
    return {one.name: " ".join(one.stated.split()) for one in reader.members if one.block == number}


def check_models(crate, reader):
    """Yields what is wrong with what clauses see of a type by its `impl Model`, by its line: it is held to its words, since the laws and the
    contracts that speak of the type say as much as it shows."""
    brought = [use for line, text in reader.ghosts for use in antt.uses_of(antt.Item(line, text))]
    for number, (line, trait, owner) in enumerate(reader.blocks):
        if trait != "Model":
            continue
        if (crate, owner) not in fixed.MODELS:
            yield line, f"an impl of Model for {owner}; read what clauses see of it, and put its words into tools/checks/fixed.py"
        for name, due in fixed.MODELS.get((crate, owner), {}).items():
            said = members_of(reader, number).get(name, "")
            if said != due:
                yield line, f"of the type {owner} clauses see `{name} = {due}`, and not `{name} = {said}`"
            for word in fixed.LIBRARY & set(antt.words_of(due)):
                if {(use.module, use.item) for use in brought if use.name == word} != {(fixed.PRELUDE, word)}:
                    yield line, f"{word} has to stand for {fixed.PRELUDE}.{word}, in what clauses see of {owner}"


def as_promised(reader, function):
    """A function with its contract, which of a conversion that has no clauses of its own is what the ghost member of its impl says."""
    means = GIVES.fullmatch(members_of(reader, function.block).get(CONVERSIONS.get(function.name, ""), ""))
    if function.clauses or means is None:
        return function
    return dataclasses.replace(function, clauses=["ensures"], stated=[f"{{ result ≡ {means.group(3)} }}"])


def paths_of(words):
    """The paths that the words of a `pub use` hand on under their own names, one or several of one module; none where it has another form."""
    said = "".join(words) if "as" not in words else ""
    match = re.fullmatch(r"((?:\w+::)+)(?:(\w+)|\{((?:\w+,)*\w+),?\})", said)
    if not match or "self" in words:
        return []
    front = tuple(match.group(1).split("::")[:-1])
    return [front + (name,) for name in (match.group(2) or match.group(3)).split(",")]


def check_handed(top, crate, readers):
    """Yields what is wrong with how a library's functions become public. Their contracts are known by the names that lib.rt hands on, so
    another name there would have one function's law stand for another's."""
    handed = set()
    for where, reader in readers.items():
        for line, words in reader.handed:
            paths = paths_of(words)
            if where.name != "lib.rt" or not paths:
                yield (f"{where}:{line}: `pub use {' '.join(words)}`; a library hands things on in lib.rt, by `pub use module::Name;` or "
                       "`pub use module::{Name, Name};`")
            handed |= set(paths)
    for where, reader in readers.items():
        for function in reader.functions:
            if function.public and not function.owner and function.modules and function.modules + (function.name,) not in handed:
                path = "::".join(function.modules + (function.name,))
                yield f"{where}: {function.name} is public, and no line `pub use {path};` in lib.rt hands it on under its own name"


def wanted_of(top, crate):
    """The laws that a library's public functions need, and what is wrong with those functions."""
    readers, wrong = read_all(top, crate)
    wrong += check_handed(top, crate, readers)
    public = [
        (where, as_promised(reader, function))
        for where, reader in readers.items()
        for function in reader.functions
        if function.public or function.trait
    ]
    wanted = []
    for (where, function), law in zip(public, names_of(crate, [function for _, function in public])):
        place = f"{where}: {called(function)}"
        wrong += [f"{place} is public and {why}" for why in faults_of(function)]
        try:
            module = reads_module(crate, readers.values(), function)
            alias = alias_of(law)
            wanted.append(Wanted(place, module, alias, law, law_type(function, alias), binders_of(function), proof_of(function)))
        except NoForm as why:
            wrong.append(f"{place}: {why}")
    return wanted, wrong


def faults_of(function):
    """What a public function's clauses lack or have too much."""
    if "ensures" not in function.clauses:
        yield "states nothing"
    if "requires" in function.clauses:
        yield "has a requires"
    if "ghost" in function.clauses:
        yield "has a ghost clause"


def check_uses(uses, wanted):
    """Yields what is wrong with the `use` lines of the laws: a needed name that comes from elsewhere, twice or not at all."""
    needed = PARTS | {law.alias: (law.module, "") for law in wanted}
    by_module = {law.module: law.alias for law in wanted}
    heads = {use.module.split(".")[0] for use in uses}
    for name in antt.twice([use.name for use in uses]):
        yield f"{LAWS}: {name} is brought in twice"
    for use in uses:
        where = f"{LAWS}:{use.line}"
        if use.name in heads:
            yield f"{where}: {use.name} would stand for the module that other `use` lines begin with"
        elif use.name in needed and (use.module, use.item) != needed[use.name]:
            yield f"{where}: {use.name} has to stand for {'.'.join(filter(None, needed[use.name]))}, and not for another thing"
        elif not use.item and use.module not in by_module:
            yield f"{where}: {use.module} is no public function"
        elif not use.item and use.name != by_module[use.module]:
            yield f"{where}: {use.module} has to be brought in as {by_module[use.module]}"
    brought = {use.name for use in uses}
    for name in needed_parts(wanted):
        if name not in brought:
            yield f"{LAWS}: no `use` line brings {name} from {needed[name][0]}"


def needed_parts(wanted):
    """The names that the wanted laws' types are made of."""
    words = {word for law in wanted for word in re.findall(r"\w+", law.type)}
    return [name for name in PARTS if name.strip("◌") in words]


def check_laws(stated, wanted, brought):
    """Yields what is wrong with the laws: one that is missing, one too many, one of another type than its function's signature asks for."""
    by_name = {law.law: law for law in wanted}
    names = [law.name for law in stated]
    for name in antt.twice(names):
        yield f"{LAWS}: {name} is stated twice"
    for name in antt.twice([law.law for law in wanted]):
        yield f"{LAWS}: two public functions would have the law {name}"
    for law in stated:
        if law.name not in by_name:
            yield f"{LAWS}:{law.line}: {law.name} is the law of no public function"
        elif law.type != by_name[law.name].type:
            yield f"{LAWS}:{law.line}: {law.name} has to be of the type `{by_name[law.name].type}`, and is of the type `{law.type}`"
        elif by_name[law.name].proof and (law.binders, law.body) != (by_name[law.name].binders, by_name[law.name].proof):
            yield f"{LAWS}:{law.line}: {law.name} is shown by `{by_name[law.name].proof}`, which tools/check-contracts --write writes"
        if law.name in brought:
            yield f"{LAWS}:{law.line}: {law.name} is also the name of what a `use` line brings"
    for law in wanted:
        if law.law not in names:
            yield f"{law.where} has no law {law.law} in {LAWS}, over {law.module}"
        if law.alias not in brought:
            yield f"{LAWS}: no line `use {law.module} as {law.alias}`"


def check_programs(top):
    """Yields what is wrong in the programs: a public function, or other words than those of a program that may decide nothing.

    A choice needs no `if`: `readable & (n != 2000)` is one, and so is a private function with a contract that says nothing. (`cases` goes
    through its table in a loop; its functions say that they run the proved one, and it is not held to its words.)
    """
    for crate in crates.programs(top):
        readers, wrong = read_all(top, crate)
        yield from wrong
        for where, reader in readers.items():
            yield from (f"{where}: {called(function)} is public, in a program" for function in reader.functions if function.public)
            yield from (f"{where}:{line}: an impl of {trait}, in a program" for line, trait, _ in reader.blocks)
            if crate in fixed.PROGRAMS:
                yield from check_words(crate, where, reader, fixed.PROGRAMS[crate], "main.rt")


def body_that_calls(function, crate):
    """The forms of a body that only hands a function's parameters to the one of its name in a crate: by its whole path, or by its name."""
    arguments = [word for name, _ in function.parameters for word in (name, ",")][:-1]
    call = [function.name, "(", *arguments, ")"]
    return [["{", *front, *call, "}"] for front in ([crate, "::"], [])]


def check_static_libraries(top):
    """Yields what is wrong with the calls of static libraries: each is a public function of a library, by its name, its types and its clauses."""
    there = {}
    for crate in crates.libraries(top):
        for reader in read_all(top, crate)[0].values():
            for function in reader.functions:
                if function.public and not function.owner:
                    there.setdefault(function.name, []).append((crate, function))
    for crate in crates.static_libraries(top):
        readers, wrong = read_all(top, crate)
        yield from wrong
        for where, reader in readers.items():
            yield from (f"{where}:{line}: an impl of {trait}, in a crate of calls for other languages" for line, trait, _ in reader.blocks)
            for function in reader.functions:
                fault = call_fault(function, there.get(function.name, []))
                if fault:
                    yield f"{where}: {called(function)} {fault}"


def call_fault(function, twins):
    """Why a function of a static library is no call of one of the libraries' functions that have its name, or nothing where it is."""
    if function.owner or not function.public:
        return "is no call for other languages, in a crate that has nothing else"
    form = lambda one: (one.parameters, one.answer, one.clauses, one.clause_names, [" ".join(text.split()) for text in one.stated])
    like = [crate for crate, twin in twins if form(twin) == form(function)]
    if not like:
        return "is no public function of a library, with these parameters, this answer and these clauses"
    body = [token.text for token in function.body]
    if not any(body in body_that_calls(function, crate) for crate in like):
        return f"does more than to call {like[0]}::{function.name} with its own parameters"
    return ""


def check_words(crate, where, reader, due, file):
    """Yields what is wrong with a source that is held to its words, in the one file that its crate may have."""
    fault = fixed.program_fault(reader.tokens, due) if where.name == file else f"a file besides {file}"
    if fault:
        yield f"{where}: {crate} decides nothing, so it is held to its words: {fault}"


def check_edge(top, crate):
    """Yields what is wrong with a library that only reads and writes."""
    readers, wrong = read_all(top, crate)
    yield from wrong
    for where, reader in readers.items():
        yield from check_words(crate, where, reader, fixed.EDGES[crate], "lib.rt")


def all_wanted(top):
    """The laws that all public functions need, and what is wrong with those functions. The libraries at the edge have none."""
    wanted, wrong = [], []
    for crate in crates.libraries(top):
        if crate in fixed.EDGES:
            wrong += check_edge(top, crate)
            continue
        laws, faults = wanted_of(top, crate)
        wanted += laws
        wrong += faults
    return wanted, wrong


def check_forms(top):
    """Yields what is wrong with the file that defines the form of the laws."""
    fault = fixed.definitions_fault((top / FORMS).read_text(), fixed.FORMS) if (top / FORMS).is_file() else "there is no such file"
    if fault:
        yield f"{FORMS}: {fault}"


def check(top):
    """What is wrong, line by line, products on the locator's way among it, and how many laws there are."""
    wrong = list(crates.check(top))
    if wrong:
        return wrong, 0
    wanted, wrong = all_wanted(top)
    wrong += check_forms(top)
    try:
        uses, stated = antt.strict_file((top / LAWS).read_text())
    except antt.Unreadable as why:
        return wrong + [f"{LAWS}: {why}"], 0
    wrong += check_uses(uses, wanted)
    wrong += check_laws(stated, wanted, {use.name for use in uses})
    wrong += check_programs(top)
    wrong += check_static_libraries(top)
    wrong += products.check(top)
    return wrong, len(wanted)
