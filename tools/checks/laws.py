"""The law of one answer that a public function's signature asks for: its type, and its proof where the clauses say what is seen one by one.

What a caller sees of a call: the result, or the bytes and the place of a part of his own slice; and what each lent buffer or struct holds
afterwards, the written ones first. Rattle makes a plain reading of every contract, `Post`, over which the law stands. What is lent to be read
(`&`) has one value in most clauses, `x.now`; so that the law can speak of it after the call, one clause says `x.exit.now ≡ x.entry.now`.
"""
import re

from checks import antt

BINDERS = "κs a x y s t p q"
WIDTHS = {"u8": "w8", "u16": "w16", "u32": "w32", "u64": "w64", "usize": "w64"}
CLAUSE = re.compile(r"\{\s*(.*?)\s*\}", re.S)


class NoForm(Exception):
    """A signature for which there is no form of law; it says why."""


def lent_words(kind):
    """The words of what a type lends, without the `&`, the `mut` and the lifetime; none where it lends nothing."""
    if not kind.startswith("& "):
        return []
    return [word for word in kind.split(" ")[1:] if word != "mut" and not word.startswith("'")]


def is_written(kind):
    """Whether a lent parameter may be written: `&mut`, with a lifetime or without."""
    return [word for word in kind.split(" ") if not word.startswith("'")][:2] == ["&", "mut"]


def lent_of(function):
    """The numbers of the lent parameters, the written ones first."""
    lent = []
    for index, (name, kind) in enumerate(function.parameters):
        if "* mut" in kind or "* const" in kind:
            raise NoForm(f"its parameter {name} is a raw pointer, and no law speaks of that")
        if "&" in kind.split(" ") or "&&" in kind.split(" "):
            if not kind.startswith("& ") or kind.count("&") > 1:
                if re.search(r"&(?: '\w+)? mut\b", kind):
                    raise NoForm(f"its parameter {name} lends something to be written within another type, and no law speaks of that")
                continue  # within another type, to be read: no clause can name it after the call, and nothing can write it
            lent.append((not is_written(kind), index))
    return [index for _, index in sorted(lent)]


def after_call(name, kind):
    """What a lent parameter holds after the call, as a clause names it."""
    return f"{name}.new" if is_written(kind) else f"{name}.exit.now"


def place(index):
    """The path to a parameter, by its number."""
    return ".1" * index + ".0"


def seen_of(function):
    """All that a caller sees of a call: each thing as a law names it, and as a clause does."""
    lent = lent_of(function)
    seen = [("r", "result")] if function.answer else []
    if "&" in function.answer:
        words = lent_words(function.answer)
        if words[:1] != ["["] or is_written(function.answer) or function.answer.count("&") > 1:
            raise NoForm(f"it answers `{function.answer}`; there is a law only for a part of a slice that is lent to be read")
        seen = [("r.now", "result.now"), ("r.ref_ptr", "result.ref_ptr")]
    seen += [(f"s{place(index)}.now", after_call(*function.parameters[index])) for index in lent]
    if not seen:
        raise NoForm("it answers nothing and nothing is lent to it, so nothing is seen of it")
    return seen


def constants_of(function):
    """What a function is generic over, which has to be constants: the name of each and its width."""
    for name, kind in function.generics:
        if kind not in WIDTHS:
            raise NoForm(f"it is generic over {name}, and there is a law only for constants that are numbers")
        yield name, WIDTHS[kind]


def binders_of(function):
    """The names that a law's clause binds: each constant with what holds it to its width, and then what every law has."""
    return " ".join([f"{name} fits-{name}" for name, _ in constants_of(function)] + [BINDERS])


def law_type(function, alias):
    """The type of a function's law."""
    constants = list(constants_of(function))
    over = "".join(f"({name} : ℕ) (fits-{name} : Fits {width} {name}) " for name, width in constants)
    post = " ".join([f"{alias}.Post"] + [f"{name} fits-{name}" for name, _ in constants])
    seen = " beside ".join(term for term, _ in seen_of(function))
    return (f"{over}→ OneAnswer ({post})" if over else f"OneAnswer {post}") + f" (λ κs r s. {seen})"


def claims_of(function):
    """What each clause that promises something states of what, its left side; nothing for a clause that is no one equation."""
    for word, clause in zip(function.clauses, function.stated):
        if word != "ensures":
            continue
        said = " ".join(CLAUSE.fullmatch(clause).group(1).split())
        sides = said.split(" ≡ ")
        plain = len(sides) == 2 and all(len(antt.split_outside(said, sign)) == 1 for sign in "×→⊎↔;")
        yield sides[0] if plain else ""


def proof_of(function):
    """The proof of a function's law, or nothing where the clauses do not say what is seen one by one."""
    claims = list(claims_of(function))
    if any(said not in claims for _, said in seen_of(function)):
        return ""
    parts = []
    for _, said in seen_of(function):
        at = claims.index(said)
        path = ".1" * at + (".0" if at < len(claims) - 1 else "")
        parts.append(f"one_answer p{path} q{path}")
    return " and ".join(parts)
