"""crates/one_answer/proofs/OneAnswer.antt, written anew from the signatures: what can be worked out is, and other proofs are kept."""
from checks import antt, contracts
from checks.definitions import stands_in, words_in

# What the laws are made of: their types, and the proofs that are written here.
PARTS = contracts.PARTS | {
    "one_answer": ("Rattle.basics.proofs.Alike", "one_answer"), "◌and◌": ("Rattle.one_answer.proofs.Alike", "◌and◌"),
}


def use_lines(uses, wanted, laws):
    """The `use` lines: those of single names that the laws need, and then each function's contract."""
    words, brought = words_in("\n".join(laws)), {}
    single = [use for use in uses if use.item and use.name not in PARTS]
    single += [antt.Use(0, *PARTS[name], name) for name in PARTS]
    for use in single:
        if stands_in(use.name, words):
            brought.setdefault(use.module, []).append(use.item if use.item == use.name else f"{use.item} as {use.name}")
    yield from (f"use {module}.{{{', '.join(items)}}}" for module, items in brought.items())
    yield from (f"use {law.module} as {law.alias}" for law in wanted)


def law_lines(law, there):
    """A law: its type and its clause, by what is wanted and by what is there of it."""
    clause = f"{law.law} = ?"
    if there is not None and there.type == law.type:
        clause = " ".join(filter(None, (law.law, there.binders, "=", there.body)))
    if law.proof:
        clause = f"{law.law} {law.binders} = {law.proof}"
    return ["", f"pub {law.law} : {law.type}", clause]


def text_of(text, wanted):
    """The file's new text, by the present one."""
    uses, stated = antt.strict_file(text)
    by_name = {law.name: law for law in stated}
    lines = text.split("\n")
    head = lines[: next((number for number, line in enumerate(lines) if not line.startswith("--")), len(lines))]
    laws = [line for law in wanted for line in law_lines(law, by_name.get(law.law))]
    return "\n".join([*head, *use_lines(uses, wanted, laws), *laws]) + "\n"


def write(top):
    """Writes the laws. Yields what was done."""
    wanted, wrong = contracts.all_wanted(top)
    yield from wrong
    text = text_of((top / contracts.LAWS).read_text(), wanted)
    (top / contracts.LAWS).write_text(text)
    yield f"{contracts.LAWS}: {len(wanted)} laws, {text.count(' = ?')} without a proof"
