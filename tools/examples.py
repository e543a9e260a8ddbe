"""The examples: batches, settings and calls in words, and beside each what is made of it."""
from commands import TOP

EXAMPLES = TOP / "examples"
MADE = ("hex", "listing", "explained")  # from each NAME.batch, by tools/check-desk --write
MADE_FROM = {"batch": MADE, "settings": ("counts",), "calls": ("cuts", "explained")}


class Disagreement(Exception):
    """An example that does not agree, and why."""


def file_of(name, ending):
    """One of an example's files."""
    return EXAMPLES / f"{name}.{ending}"


def names_of(source):
    """The names of the examples in one form of words."""
    return sorted(path.stem for path in EXAMPLES.glob(f"*.{source}"))


def example_names(source="batch"):
    """The examples in one form of words by name. Every example has all of its files, and there are no others."""
    if not names_of("batch"):
        raise Disagreement("there are no examples")
    due = {file_of(name, ending) for words, made in MADE_FROM.items() for name in names_of(words) for ending in (words, *made)}
    for path in sorted(due ^ set(EXAMPLES.iterdir())):
        why = "is missing" if path in due else "belongs to no example"
        raise Disagreement(f"examples/{path.name} {why}; 'tools/check-desk --write' makes what is made from words")
    return names_of(source)


def line_at(lines, at):
    """One line of a text, or words for a place past its end."""
    past_end = at >= len(lines) or (at == len(lines) - 1 and not lines[at])
    return "(nothing)" if past_end else lines[at]


def held(name, ending, text):
    """Holds a text to one of an example's files."""
    got, due = text.split("\n"), file_of(name, ending).read_text(encoding="utf-8").split("\n")
    if got == due:
        return
    at = next((i for i, (one, other) in enumerate(zip(got, due)) if one != other), min(len(got), len(due)))
    raise Disagreement(f"examples/{name}.{ending}, line {at + 1}\n  due:     {line_at(due, at)}\n  printed: {line_at(got, at)}")
