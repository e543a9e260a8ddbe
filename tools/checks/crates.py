"""The crates of the repository: those that crates.txt lists, and those that have a folder."""
import re

LINE = re.compile(r"([a-z][a-z0-9_]*)( staticlib)?:((?: [a-z][a-z0-9_]*)*)")


def listed(top):
    """The crates of crates.txt in their order; an error for each line that is not `name: crates below it`, or comes twice. (Of a
    static library `staticlib` stands behind the name.)"""
    names, wrong = [], []
    for number, line in enumerate((top / "crates.txt").read_text().splitlines(), 1):
        if not line.strip() or line.startswith("#"):
            continue
        match = LINE.fullmatch(line.rstrip())
        if match is None:
            wrong.append(f"crates.txt:{number}: no line `name: crates below it`")
        elif match.group(1) in names:
            wrong.append(f"crates.txt:{number}: {match.group(1)} is listed twice")
        else:
            names.append(match.group(1))
    return names, wrong


def needed(top, names):
    """The named crates and all that they stand on, in the order of crates.txt; what is not listed there, as the kit's own, is left out."""
    lines = (LINE.fullmatch(line.rstrip()) for line in (top / "crates.txt").read_text().splitlines())
    below = {match.group(1): match.group(3).split() for match in lines if match}
    wanted, found = list(names), set()
    while wanted:
        name = wanted.pop()
        if name in below and name not in found:
            found.add(name)
            wanted += below[name]
    return [name for name in below if name in found]


def folders(top):
    """The names of the folders in crates/."""
    return sorted(path.name for path in (top / "crates").iterdir() if path.is_dir())


def check(top):
    """Yields what is wrong between crates.txt and crates/: a crate that is not listed, or has no folder, or no source of its own."""
    names, wrong = listed(top)
    yield from wrong
    there = folders(top)
    for name in there:
        if name not in names:
            yield f"crates/{name}: crates.txt does not list this crate"
    for name in names:
        if name not in there:
            yield f"crates.txt: there is no crates/{name}"
        elif is_library(top, name) == is_program(top, name):
            yield f"crates/{name}: a crate has either src/lib.rt or src/main.rt"


def is_library(top, name):
    """Whether a crate is a library, for other crates or, a static one, for other languages."""
    return (top / "crates" / name / "src/lib.rt").is_file()


def is_program(top, name):
    """Whether a crate is a program."""
    return (top / "crates" / name / "src/main.rt").is_file()


def libraries(top):
    """The listed libraries that other crates can stand on, in their order."""
    return [name for name in listed(top)[0] if is_library(top, name) and name not in static_libraries(top)]


def static_libraries(top):
    """The listed static libraries, in their order; no crate stands on one."""
    lines = (LINE.fullmatch(line.rstrip()) for line in (top / "crates.txt").read_text().splitlines())
    return [match.group(1) for match in lines if match and match.group(2)]


def programs(top):
    """The listed programs, in their order."""
    return [name for name in listed(top)[0] if is_program(top, name)]
