"""Must-fail edits tried here, so that the whole of what the prover says of them can be read.

The libraries below are built once, here. An edit is made in a copy of its crate and of those below it, in a folder of its own, and `rt check`
is run there over the work that is kept on this machine. Where all its replacements stand in functions, it is asked for these alone, and else
for the whole crate.
"""
import collections
import concurrent.futures
import contextlib
import os
import pathlib
import shutil
import subprocess
import tempfile

from checks import crates, edits
from commands import CannotRun

AT_ONCE = 2  # a check takes a gigabyte or two
SHARED = "several functions are named `"  # what rt check says where a name is that of two
HOLDS_BUILT = "rlib"  # in a crate's out/: the library, as rt builds it for the crates above


def link_or_copy(one, other):
    """A second name for a file, or a copy where that cannot be."""
    try:
        os.link(one, other)
    except OSError:
        shutil.copy2(one, other)


def copied(top, crate, folder):
    """A crate and those below it, copied so that rt can check it there. Gives the crate's own folder."""
    names = crates.needed(top, [crate])
    for name in names:
        ours, theirs = top / "crates" / name, folder / "crates" / name
        shutil.copytree(ours, theirs, ignore=shutil.ignore_patterns("out", "must-fail"))
        if (ours / "out" / HOLDS_BUILT).is_dir():
            with contextlib.suppress(OSError, shutil.Error):  # what cannot be taken is built anew
                shutil.copytree(ours / "out" / HOLDS_BUILT, theirs / "out" / HOLDS_BUILT, copy_function=link_or_copy)
    lines = ((line, crates.LINE.fullmatch(line.rstrip())) for line in (top / "crates.txt").read_text().splitlines())
    (folder / "crates.txt").write_text("".join(f"{line}\n" for line, match in lines if match and match.group(1) in names))
    if (top / "HANDLES").is_file():
        shutil.copyfile(top / "HANDLES", folder / "HANDLES")
    (folder / ".git").mkdir()
    return folder / "crates" / crate


def checked(folder, places):
    """What rt check says of the crate in a folder, of some functions alone or of all. Where two functions share a name it is asked for all."""
    words = [word for place in dict.fromkeys(places) for word in ("--only", place)] if all(places) else []
    try:
        done = subprocess.run(["rt", "check", *words], cwd=folder, stdin=subprocess.DEVNULL, stdout=subprocess.PIPE, stderr=subprocess.STDOUT)
    except OSError as problem:
        raise CannotRun(f"cannot run rt: {problem.strerror}") from problem
    said = done.stdout.decode(errors="replace")
    return checked(folder, [""]) if words and SHARED in said else said


def tried(top, crate, paths, whole):
    """Tries some edits of one crate, one after the other. Yields each with the class of its first refusal and what is wrong."""
    with tempfile.TemporaryDirectory(prefix="must-fail-") as room:
        folder, ours = copied(top, crate, pathlib.Path(room)), top / "crates" / crate
        for path in paths:
            text = path.read_text()
            try:
                files = edits.edited(ours, text)
            except edits.BadEdit as why:
                yield path, "", [str(why)]
                continue
            places = list(edits.places_of(ours, text))
            for name, after in files.items():
                (folder / name).write_text(after)
            yield path, *edits.check_log(checked(folder, [""] if whole else places), places)
            for name in files:
                shutil.copyfile(ours / name, folder / name)


def below(top, names):
    """The libraries below some crates, but for those that another of them stands on."""
    under = {name: set(crates.needed(top, [name])) - {name} for name in crates.listed(top)[0]}
    found = set().union(*(under[name] for name in names))
    return [name for name in crates.listed(top)[0] if name in found and not any(name in under[other] for other in found)]


def several(path):
    """Whether an edit has several replacements."""
    return len(list(edits.pairs_of(path.read_text()))) > 1


def check(top, paths, whole, tell):
    """What is wrong with the edits by their logs, and how many were refused by each class of fact. tell is told of each as it was tried."""
    counts, wrong, by_crate = collections.Counter(), {}, {}
    for path in paths:
        by_crate.setdefault(path.parent.parent.name, []).append(path)

    def work(crate):
        for path, name, faults in tried(top, crate, by_crate[crate], whole):
            tell(path.relative_to(top), faults)
            if faults:
                wrong[path] = faults
            else:
                counts[name] += 1

    with concurrent.futures.ThreadPoolExecutor(AT_ONCE) as pool:
        for done in [pool.submit(work, crate) for crate in sorted(by_crate, key=lambda crate: -len(by_crate[crate]))]:
            done.result()
    return [f"{path.relative_to(top)}: {fault}" for path in paths for fault in wrong.get(path, [])], counts
