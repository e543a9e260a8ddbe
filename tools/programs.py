"""The proved programs and the second one: building them, the words that run them, and what they make of an input."""
import collections
import concurrent.futures
import itertools
import subprocess
from typing import NamedTuple

from commands import TOP, CannotRun, need, quietly
from compared import NAMES, PROGRAMS
from compared.program import Program
from kit import environment, running
from progress import Progress
from proving import prove

SECOND = TOP / "second" / "target" / "release" / "second"
CARGO_WORDS = ("--release", "--offline", "--locked", "--target-dir")
WORKERS = 2
WAITING = 16  # pieces of work handed out ahead of the one whose turn it is
SECONDS_FOR_ONE = 300

# problem: None where the program ended well and said nothing on standard error
Outcome = collections.namedtuple("Outcome", "text problem")


class Pair(NamedTuple):
    """A program under comparison: the words that run the proved one, and those that run the second one in its part."""

    program: Program
    proved: list
    second: list


def build(who):
    """Builds all programs, once, and tells which. who is the tool that asks for it."""
    need("rt")
    need("cargo")
    if not (TOP / "second").is_dir():
        raise CannotRun("the folder second, with the second program, is missing")
    Progress(who).say("building the second program with cargo")
    quietly(["cargo", "build", *CARGO_WORDS, "target"], TOP / "second")
    prove(who, NAMES)
    see_built("though its build did not fail")


def see_built(otherwise):
    """Sees that all programs are there."""
    for path in (SECOND, *(program.proved for program in PROGRAMS)):
        if not path.is_file():
            raise CannotRun(f"{path.relative_to(TOP)} is missing, {otherwise}")


def pairs_with(kit):
    """All programs under comparison, as they are built. The kit is found once; tools/run would look for it in each run."""
    return {program: Pair(program, running(kit, program.proved), program.second_words(SECOND)) for program in PROGRAMS}


def problem_of(status, said):
    """What is wrong with how a program ended, by its status and its standard error; None if nothing is."""
    words = said.decode(errors="replace").strip() or ("nothing" if not said else "an empty line")
    if status:
        return f"ended with status {status}, saying: {words}"
    return f"ended well, but said on standard error: {words}" if said else None


def run_on(command, given, seconds):
    """Runs a program on an input, without settings of the emulator. Gives how it ends, and what it says on both outputs."""
    return subprocess.run(command, input=given, stdout=subprocess.PIPE, stderr=subprocess.PIPE,
                          timeout=seconds, env=environment())


def outcome_of(command, given, seconds=SECONDS_FOR_ONE):
    """What a program prints for an input, and what went wrong with it, if anything did."""
    try:
        done = run_on(command, given, seconds)
    except subprocess.TimeoutExpired:
        return Outcome("", f"did not end within {seconds} seconds")
    return Outcome(done.stdout.decode("ascii", errors="replace"), problem_of(done.returncode, done.stderr))


def in_order(work, items):
    """What some work makes of each item, in the items' order, done by two workers."""
    with concurrent.futures.ThreadPoolExecutor(WORKERS) as pool:
        items = iter(items)
        waiting = collections.deque(pool.submit(work, item) for item in itertools.islice(items, WAITING))
        try:
            while waiting:
                yield waiting.popleft().result()
                for item in itertools.islice(items, 1):
                    waiting.append(pool.submit(work, item))
        finally:
            for future in waiting:
                future.cancel()
