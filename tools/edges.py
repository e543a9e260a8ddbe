"""What the proved programs do at their edges: inputs of few bytes and of about the most that they read
at a time or take, beside the second program; and input that cannot be read and output that cannot be written."""
import subprocess
from typing import NamedTuple

from commands import CannotRun
from programs import Pair, in_order, problem_of, run_on

NOT_READ = b"standard input cannot be read\n"
NOT_WRITTEN = b"standard output cannot be written\n"
SECONDS_FOR_ONE = 60
SHOWN = 60  # bytes of an output that a message shows
# How a program is run where its input cannot be read or its output cannot be written, in the shell's
# words, and what it then has to say.
BROKEN = (
    ('"$@" <&-', NOT_READ),
    ('"$@" </', NOT_READ),
    ('"$@" >/dev/full', NOT_WRITTEN),
    ('"$@" >&-', NOT_WRITTEN),
)


class Run(NamedTuple):
    """One run of a pair of programs on an input, or of the proved one alone with a broken input or output."""

    pair: Pair
    what: str
    given: bytes
    broken: str = ""
    due: bytes = b""


def runs_on_inputs(pairs, lengths=None):
    """A run of each pair on each input at the edges of its program, or on those of these lengths; the short ones first."""
    runs = [Run(pair, f"{length} bytes, {what}", given)
            for pair in pairs
            for length in (pair.program.edge_lengths if lengths is None else lengths)
            for what, given in pair.program.edge_inputs(length)]
    return sorted(runs, key=lambda run: len(run.given))


def runs_on_broken(pairs):
    """A run of each proved program with each broken input or output."""
    for pair in pairs:
        for words, due in BROKEN:
            yield Run(pair, words.replace('"$@"', "started with"), pair.program.good_input, words, due)


def done(command, given):
    """How a command ends, and what it says on both outputs."""
    try:
        return run_on(command, given, SECONDS_FOR_ONE)
    except subprocess.TimeoutExpired as problem:
        raise CannotRun(f"{command[0]} did not end within {SECONDS_FOR_ONE} seconds") from problem


def shown(text):
    """The first bytes of an output, for a message."""
    return repr(text[:SHOWN]) + (f" and {len(text) - SHOWN} bytes more" if len(text) > SHOWN else "")


def fault_on_input(run):
    """What is wrong with what the pair makes of an input, or None."""
    proved, second = done(run.pair.proved, run.given), done(run.pair.second, run.given)
    for name, ended in (("proved", proved), ("second", second)):
        problem = problem_of(ended.returncode, ended.stderr)
        if problem:
            return f"the {name} program {problem}"
    if proved.stdout != second.stdout:
        return f"\n  proved: {shown(proved.stdout)}\n  second: {shown(second.stdout)}"
    return None


def fault_on_broken(run):
    """What is wrong with what a proved program does where its input or its output is broken, or None."""
    ended = done(["sh", "-c", f"exec {run.broken}", "sh", *run.pair.proved], run.given)
    if (ended.returncode, ended.stdout, ended.stderr) == (0, b"", run.due):
        return None
    return (f"\n  due:  status 0, nothing on standard output, and on standard error {shown(run.due)}"
            f"\n  came: status {ended.returncode}, {shown(ended.stdout)}, and {shown(ended.stderr)}")


def fault(run):
    """What is wrong with one run, told with the program and the input, or None."""
    wrong = fault_on_broken(run) if run.broken else fault_on_input(run)
    return f"{run.pair.program.name}, {run.what}: {wrong}" if wrong else None


def check(pairs, lengths=None):
    """Makes all runs, on inputs of these lengths where they are given. Gives how many were as due, and the first fault or None."""
    runs = [*runs_on_broken(pairs), *runs_on_inputs(pairs, lengths)]
    faults = in_order(fault, runs)
    try:
        for count, wrong in enumerate(faults):
            if wrong:
                return count, wrong
    finally:
        faults.close()
    return len(runs), None
