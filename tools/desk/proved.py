"""Running proved programs, on an input that is there or on one that is still to come."""
import contextlib
import functools
import os
import subprocess

from commands import CannotRun
from kit import environment, find_kit, running
from programs import outcome_of, problem_of
from proving import binary, prove
from .terminal import WHO

the_kit = functools.lru_cache(maxsize=None)(find_kit)


def words_for(program):
    """The words that run a proved program; it is proved and built first, where that is needed."""
    kit = the_kit()
    prove(WHO, [program])
    return running(kit, binary(program))


def printed(program, given):
    """What a proved program prints for an input."""
    outcome = outcome_of(words_for(program), given)
    if outcome.problem:
        raise CannotRun(f"the program '{program}' {outcome.problem}")
    return outcome.text


class Fed:
    """A program that runs and is given its input part by part; `fed` starts it."""

    def __init__(self, program, process):
        self.program = program
        self.process = process

    def give(self, data):
        """Gives it more bytes."""
        with contextlib.suppress(BrokenPipeError):  # it has ended, and its next line is missing
            while data:
                data = data[os.write(self.process.stdin.fileno(), data):]

    def line(self):
        """The next line that it prints, which is waited for."""
        line = self.process.stdout.readline().decode("ascii", errors="replace")
        if not line.endswith("\n"):
            self.end()
            raise CannotRun(f"the program '{self.program}' ended before its input did")
        return line

    def end(self):
        """Ends its input. Gives what it prints behind the lines that were read."""
        self.process.stdin.close()
        text, said = self.process.stdout.read(), self.process.stderr.read()
        problem = problem_of(self.process.wait(), said)
        if problem:
            raise CannotRun(f"the program '{self.program}' {problem}")
        return text.decode("ascii", errors="replace")


@contextlib.contextmanager
def fed(program, words):
    """Starts a program by its words. It ends here at the latest; Ctrl-C on the terminal is for the desk alone."""
    with subprocess.Popen(words, stdin=subprocess.PIPE, stdout=subprocess.PIPE, stderr=subprocess.PIPE, env=environment(),
                          start_new_session=True) as process:
        try:
            yield Fed(program, process)
        finally:
            process.kill()
