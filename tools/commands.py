"""How the tools run other commands."""
import pathlib
import shutil
import subprocess
import sys

TOP = pathlib.Path(__file__).resolve().parent.parent


class CannotRun(Exception):
    """Something that is needed is missing or failed."""


def need(command):
    """Sees that a command is there."""
    if shutil.which(command) is None:
        raise CannotRun(f"the command {command} is not on the PATH")


def attempt(words, folder=TOP):
    """Runs a command. Gives whether it ended well, and all that it said."""
    try:
        done = subprocess.run([str(word) for word in words], cwd=folder, stdin=subprocess.DEVNULL,
                              stdout=subprocess.PIPE, stderr=subprocess.STDOUT)
    except OSError as problem:
        return False, f"cannot run {words[0]}: {problem.strerror}\n"
    return done.returncode == 0, done.stdout.decode(errors="replace")


def quietly(words, folder=TOP):
    """Runs a building command, and shows what it said only if it fails."""
    well, said = attempt(words, folder)
    if not well:
        sys.stderr.write(said)
        raise CannotRun(f"'{' '.join(str(word) for word in words)}' failed")
