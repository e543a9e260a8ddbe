"""Has rt prove and build programs and the archive, and tells what is being proved and how far it is.

`rt run` of a program proves it over the work that rt keeps, builds it, and runs it once, here on an empty input; with nothing changed
since, it only runs it. `rt lib` does so for the archive of a static library. Both leave what they make in the crate's folder out/.

`rt ci` leaves the programs there too, which it has proved with all below them, but keeps nothing from which `rt run` could go on. So a
program is noted by the sums of its sources and of itself when it was proved, and is proved anew only where one of these has changed.
"""
import contextlib
import fcntl
import hashlib
import os
import queue
import re
import shutil
import signal
import subprocess
import threading
import time

from checks.crates import needed
from commands import TOP, CannotRun, attempt, need
from progress import Progress

ARCHIVE_CRATE = "exports_c"  # the static library
ARCHIVE = TOP / "target" / "staticlib" / "libexports.a"  # as it is handed on, whatever the crate is called
NOTES = TOP / "target" / "proved"  # a file for each program that was proved
PARTS = ("src", "specs", "proofs")
BEGUN = re.compile(r"rt: chose --jobs \d+ for (\w+)|(?:fn|struct|enum|impl|trait|const) (\w+)::")
PROVED = re.compile(r"logic=proved\b")
A_MOMENT = 1.0  # seconds; what is proved already takes less, and then nothing is told
A_WHILE = 15  # seconds in which something is told even where no line can be written over
LINES_SHOWN = 40  # of what rt said, where it failed


def binary(name):
    """The program of a crate, as rt builds it."""
    return TOP / "crates" / name / "out" / name


class Proving:
    """How far the runs of rt for some crates are."""

    def __init__(self, names):
        self.wanted = needed(TOP, names)
        self.begun = time.time()
        self.proved = set()
        self.now = ""  # the crate that rt proves
        self.said = []

    def hear(self, line):
        """Takes a line of rt's. Gives whether it tells that a crate was proved in this run."""
        self.said.append(line)
        match = BEGUN.match(line)
        if match:
            name = match.group(1) or match.group(2)
            if name in self.wanted and name != self.now:
                self.now = name
                self.proved |= set(needed(TOP, [name])) - {name}  # else rt would not have come to it
        if not PROVED.match(line) or not self.now:
            return False
        self.proved.add(self.now)
        self.now = ""
        return True

    def done(self, name):
        """Hears that a crate and all below it are proved, whether rt said so or had nothing to do."""
        self.proved |= set(needed(TOP, [name]))
        self.now = ""

    def told(self):
        """How far it is, in words."""
        words = f"{len(self.proved)} of {len(self.wanted)} crates proved, {time.time() - self.begun:.0f} s"
        return f"{words}; now {self.now}" if self.now else words


@contextlib.contextmanager
def in_turn(progress):
    """One run of rt at a time in this repository; another one is waited for. Gives the file by which they know: who has it open has the turn."""
    with open(TOP / "crates.txt", "rb") as file:
        try:
            fcntl.flock(file, fcntl.LOCK_EX | fcntl.LOCK_NB)
        except BlockingIOError:
            progress.say("another run is proving here; waiting for it")
            fcntl.flock(file, fcntl.LOCK_EX)
        yield file


@contextlib.contextmanager
def stopped_with_us(process):
    """Sees that a process and all that it started end where this one is told to end."""
    def stop(_signal, _frame):
        raise KeyboardInterrupt

    heard = [number for number in (signal.SIGTERM, signal.SIGHUP) if signal.getsignal(number) is not signal.SIG_IGN]
    handlers = {number: signal.signal(number, stop) for number in heard}
    try:
        yield
    except BaseException:
        with contextlib.suppress(ProcessLookupError):
            os.killpg(process.pid, signal.SIGTERM)
        raise
    finally:
        for number, handler in handlers.items():
            signal.signal(number, handler)


def lines_of(process):
    """The lines that a process prints as they come, and None whenever none has come for a while."""
    lines = queue.Queue()

    def hand_on():
        """Reads until the end, which is told by an empty line."""
        for line in process.stderr or process.stdout:
            lines.put(line)
        lines.put("")

    threading.Thread(target=hand_on, daemon=True).start()
    while True:
        try:
            line = lines.get(timeout=A_MOMENT)
        except queue.Empty:
            yield None
            continue
        if not line:
            return
        yield line


class Telling:
    """Tells how far it is, once that takes longer than a moment."""

    def __init__(self, progress, proving, names):
        self.progress, self.proving, self.names = progress, proving, names
        self.announced, self.told_at = False, time.monotonic()

    def follow(self, process):
        """Hears all that one run of rt says."""
        for line in lines_of(process):
            proved_now = line is not None and self.proving.hear(line.rstrip("\n"))
            waited = line is None and time.monotonic() - self.told_at > A_WHILE
            if not self.announced and (proved_now or waited or line is None and self.proving.now):
                self.announced = True
                self.progress.say(f"proving and building {' and '.join(self.names)}, which takes some minutes at first")
            if self.announced and (proved_now or waited or line is None and self.progress.rewrites):
                self.told_at = time.monotonic()
                self.progress.show(self.proving.told())


def have_rt(who, task, names, made):
    """Has rt do a task in the folder of each of some crates, by which files are made. who is the tool that asks for it."""
    need("rt")
    progress = Progress(who)
    with in_turn(progress) as turn, contextlib.closing(progress):
        proving = Proving(names)
        telling = Telling(progress, proving, names)
        for name in names:
            one_crate(telling, task, name, made(name), turn)
            proving.done(name)


def one_crate(telling, task, name, path, turn):
    """Has rt do a task in a crate's folder, by which a file is made. What a program itself prints there is not heard."""
    words, said = f"'rt {task}' in crates/{name}", telling.proving.said
    begun = len(said)
    spoken = {"stdout": subprocess.DEVNULL, "stderr": subprocess.PIPE} if task == "run" else {"stdout": subprocess.PIPE, "stderr": subprocess.STDOUT}
    with subprocess.Popen(["rt", task], cwd=TOP / "crates" / name, stdin=subprocess.DEVNULL, text=True, errors="replace",
                          start_new_session=True, pass_fds=(turn.fileno(),), **spoken) as process:
        with stopped_with_us(process):
            telling.follow(process)
    told = "\n".join(said[begun:][-LINES_SHOWN:]) or "nothing"
    ran = any(line.startswith(f"rt: running out/{name}") for line in said[begun:])  # so it is proved and built, however the run of it ended
    if process.returncode and not ran:
        raise CannotRun(f"{words} failed, saying:\n{told}")
    if not path.is_file():
        raise CannotRun(f"{words} ended well, but made no {path.relative_to(TOP)}. It said:\n{told}")


def rests_on(name):
    """The files of the repository that a program's proof rests on."""
    inside = (path for crate in needed(TOP, [name]) for part in PARTS for path in sorted((TOP / "crates" / crate / part).rglob("*")))
    return [path for path in (TOP / "crates.txt", TOP / "HANDLES", *inside) if path.is_file()]


def younger_than(name):
    """The first of these files that was changed after the program was built, or nothing."""
    built = binary(name).stat().st_mtime_ns
    return next((path for path in rests_on(name) if path.stat().st_mtime_ns > built), None)


def note_of(name):
    """The sums by which a program is noted: of all that its proof rests on, the toolchain's name with it, and of the program itself."""
    rests = hashlib.sha256(attempt(["rt", "version"])[1].encode())
    for path in rests_on(name):
        rests.update(f"{path.relative_to(TOP)} {hashlib.sha256(path.read_bytes()).hexdigest()}\n".encode())
    return f"{rests.hexdigest()} {hashlib.sha256(binary(name).read_bytes()).hexdigest()}\n"


def is_noted(name):
    """Whether a program stands as it was when it was proved, and so do its sources."""
    noted = NOTES / name
    return binary(name).is_file() and noted.is_file() and noted.read_text() == note_of(name)


def note(names):
    """Notes programs that have just been proved and built."""
    NOTES.mkdir(parents=True, exist_ok=True)
    for name in names:
        (NOTES / name).write_text(note_of(name))


def prove(who, names):
    """Proves and builds programs, with all that they stand on, where they are not noted."""
    need("rt")
    wanted = [name for name in names if not is_noted(name)]
    if wanted:
        have_rt(who, "run", wanted, binary)
        note(wanted)


def prove_libraries(who, names):
    """Proves and builds libraries for the crates above, with all that they stand on."""
    have_rt(who, "lib", names, lambda name: TOP / "crates" / name / "out" / "rlib" / "stamp")


def prove_archive(who):
    """Proves the calls for other languages, and builds the archive that C and Rust link."""
    made = TOP / "crates" / ARCHIVE_CRATE / "out" / f"lib{ARCHIVE_CRATE}.a"
    have_rt(who, "lib", [ARCHIVE_CRATE], lambda name: made)
    ARCHIVE.parent.mkdir(parents=True, exist_ok=True)
    shutil.copyfile(made, ARCHIVE)
