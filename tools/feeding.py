"""Hands a batch over to a program piece by piece, through a pipe, while it runs: how a program is tried that reads bytes as they come."""
import array
import contextlib
import fcntl
import subprocess
import termios
import threading
import time

from batches.pieces import plan_for
from kit import environment
from programs import SECONDS_FOR_ONE, Outcome, outcome_of, problem_of
from records import RECORD_BYTES

SECONDS_FOR_A_LINE = 10  # from the last byte of its record; far more than an emulator on a busy machine needs
A_GLANCE = 0.0005  # seconds between two looks at what is not read yet
A_PAUSE = 0.005


class Hearing(threading.Thread):
    """Hears all that comes out of a stream, as it comes."""

    def __init__(self, stream):
        super().__init__(daemon=True)
        self.stream, self.heard, self.ended = stream, b"", False
        self.news = threading.Condition()
        self.start()

    def run(self):
        """Hears until the end."""
        while not self.ended:
            part = self.stream.read1()
            with self.news:
                self.heard += part
                self.ended = not part
                self.news.notify()

    def waits_in_vain(self, lines, seconds):
        """Waits for so many lines or for the end, for no longer than that. Gives whether neither has come."""
        with self.news:
            return not self.news.wait_for(lambda: self.ended or self.heard.count(b"\n") >= lines, seconds)


@contextlib.contextmanager
def time_limit(process, seconds):
    """Stops a process that has not ended after so many seconds. Gives an event that tells of it."""
    stopped = threading.Event()

    def stop():
        """Every wait for the process comes to an end with it."""
        stopped.set()
        process.kill()

    timer = threading.Timer(seconds, stop)
    timer.start()
    try:
        yield stopped
    finally:
        timer.cancel()


def unread(pipe):
    """How many bytes are in a pipe that nobody has read yet."""
    count = array.array("i", [0])
    fcntl.ioctl(pipe, termios.FIONREAD, count)
    return count[0]


def hand_over(process, printed, plan):
    """Hands all pieces over, each once the one before it is read, so that no read sees two, and once the lines of all records that are
    whole by then are printed. Gives what the process fails to print, or None."""
    handed = 0
    for number, piece in enumerate(plan.pieces):
        if number in plan.pauses:
            time.sleep(A_PAUSE)
        process.stdin.write(piece)
        process.stdin.flush()
        while unread(process.stdin) and process.poll() is None:
            time.sleep(A_GLANCE)
        handed += len(piece)
        lines = handed // RECORD_BYTES
        if printed.waits_in_vain(lines, SECONDS_FOR_A_LINE):
            return f"got {handed} bytes, and printed fewer than {lines} lines within {SECONDS_FOR_A_LINE} seconds, without getting more"
    return None


def outcome_fed(command, plan, seconds=SECONDS_FOR_ONE):
    """What a program prints for a batch that is handed over piece by piece, and what went wrong with it, if anything did."""
    with subprocess.Popen(command, stdin=subprocess.PIPE, stdout=subprocess.PIPE, stderr=subprocess.PIPE, env=environment()) as process:
        printed, said, failure = Hearing(process.stdout), Hearing(process.stderr), None
        with time_limit(process, seconds) as stopped:
            with contextlib.suppress(BrokenPipeError):  # of a process that stops reading
                failure = hand_over(process, printed, plan)
            if failure:
                process.kill()
            with contextlib.suppress(BrokenPipeError):
                process.stdin.close()
            printed.join()
            said.join()
            status = process.wait()
    if stopped.is_set():
        return Outcome("", f"did not end within {seconds} seconds")
    return Outcome(printed.heard.decode("ascii", errors="replace"), failure or problem_of(status, said.heard))


def outcome_on(command, batch, reader, seconds=SECONDS_FOR_ONE):
    """What a program prints for a batch, which comes piece by piece where it is read so. reader tells the proved from the second one."""
    if batch.program.reads_as_it_comes:
        return outcome_fed(command, plan_for(batch, reader), seconds)
    return outcome_of(command, batch.input, seconds)
