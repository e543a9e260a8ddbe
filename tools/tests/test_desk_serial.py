"""Records off a serial line, answered as they come."""
import contextlib
import os
import pathlib
import pty
import random
import select
import signal
import subprocess
import sys
import tempfile
import termios
import time
import tty
import unittest
from unittest import mock

import examples
from commands import TOP, CannotRun
from desk.batch import Batch
from desk.commands import COMMANDS
from desk.explaining import Explained, explain
from desk.files import read_batch
from desk.lines import BadInput
from desk.main import command_line, main
from desk.proved import fed
from desk.streaming import Plain, answered, stopped
from desk.streams import PIECE_BYTES, pieces_of, see_a_stream, stream
from desk.terminal import Paper
from desk.trials import edges
from records import records_of
from tests.desk_tree import CommandTest, HelpTest, desk_alone

TESTS = pathlib.Path(__file__).parent
STRIKE, LATCHED = b"\x04\0\0\0", "0400000200000000"
SECONDS = 20  # for a line that is to come; far more than it takes
A_MOMENT = 0.3  # for one that is not


def answer_to(one):
    """An answer of its own for each record, in the form of a listing's line."""
    return f"{one[0]:02x}00{one.hex()}0000"


def listing_of(data, answer=answer_to):
    """A listing with an answer for each whole record."""
    whole = [one for one in records_of(data) if len(one) == 4]
    return "".join(f"{answer(one)}\n" for one in whole) + f"end {3 if len(data) % 4 else 0}\n"


class StandsIn:
    """A program that answers records in step. It counts the bytes that it was given, and the lines that were taken."""

    program = "serial"

    def __init__(self, answer=answer_to, end=None):
        self.given, self.taken, self.answer, self.last = b"", 0, answer, end

    def give(self, data):
        """More bytes."""
        self.given += data

    def line(self):
        """The next line; there has to be one."""
        one = self.given[4 * self.taken:4 * self.taken + 4]
        assert len(one) == 4, "a line is waited for that never comes"
        self.taken += 1
        return f"{self.answer(one)}\n"

    def end(self):
        """The last line."""
        return self.last or f"end {3 if len(self.given) % 4 else 0}\n"


def shown_of(pieces, shown=None, program=None):
    """All that is shown of bytes in pieces."""
    return "".join(answered(program or StandsIn(), pieces, shown or Plain()))


def cut_anywhere(plan, data):
    """Bytes in pieces of any lengths."""
    while data:
        length = plan.choice((1, 1, 2, 3, 4, 5, 8, 30))
        yield data[:length]
        data = data[length:]


class Answered(unittest.TestCase):
    """Lines in step with records."""

    def setUp(self):
        told = mock.patch("desk.streaming.tell")
        self.told = told.start()
        self.addCleanup(told.stop)

    def test_the_listing_whatever_the_pieces(self):
        plan = random.Random(3)
        for length in (0, 1, 3, 4, 5, 7, 8, 41, 400, 403):
            data = bytes(plan.randrange(256) for _ in range(length))
            for pieces in ([data] if data else [], [bytes((byte,)) for byte in data], list(cut_anywhere(plan, data))):
                with self.subTest(f"{length} bytes in {len(pieces)} pieces"):
                    self.assertEqual(shown_of(pieces), listing_of(data))

    def test_each_line_comes_with_the_last_byte_of_its_record(self):
        came = []

        def pieces():
            """Sees before each byte that all whole records before it are shown."""
            for number in range(21):
                self.assertEqual(len(came), number // 4)
                yield b"\x04"

        for text in answered(StandsIn(), pieces(), Plain()):
            came.append(text)
        self.assertEqual([text.count("\n") for text in came], [1] * 6)

    def test_nothing_is_kept(self):
        for shown in (Plain(), Explained(Paper())):
            program = StandsIn(lambda one: LATCHED)
            for text in answered(program, 300 * [STRIKE + STRIKE[:1], STRIKE[1:]], shown):
                self.assertEqual(text.count("\n"), 1)
                self.assertEqual(shown.lines, [])
            self.assertEqual((shown.answered, program.taken), (600, 600))

    def test_what_is_left_over_is_told(self):
        for rest, told in ((b"", False), (b"\x09", True), (b"\x09\0", True), (b"\x09\0\0", True)):
            with self.subTest(rest):
                self.told.reset_mock()
                self.assertEqual(shown_of([STRIKE + rest]).splitlines()[1:], [f"end {3 if rest else 0}"])
                self.assertEqual(self.told.called, told)
                if told:
                    self.assertIn(f"the last bytes, {rest.hex(' ')}, are {len(rest)} of a record's 4", self.told.call_args.args[0])

    def test_that_nothing_came_is_told(self):
        self.assertEqual(shown_of([]), "end 0\n")
        self.assertIn("it has no record", self.told.call_args.args[0])

    def test_the_odd_line(self):
        self.assertEqual(shown_of([STRIKE], program=StandsIn(lambda one: "0600021001000000 odd")), "0600021001000000 odd\nend 0\n")

    def test_what_the_program_does_not_print(self):
        for line in ("", "end 0", "0400", 16 * "g", 16 * "A", 17 * "0", f"{LATCHED} even", f"{LATCHED} odd odd", f"{LATCHED}\r"):
            with self.subTest(line), self.assertRaisesRegex(CannotRun, "'serial' printed what it does not print"):
                shown_of([STRIKE], program=StandsIn(lambda one, line=line: line))
        for data, last in ((STRIKE, "end 3\n"), (STRIKE, "end 4\n"), (STRIKE, "end 0"), (STRIKE, "\n"), (STRIKE[1:], "end 0\n"),
                           (STRIKE, "end 0\nend 0\n"), (STRIKE, f"{LATCHED}\nend 0\n")):
            with self.subTest(last), self.assertRaisesRegex(CannotRun, "'serial' printed what it does not print"):
                shown_of([data], program=StandsIn(end=last))

    def test_a_port_that_fails_has_no_end(self):
        def pieces():
            """A record and a half, and no more."""
            yield STRIKE + b"\x09\0"
            raise CannotRun("the port: cannot be read any further")

        came = []
        with self.assertRaisesRegex(CannotRun, "the port"):
            for text in answered(StandsIn(), pieces(), Plain()):
                came.append(text)
        self.assertEqual(came, [f"{answer_to(STRIKE)}\n"])

    def test_somebody_stops_it(self):
        def pieces():
            """A record and a half, and then Ctrl-C."""
            yield STRIKE + b"\x09\0"
            raise KeyboardInterrupt

        with self.assertRaises(KeyboardInterrupt) as caught:
            list(answered(StandsIn(), pieces(), Plain()))
        self.assertEqual(str(caught.exception), "stopped; 1 record is answered, and 2 bytes of another one had come: 09 00")
        self.assertEqual(stopped(1000, b""), "stopped; 1,000 records are answered")
        self.assertIn("and 1 byte of another", stopped(0, b"\x09"))


class Words(unittest.TestCase):
    """The answers in words as they come."""

    def assertSame(self, data, listing):
        """The words are those of the explained listing of the same bytes, in whatever pieces they come, and nothing is told besides."""
        lines = iter(listing.splitlines())
        program = StandsIn(lambda one: next(lines))
        with mock.patch("desk.streaming.tell") as told:
            text = shown_of(cut_anywhere(random.Random(len(data)), data), Explained(Paper()), program)
        self.assertEqual(text, explain(Batch(data), listing, Paper()))
        told.assert_not_called()

    def test_the_words_of_explain_for_each_example(self):
        names = examples.example_names()
        self.assertGreater(len(names), 3)
        for name in names:
            with self.subTest(name):
                data = read_batch(str(examples.file_of(name, "batch"))).data
                self.assertSame(data, examples.file_of(name, "listing").read_text(encoding="ascii"))

    def test_the_words_of_explain_for_other_batches(self):
        plan = random.Random(5)
        for data in (b"", STRIKE[:3], STRIKE + b"\x09", edges()[:4000], bytes(plan.randrange(256) for _ in range(1001))):
            with self.subTest(len(data)):
                self.assertSame(data, listing_of(data, lambda one: f"{one[0]:02x}{plan.choice((0, 0, 1, 2, 5, 6, 7, 8)):02x}000100000000"))

    def test_what_to_do_is_said_at_the_first_refusal_only(self):
        lines = shown_of([3 * b"\x09\0\0\0"], Explained(Paper()), StandsIn(lambda one: "0905000000000000")).splitlines()
        self.assertEqual(["->" in line for line in lines], [False, True, False, False, False])


class Streams(unittest.TestCase):
    """Where the bytes come from."""

    def test_what_is_no_stream(self):
        with tempfile.TemporaryDirectory() as folder:
            for name, part in (("none", "none: there is no such file"), (".", "this is a folder"),
                               ("x.batch", "bytes FILE | ./vorstelpijp serial -"), ("x.HEX", "bytes are read here"),
                               ("x.calls", "bytes are read here")):
                path = os.path.join(folder, name)
                if name.startswith("x"):
                    pathlib.Path(path).write_bytes(b"")
                with self.subTest(name), self.assertRaises(BadInput) as caught:
                    see_a_stream(path)
                self.assertIn(part, str(caught.exception))
        self.assertIsNone(see_a_stream("-"))
        self.assertIsNone(see_a_stream(__file__))

    def test_a_port_that_one_may_not_read(self):
        with mock.patch("os.access", lambda path, mode: mode != os.R_OK), self.assertRaisesRegex(BadInput, "you may not read it.*dialout"):
            see_a_stream(__file__)

    def test_what_cannot_be_opened(self):
        with mock.patch("desk.streams.opening", side_effect=OSError(16, "Device or resource busy")):
            with self.assertRaisesRegex(BadInput, "^the port: cannot be opened: Device or resource busy$"), stream("the port"):
                self.fail("it is not open")

    def test_nothing_can_be_written_to_it(self):
        with tempfile.NamedTemporaryFile() as file, mock.patch("os.open", wraps=os.open) as opened:
            with stream(file.name) as pieces:
                self.assertEqual(list(pieces), [])
            flags = opened.call_args.args[1]
        self.assertEqual(flags & (os.O_WRONLY | os.O_RDWR | os.O_CREAT | os.O_TRUNC), 0)
        self.assertTrue(flags & os.O_NOCTTY)

    def test_pieces_are_what_is_there(self):
        read, written = os.pipe()
        with open(read, "rb", buffering=0) as file:
            pieces = pieces_of("a pipe", file)
            for data in (b"\x04", b"\0\0\0", bytes(PIECE_BYTES)):
                os.write(written, data)
                self.assertEqual(next(pieces), data)
            os.write(written, bytes(PIECE_BYTES + 1))
            self.assertEqual([len(next(pieces)), len(next(pieces))], [PIECE_BYTES, 1])
            os.close(written)
            self.assertEqual(list(pieces), [])

    def test_a_read_that_fails(self):
        with stream("/proc/self/mem") as pieces:
            with self.assertRaisesRegex(CannotRun, "^/proc/self/mem: cannot be read any further: Input/output error$"):
                next(pieces)


class Ports(unittest.TestCase):
    """Ports, for which terminals stand in."""

    def setUp(self):
        try:
            self.leader, terminal = pty.openpty()
        except OSError as problem:
            self.skipTest(f"there is no terminal to be had here: {problem}")
        self.addCleanup(os.close, self.leader)
        self.addCleanup(os.close, terminal)
        self.name = os.ttyname(terminal)
        self.terminal = terminal

    def told_of(self, name):
        """What is told where a port is opened, and the first piece that comes, which is a strike."""
        with mock.patch("desk.streams.tell") as told, stream(name) as pieces:
            os.write(self.leader, STRIKE)
            piece = next(pieces)
        return piece, [call.args[0] for call in told.call_args_list]

    def set_up(self, flag):
        """Sets the port up raw and without echo, but for one flag."""
        tty.setraw(self.terminal)
        modes = termios.tcgetattr(self.terminal)
        modes[3] |= flag
        termios.tcsetattr(self.terminal, termios.TCSANOW, modes)

    def test_a_port_that_is_set_up(self):
        self.set_up(0)
        self.assertEqual(self.told_of(self.name), (STRIKE, [f"reading {self.name} as the bytes come; Ctrl-C ends it"]))

    def test_a_port_that_sends_back(self):
        self.set_up(termios.ECHO)
        piece, told = self.told_of(self.name)
        self.assertEqual((piece, len(told)), (STRIKE, 2))
        self.assertIn("sent back", told[0])

    def test_a_port_that_is_not_raw(self):
        self.set_up(termios.ICANON)
        with mock.patch("desk.streams.tell") as told, stream(self.name):
            pass
        self.assertEqual(told.call_count, 2)
        self.assertIn("not set up raw and without echo", told.call_args_list[0].args[0])
        self.assertIn(f"'stty -F {self.name} 9600 raw -echo'", told.call_args_list[0].args[0])

    def test_a_file_is_no_port(self):
        with mock.patch("desk.streams.tell") as told, stream(__file__):
            pass
        told.assert_not_called()


class ProgramTest(unittest.TestCase):
    """A base: the desk as it runs, with a program that stands in for the proved one."""

    def start(self, *words, fault="none", listing=None, closed=None, **more):
        """Starts it, with one of its standard streams closed where that is said. It hears of Ctrl-C, as a job in the background may not."""
        def prepare():
            """What is done before it begins."""
            signal.signal(signal.SIGINT, signal.SIG_DFL)
            if closed is not None:
                os.close(closed)

        stand_in = [sys.executable, "-I", "-S", str(TESTS / "line_stand_in.py"), fault, *([str(listing)] if listing else [])]
        process = subprocess.Popen([sys.executable, TESTS / "desk_stand_in.py", "serial", *words], stderr=subprocess.PIPE,
                                   env={**os.environ, "STAND_IN": "\n".join(stand_in)}, preexec_fn=prepare,
                                   **{"stdin": subprocess.PIPE, "stdout": subprocess.PIPE, **more})
        self.addCleanup(self.clear, process)
        return process

    def clear(self, process):
        """Ends it in any case."""
        process.kill()
        for stream_of_it in (process.stdin, process.stdout, process.stderr):
            if stream_of_it:
                with contextlib.suppress(BrokenPipeError):
                    stream_of_it.close()
        process.wait()

    def give(self, process, data):
        """Gives it bytes, and leaves its input open."""
        process.stdin.write(data)
        process.stdin.flush()

    def line(self, process, seconds=SECONDS):
        """The line that it prints within some time, or nothing."""
        there, _, _ = select.select([process.stdout], [], [], seconds)
        return process.stdout.readline().decode() if there else ""

    def ended(self, process, given=b""):
        """How it ends: its status, and what it says on both outputs from here on."""
        printed, said = process.communicate(given, timeout=SECONDS)
        return process.returncode, (printed or b"").decode(), said.decode()

    def run_on(self, given, *words, **more):
        """A whole run."""
        return self.ended(self.start(*words, **more), given)


class Prompt(ProgramTest):
    """Lines come while the input is open, and it ends as it should."""

    def test_a_line_comes_before_the_input_ends(self):
        process = self.start("-")
        for _ in range(3):
            self.give(process, STRIKE[:3])
            self.assertEqual(self.line(process, A_MOMENT), "")
            self.give(process, STRIKE[3:])
            self.assertRegex(self.line(process), r"^0400[0-9a-f]{12}\n$")
        self.assertEqual(self.ended(process), (0, "end 0\n", ""))

    def test_words_come_before_the_input_ends(self):
        process = self.start("--explain", "-")
        self.give(process, STRIKE + b"\x09")
        self.assertRegex(self.line(process), r"^04000000  0400[0-9a-f]{12}  strike: latch \$[0-9A-F]{4}, ")
        status, printed, said = self.ended(process)
        self.assertEqual((status, said), (0, ""))
        self.assertTrue(printed.startswith("          end 3             the last bytes, 09, are 1 of a record's 4"), printed)

    def test_bytes_that_are_left_over(self):
        status, printed, said = self.run_on(STRIKE + b"\x09\0\0", "-")
        self.assertEqual((status, printed.splitlines()[1:]), (0, ["end 3"]))
        self.assertIn("vorstelpijp: the last bytes, 09 00 00, are 3 of a record's 4", said)

    def test_a_named_pipe(self):
        with tempfile.TemporaryDirectory() as folder:
            path = os.path.join(folder, "line")
            os.mkfifo(path)
            process = self.start(path)
            with open(path, "wb", buffering=0) as pipe:
                pipe.write(STRIKE)
                self.assertRegex(self.line(process), "^0400")
            self.assertEqual(self.ended(process), (0, "end 0\n", ""))

    def test_more_than_a_batch_holds(self):
        data = 2000 * STRIKE
        with tempfile.TemporaryDirectory() as folder:
            path, listing = os.path.join(folder, "x.bin"), os.path.join(folder, "x.listing")
            pathlib.Path(path).write_bytes(data)
            pathlib.Path(listing).write_text(listing_of(data), encoding="ascii")
            self.assertEqual(self.run_on(b"", path, listing=listing), (0, listing_of(data), ""))

    def test_an_example_in_words(self):
        data = read_batch(str(examples.file_of("refused", "batch"))).data
        listing = examples.file_of("refused", "listing")
        text = explain(Batch(data), listing.read_text(encoding="ascii"), Paper())
        self.assertEqual(self.run_on(data, "--explain", "-", listing=listing), (0, text, ""))


class Programs(unittest.TestCase):
    """A program that is given its input part by part."""

    def test_a_program_that_has_ended(self):
        for words, part in ((["true"], "ended before its input did"), (["false"], "ended with status 1, saying: nothing"),
                            (["sh", "-c", "echo no >&2"], "said on standard error: no")):
            with self.subTest(words), fed("serial", words) as program:
                program.process.wait(SECONDS)
                program.give(STRIKE)
                with self.assertRaisesRegex(CannotRun, f"^the program 'serial' .*{part}$"):
                    program.line()

    def test_a_line_that_is_not_whole(self):
        with fed("serial", ["printf", "one\\ntwo"]) as program:
            self.assertEqual(program.line(), "one\n")
            with self.assertRaisesRegex(CannotRun, "ended before its input did"):
                program.line()

    def test_all_bytes_go_through(self):
        data = 8 * "0123456789abcde\n"
        with fed("serial", ["cat"]) as program:
            for at in range(0, len(data), 5):
                program.give(data[at:at + 5].encode())
            self.assertEqual([program.line() for _ in range(3)], 3 * ["0123456789abcde\n"])
            self.assertEqual(program.end(), 5 * "0123456789abcde\n")


class Ends(ProgramTest):
    """How it ends where it does not come to the end of its input."""

    def begun(self, **more):
        """A run that has answered a record. Gives it, and the number of the program's process."""
        process = self.start("-", **more)
        self.give(process, STRIKE + b"\x09")
        return process, int(self.line(process)[4:], 16)

    def assertGone(self, number):
        """There is no such process any more."""
        with self.assertRaises(ProcessLookupError):
            os.kill(number, 0)

    def test_somebody_stops_it(self):
        process, number = self.begun()
        os.kill(number, 0)
        process.send_signal(signal.SIGINT)
        self.assertEqual(self.ended(process),
                         (130, "", "vorstelpijp: stopped; 1 record is answered, and 1 byte of another one had come: 09\n"))
        self.assertGone(number)

    def test_somebody_stops_what_would_not_end(self):
        process, number = self.begun(fault="never ends")
        process.stdin.close()
        process.stdin = None
        time.sleep(A_MOMENT)  # by then the desk waits for the program
        process.send_signal(signal.SIGINT)
        self.assertEqual(self.ended(process, None)[0], 130)
        self.assertGone(number)

    def test_somebody_stops_all_on_the_terminal(self):
        process, number = self.begun(start_new_session=True)
        self.assertNotEqual(os.getpgid(number), process.pid)
        os.killpg(process.pid, signal.SIGINT)
        status, printed, said = self.ended(process)
        self.assertEqual((status, printed), (130, ""))
        self.assertIn("stopped; 1 record is answered", said)
        self.assertGone(number)

    def test_an_output_that_nobody_reads_any_more(self):
        process, number = self.begun()
        process.stdout.close()
        self.give(process, b"\0\0\0")
        self.assertEqual(process.wait(SECONDS), 1)
        self.assertEqual(process.stderr.read(), b"")
        self.assertGone(number)

    def test_an_output_that_is_full(self):
        with open("/dev/full", "wb") as full:
            status, _printed, said = self.run_on(STRIKE, "-", stdout=full)
        self.assertEqual(status, 1)
        self.assertEqual(said, "vorstelpijp: standard output cannot be written: No space left on device\n")

    def test_an_output_that_is_closed(self):
        with tempfile.TemporaryDirectory() as folder:
            path = os.path.join(folder, "x.bin")
            pathlib.Path(path).write_bytes(STRIKE)
            for words in (("-",), (path,)):
                with self.subTest(words):
                    status, _printed, said = self.run_on(STRIKE, *words, closed=1)
                    self.assertEqual(status, 1)
                    self.assertIn("standard output cannot be written", said)

    def test_an_input_that_is_closed(self):
        process = self.start("-", closed=0)
        process.stdin.close()
        process.stdin = None
        self.assertEqual(self.ended(process, None), (2, "", "vorstelpijp: standard input: cannot be opened: Bad file descriptor\n"))

    def test_a_read_that_fails(self):
        status, printed, said = self.run_on(b"", "/proc/self/mem")
        self.assertEqual((status, printed), (1, ""))
        self.assertIn("/proc/self/mem: cannot be read any further", said)

    def test_an_output_that_is_the_input(self):
        with tempfile.TemporaryDirectory() as folder:
            path = os.path.join(folder, "x.bin")
            pathlib.Path(path).write_bytes(STRIKE)
            with open(path, "ab") as file:
                status, _printed, said = self.run_on(b"", path, stdout=file)
            self.assertEqual((status, pathlib.Path(path).read_bytes()), (2, STRIKE))
            self.assertIn("this very file", said)

    def test_a_program_that_goes_wrong(self):
        for fault, part in (("ends early", "the program 'serial' ended before its input did"),
                            ("prints a word", "printed what it does not print"),
                            ("fails", "'serial' ended well, but said on standard error: standard output cannot be written"),
                            ("ends with 4", "printed what it does not print"), ("has a status", "'serial' ended with status 1")):
            with self.subTest(fault):
                status, printed, said = self.run_on(STRIKE, "-", fault=fault)
                self.assertEqual(status, 1)
                self.assertNotIn("end", printed)
                self.assertTrue(said.startswith("vorstelpijp: ") and part in said and said.count("\n") == 1, said)


class Command(CommandTest, HelpTest):
    """The command itself."""

    COMMAND = "serial"

    def test_a_wrong_input_is_told_before_anything_is_run(self):
        for name, part in (("/nowhere/at/all", "there is no such file"), (str(TOP), "this is a folder")):
            status, printed, said = desk_alone("serial", name)
            self.assertEqual((status, printed), (2, ""))
            self.assertIn(part, said)

    def test_the_program_is_needed(self):
        self.assertEqual(desk_alone("serial", "-", given=STRIKE), (1, "", "vorstelpijp: the command rt is not on the PATH\n"))

    def test_the_port_is_opened_when_the_program_is_there(self):
        steps = mock.Mock()
        steps.stream.return_value, steps.fed.return_value = contextlib.nullcontext(iter([])), contextlib.nullcontext(StandsIn())
        with mock.patch.multiple("desk.commands.serial", words_for=steps.words_for, stream=steps.stream, fed=steps.fed), \
                mock.patch("desk.main.put_out"), mock.patch("desk.streaming.tell"):
            self.assertEqual(main(["serial", __file__]), 0)
        self.assertEqual(steps.mock_calls, [mock.call.words_for("serial"), mock.call.stream(__file__),
                                            mock.call.fed("serial", steps.words_for.return_value)])

    def test_the_help_is_one_page(self):
        self.assertOnePage("serial", "stty -F /dev/ttyUSB0 9600 raw -echo", "no limit of 4,096 bytes", "Nothing is written to the",
                           "--explain", "Ctrl-C", "Exit status: 0")

    def test_it_is_one_of_the_commands(self):
        self.assertEqual([command.name for command in COMMANDS].count("serial"), 1)
        self.assertIn("./vorstelpijp serial --help ", command_line().format_help())

    def test_a_wrong_command_line(self):
        for words in ((), ("a", "b"), ("--as", "hex", "a"), ("--plain", "a")):
            self.assertNoCommandLine(*words)


if __name__ == "__main__":
    unittest.main()
