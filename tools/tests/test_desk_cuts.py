"""Calls on a serial line from words, hex and bytes, and what each gave in words."""
import random
import re
import unittest
from unittest import mock

import examples
from commands import TOP, CannotRun
from compared.calls import calls_of, in_call
from compared.contents import GOOD_CALLS
from desk.batch import Batch, Remark
from desk.calling import worded
from desk.calls import SHAPES, from_hex, from_words, read_line, why_none
from desk.commands import COMMANDS
from desk.cutting import called
from desk.explaining import explain
from desk.files import read_calls
from desk.lines import BadInput
from desk.main import command_line
from desk.terminal import BOLD, Paper
from tests.desk_tree import CommandTest, FilesTest, HelpTest, desk_alone
from tests.examples_tree import ExamplesTest

# Lines, and their calls as the program reads them.
SAID = {
    "": "",
    "   ": "",
    "close": "02",
    " CLOSE ": "02",
    "cut 0": "01 0000 0000",
    "cut 16": "01 0010 0000",
    "cut $10 04": "01 0010 0001 04",
    "cut 8192 0A": "01 2000 0001 0a",
    "cut $2000 0a": "01 2000 0001 0a",
    "Cut 8 04000000 09": "01 0008 0005 0400000009",
    "cut\t8 04 00 00 00 09": "01 0008 0005 0400000009",
    "cut 8 0400000009": "01 0008 0005 0400000009",
    "cut 007 ffFF": "01 0007 0002 ffff",
    "cut 4 " + 256 * "01": "01 0004 0100" + 256 * "01",
}
# Lines that cannot be read, and a part of what is said of each.
UNCLEAR = {
    "cut": "the room is missing; expected it as in 'cut 16 04000000 09'",
    "cut 8193": "8193 is too large; the room of a cut goes from 0 to 8192, or $0 to $2000 in hex",
    "cut $2001 04": "$2001 is too large",
    "cut 04000000": "04000000 is too large",
    "cut -1": "'-1' is not a number; the room of a cut is one from 0 to 8192",
    "cut 8, 04": "'8,' is not a number",
    "cut 0x8 04": "'0x8' is not a number",
    "cut all 04": "'all' is not a number",
    "cut 8 040": "'040' has an odd number of hex digits; expected two hex digits to a byte, and '#' before a comment",
    "cut 8 0g": "'g' in '0g' is not a hex digit",
    "cut 8 $04": "'$' in '$04' is not a hex digit",
    "cut 8 strike": "'s' in 'strike' is not a hex digit",
    "cut 8 04; close": "';' in '04;' is not a hex digit",
    "cut 8 " + 4092 * "00": "this cut has 4,092 bytes; of calls at most 4,096 bytes are taken, which leaves 4,091 for a cut",
    "cut 8 " + 70000 * "00": "this cut has 70,000 bytes",
    "close 1": "'1' is too much; expected 'close' alone, and '#' before a comment",
    "close;": "there is no word 'close;' here",
    "strike": "there is no word 'strike' here; expected 'cut', a room and bytes in hex, as in 'cut 16 04000000 09', or 'close'",
    "cuts 8 04": "there is no word 'cuts' here",
    "01 0008 0000": "there is no word '01' here",
    5000 * "x": "there is no word 'xxxxx",
}
# Bytes that are no list of calls, and why.
NO_CALLS = {
    "": "the list is empty: it has no call",
    "00": "byte 1 is 00; a call begins with 01, which is a cut, or with 02, which closes the line.",
    "02 02 03": "byte 3 is 03; ",
    "01 0008 0001 04 ff": "byte 7 is ff; ",
    "01": "the call at byte 1 is cut off: 1 of the 5 bytes are there that come before a cut.",
    "02 01 0008 00": "the call at byte 2 is cut off: 4 of the 5 bytes are there",
    "01 0008 0001": "the call at byte 1 is cut off: 0 of the 1 byte are there that its cut is said to have.",
    "02 01 0008 ffff 04": "the call at byte 2 is cut off: 1 of the 65,535 bytes are there",
}
# A list of calls with remarks, what the program prints of it, and what is made of that.
WORDS = """\
# Setting up.
cut 0 040000             # three bytes of a strike

cut 7 00
cut 20 00 02000000 0900  # the rest, and more
cut 12 0000 02000000 02000000
# Closing
close                    # now
cut 3 01
close
"""
PRINTED = """\
0000030000000000
0400000000000000
a5a5a5a5a5a5a5
0000070002000000
0400000200000000
0200014000000000
a5a5a5a5
0400020001000000
0906000000000000
a5a5a5a5
0000000000000000
0c00000000000000
a5a5a5
0c00000000000000
"""
MADE = """\
# Setting up.
cut 0 040000  # three bytes of a strike
    ended with 0: no whole record is left; 3 of 3 bytes taken; 04 00 00 held for the next call
    0 of 0 output bytes stayed as they were

cut 7 00
    ended with 4: the next answer has no room; 0 of 1 byte taken; 04 00 00 held for the next call
    7 of 7 output bytes stayed as they were
    call again with the rest, with 8 bytes of room at least: 00
cut 20 00 02000000 0900  # the rest, and more
    ended with 0: no whole record is left; 7 of 7 bytes taken; 09 00 held for the next call
    04000000  0400000200000000  strike: latch $0002, outside the picture
    02000000  0200014000000000  status: $40, L (a strike not read yet)
    4 of 20 output bytes stayed as they were
cut 12 0000 02000000 02000000
    ended with 4: the next answer has no room; 2 of 10 bytes taken; nothing held
    09000000  0906000000000000  locate: refused 6, the strike was outside the picture
                                -> The latch is no position, [..]
    4 of 12 output bytes stayed as they were
    call again with the rest: 02000000 02000000
# Closing
close  # now
    ended with 0: the line is closed, and no byte was held
cut 3 01
    ended with 12: the line was closed before, and nothing changes; 0 of 1 byte taken
    3 of 3 output bytes stayed as they were
close
    ended with 12: the line was closed before, and nothing changes
"""


def calls(text):
    """The calls of a file in words."""
    return from_words("some.calls", text)


def text_of(batch, printed, paper=Paper()):
    """The words for what was printed of calls."""
    return worded(batch, called(batch.data, printed), paper)


def cut_advice(text):
    """A text without most of what is said to do about a refusal."""
    return "\n".join(line.partition(",")[0] + ", [..]" if "-> " in line else line for line in text.split("\n"))


class Words(unittest.TestCase):
    """Words to calls."""

    def test_lines(self):
        for text, data in SAID.items():
            with self.subTest(text[:40]):
                self.assertEqual(read_line(text), bytes.fromhex(data))

    def test_what_the_help_shows_is_read(self):
        data = calls("\n".join(shape for shape, _meaning in SHAPES)).data
        self.assertEqual([(call.room, call.cut.hex()) for call in calls_of(data)], [(16, "0400000009"), (16, ""), (0, "")])

    def test_what_is_no_call(self):
        for text, part in UNCLEAR.items():
            with self.subTest(text[:40]):
                with self.assertRaises(BadInput) as caught:
                    calls(f"# a heading\n{text} # and a comment\n")
                message, = caught.exception.messages
                self.assertTrue(message.startswith("some.calls, line 2: "), message)
                self.assertIn(part, message)
                self.assertLess(len(message), 200)

    def test_every_wrong_line_is_told(self):
        with self.assertRaises(BadInput) as caught:
            calls("cut\nclose\nclse\n\ncut 8 0\n" + 30 * "x\n")
        self.assertEqual([message.split(":")[0] for message in caught.exception.messages[:3]],
                         ["some.calls, line 1", "some.calls, line 3", "some.calls, line 5"])
        self.assertEqual(caught.exception.messages[20:], ("some.calls: 13 more lines are wrong",))

    def test_comments_stay_with_their_calls(self):
        batch = calls("# one\r\ncut 8 04 # two\r\n\r\nclose# three")
        self.assertEqual(batch, Batch(bytes.fromhex("010008000104 02"), (
            Remark(0, "one", False), Remark(6, "two", True), Remark(6, None, False), Remark(7, "three", True))))

    def test_what_is_written_is_read(self):
        plan = random.Random(8)
        for _ in range(100):
            lines, data = [], b""
            for _ in range(plan.randrange(9)):
                room, cut = plan.randrange(8193), bytes(plan.randrange(256) for _ in range(plan.randrange(9)))
                written = f"cut {plan.choice((str(room), f'${room:x}'))} {plan.choice((cut.hex(), cut.hex(' ')))}"
                line, given = plan.choice((("close", b"\2"), (written, in_call(room, cut))))
                lines.append(line)
                data += given
            with self.subTest(lines):
                self.assertEqual(calls("\n".join(lines)).data, data)


class Lists(unittest.TestCase):
    """Bytes that are a list of calls, and bytes that are none."""

    def test_why_there_is_none(self):
        for given, why in NO_CALLS.items():
            with self.subTest(given):
                self.assertIn(why, why_none(bytes.fromhex(given)))

    def test_too_many(self):
        self.assertEqual(why_none(4096 * b"\2"), "")
        self.assertIn("the calls have 4,097 bytes; at most 4,096 are taken, 5 and its own bytes for each cut and one for closing.",
                      why_none(4097 * b"\2"))

    def test_there_is_a_reason_exactly_where_there_is_no_list(self):
        plan, seen = random.Random(9), set()
        for _ in range(2000):
            data = bytearray(GOOD_CALLS[:plan.randrange(1, len(GOOD_CALLS) + 1)])
            for _ in range(plan.randrange(2)):
                data[plan.randrange(len(data))] = plan.randrange(4)
            seen.add(calls_of(bytes(data)) is None)
            self.assertEqual(bool(why_none(bytes(data))), calls_of(bytes(data)) is None, data.hex())
        self.assertEqual(seen, {False, True})

    def test_hex(self):
        batch = from_hex("some.hex", "# one\n01 0008 0002 04 # a part\n00\n02 # two\n")
        self.assertEqual(batch.data, bytes.fromhex("01 0008 0002 0400 02"))
        with self.assertRaisesRegex(BadInput, "some.hex, line 1: 'c' in 'close'|some.hex, line 1: 'l' in 'close'"):
            from_hex("some.hex", "close\n")


class Worded(unittest.TestCase):
    """What calls gave, in words."""

    def test_the_whole_text(self):
        self.assertEqual(cut_advice(text_of(calls(WORDS), PRINTED)), MADE)

    def test_bytes_have_no_remarks(self):
        text = text_of(Batch(calls(WORDS).data), PRINTED)
        self.assertNotIn("#", text)
        self.assertEqual(text.count("\ncut "), 4)

    def test_remarks_of_hex(self):
        batch = from_hex("some.hex", "# one\n01 0003 0002 04 # a part\n00 # and more\n\n02 # two\n# end\n")
        lines = text_of(batch, "0000020000000000\na5a5a5\n0300000000000000\n").splitlines()
        self.assertEqual(lines[:2], ["# one", "cut 3 0400  # a part; and more"])
        self.assertEqual(lines[4:6] + lines[7:], ["", "close  # two", "# end"])
        self.assertEqual(lines[6], "    ended with 3: the line is closed inside a record; 04 00 stays in it, and nothing reads that again")

    def test_no_call(self):
        for given, why in NO_CALLS.items():
            text = text_of(Batch(bytes.fromhex(given)), "no call\n" if given else "")
            self.assertTrue(text.startswith(f"no call: {why}" if given else why), text)
            self.assertEqual(text.count("\n"), 1)
        self.assertTrue(all(len(line) <= 60 for line in text_of(Batch(b"\0"), "no call\n", Paper(60)).splitlines()))

    def test_a_room_above_the_most(self):
        batch, output = Batch(in_call(65535, b"\x04")), 1024 * "a5a5a5a5a5a5a5a5\n"
        lines = text_of(batch, f"0000010000000000\n{output}").splitlines()
        self.assertEqual((lines[0], lines[2]), ("cut 65535 04", "    8,192 of 8,192 output bytes stayed as they were"))

    def test_a_long_cut_is_shown_in_part(self):
        for length, more in ((64, ""), (65, " .. (65 bytes)"), (4000, " .. (4,000 bytes)")):
            batch, shown = Batch(in_call(0, (1000 * b"\x04\0\0\0")[:length])), 16 * " 04000000" + more
            with self.subTest(length):
                lines = text_of(batch, "0400000000000000\n").splitlines()
                self.assertEqual(lines[0], f"cut 0{shown}")
                self.assertEqual(lines[3], f"    call again with the rest, with 8 bytes of room at least:{shown}")

    def test_bytes_are_grouped_by_the_records_of_the_line(self):
        for held, shown in ((1, "cut 0 020304 05060708 09"), (2, "cut 0 0203 04050607 0809"), (3, "cut 0 02 03040506 070809")):
            batch = Batch(in_call(0, bytes(range(held))) + in_call(0, bytes(range(2, 10))))
            with self.subTest(held):
                lines = text_of(batch, f"00{held:04x}0000000000\n0400000000000000\n").splitlines()
                self.assertEqual(lines[3], shown)
                self.assertTrue(lines[6].endswith(shown[6:]), lines)

    def test_words_that_tell_of_what_came_before(self):
        batch = calls("cut 40 05000000 01000000 010001ff\ncut 16 04000000 09000000\n")
        printed = ("00000c0003000000\n0500000000000000\n0100000000000000\n0100000000000000\na5a5a5a5a5a5a5a5\na5a5a5a5a5a5a5a5\n"
                   "0000080002000000\n0400000301000000\n0900000100000000\n")
        lines = text_of(batch, printed).splitlines()
        self.assertIn("R0 = 255 (256 characters in a line)", lines[4])
        self.assertIn("locate: row 0, column 1 (not certain)", lines[9])
        self.assertTrue(lines[10].startswith(32 * " " + "-> Registers were written"))

    def test_what_is_refused_in_each_cut_is_explained_once(self):
        text = text_of(calls("cut 8 09000000\ncut 8 09000000\n"), 2 * "0000040001000000\n0905000000000000\n")
        self.assertEqual((text.count("refused 5"), text.count("-> Put a strike")), (2, 1))

    def test_nothing_of_a_remark_moves_the_terminal(self):
        text = text_of(Batch(b"\2", (Remark(0, "\033[2J", False), Remark(1, "\033[2J", True))), "0000000000000000\n")
        self.assertEqual(text.count("# \\x1b[2J"), 2)

    def test_a_narrow_terminal(self):
        wide, narrow = text_of(calls(WORDS), PRINTED), text_of(calls(WORDS), PRINTED, Paper(70, True))
        plain = narrow.replace(BOLD, "").replace("\033[0m", "")
        self.assertTrue(all(len(line) <= 70 for line in plain.splitlines()), plain)
        self.assertEqual(plain.split(), wide.split())
        heavy = [line for line in narrow.splitlines() if BOLD in line and "ended" in line]
        self.assertEqual(["ended with 0" in line for line in heavy], 4 * [False])


class Printed(unittest.TestCase):
    """What the program does not print of calls."""

    def test_each_call_and_nothing_else(self):
        lines = PRINTED.splitlines(keepends=True)
        wrong = ["", "no call\n", PRINTED[:-1], PRINTED + "\n", PRINTED + lines[-1]]
        for at, one in enumerate(lines):
            for line in ("", "x" + one[1:], one[2:], "a5" + one, one.replace("\n", " odd\n")):
                wrong.append("".join((*lines[:at], line, *lines[at + 1:])))
        for text in wrong:
            with self.subTest(text), self.assertRaisesRegex(CannotRun, "'cuts' printed what it does not print of these calls"):
                called(calls(WORDS).data, text)

    def test_numbers_that_cannot_be(self):
        latched, untouched = "0400000200000000\n", "a5a5a5a5a5a5a5a5\n"
        for words, printed in (("cut 8 04000000", f"0000030001000000\n{latched}"), ("cut 8 04000000", f"0000040000000000\n{untouched}"),
                               ("cut 8 04", f"0000010001000000\n{latched}"), ("cut 8 04", f"0000020000000000\n{untouched}"),
                               ("cut 8 04", "0000010000000000\na5a5a5a5a5a5a500\n"), ("cut 8 04", f"0000010000000001\n{untouched}"),
                               ("cut 8 04", f"0300010000000000\n{untouched}"), ("cut 0 04", "0500010000000000\n"),
                               ("close", "0400000000000000\n"), ("close", "0000010000000000\n"), ("close", f"0000000001000000\n{latched}"),
                               ("cut 0 04\ncut 8 00", f"0000010000000000\n0000010001000000\n{latched}")):
            with self.subTest(f"{words}: {printed}"), self.assertRaises(CannotRun):
                called(calls(words).data, printed)

    def test_calls_where_there_are_none(self):
        for data, printed in ((b"", "no call\n"), (b"", "0000000000000000\n"), (b"\0", ""), (b"\0", "no call"),
                              (b"\0", "0000000000000000\n"), (4097 * b"\2", 4097 * "0c00000000000000\n"), ((1 << 22) * b"\2", "")):
            with self.subTest(printed[:40]), self.assertRaises(CannotRun):
                called(data, printed)

    def test_a_very_long_list(self):
        self.assertEqual(called((1 << 22) * b"\2", "no call\n"), [])


class Files(FilesTest):
    """Which file is read as what."""

    def test_by_its_ending_or_as_was_said(self):
        for name, content, said in (("x.calls", b"close # 02", None), ("x.CALLS", b"CLOSE", None), ("x.hex", b"02 # close", None),
                                    ("x.bin", b"\2", None), ("x.txt", b"close", "words"), ("x.calls", b"02", "hex"),
                                    ("x.hex", b"\2", "bytes")):
            with self.subTest(f"{name} as {said}"):
                self.assertEqual(read_calls(self.path(name, content), said).data, b"\2")

    def test_what_cannot_be_told(self):
        for name in ("x.batch", "x.settings", "calls"):
            with self.subTest(name), self.assertRaisesRegex(BadInput, r"a name that ends in \.calls \(words\), \.hex \(hex\) or \.bin"):
                read_calls(self.path(name, b""))
        with self.assertRaisesRegex(BadInput, "standard input: cannot tell"):
            read_calls("-")

    def test_an_input_that_never_ends(self):
        with mock.patch("desk.files.MOST_STREAM", 1000), self.assertRaisesRegex(BadInput, "of calls at most 4,096 are taken"):
            read_calls("/dev/zero", "bytes")


class Command(CommandTest):
    """The command with a program that stands in for the proved one."""

    COMMAND = "cuts"
    ANSWER = PRINTED

    def test_in_words(self):
        status, printed, said, asked = self.call(self.path("a.calls", WORDS.encode()))
        self.assertEqual((status, cut_advice(printed), said), (0, MADE, ""))
        self.assertEqual(asked, [("cuts", calls(WORDS).data)])

    def test_plain(self):
        data = calls(WORDS).data
        self.assertEqual(self.call("--plain", self.path("a.calls", WORDS.encode())), (0, PRINTED, "", [("cuts", data)]))
        self.assertEqual(self.call(self.path("a.bin", data), "--plain"), (0, PRINTED, "", [("cuts", data)]))
        path = self.path("a.txt", data.hex(" ").encode())
        self.assertEqual(self.call("--as", "hex", path, "--plain"), (0, PRINTED, "", [("cuts", data)]))

    def test_no_call_is_an_answer(self):
        for name, content, answer, part in (("none.calls", b"# none", "", "it has no call"),
                                            ("cut.hex", b"01 00", "no call\n", "2 of the 5 bytes"),
                                            ("many.calls", 4097 * b"close\n", "no call\n", "the calls have 4,097 bytes"),
                                            ("any.bin", b"\x07", "no call\n", "byte 1 is 07")):
            with self.subTest(name):
                path = self.path(name, content)
                status, printed, said, asked = self.call("--plain", path, answer=answer)
                self.assertEqual((status, printed, len(asked)), (0, answer, 1))
                self.assertTrue(said.startswith("vorstelpijp: ") and part in said, said)
                status, printed, said, _asked = self.call(path, answer=answer)
                self.assertEqual((status, said), (0, ""))
                self.assertTrue(printed.startswith("no call: " if answer else "the list") and part in printed, printed)

    def test_a_program_that_prints_something_else(self):
        path = self.path("a.calls", b"close")
        for words in ((path,), ("--plain", path)):
            for answer in ("", "no call\n", "0400000000000000\n"):
                with self.subTest(f"{words} {answer}"):
                    status, printed, said, _asked = self.call(*words, answer=answer)
                    self.assertEqual((status, printed), (1, ""))
                    self.assertIn("'cuts' printed what it does not print", said)

    def test_a_program_that_cannot_be_run(self):
        self.assertEqual(self.call(self.path("a.bin", b"\2"), answer=CannotRun("no such luck"))[:3], (1, "", "vorstelpijp: no such luck\n"))

    def test_wrong_words_are_told_and_nothing_is_run(self):
        path = self.path("a.calls", b"cut 8 04\ncut\nclose\ncut 9000 04\nbytes 04\n")
        for words in ((path,), ("--plain", path), ("--as", "words", path)):
            with self.subTest(words):
                status, printed, said, asked = self.call(*words)
                self.assertEqual((status, printed, asked), (2, "", []))
                self.assertEqual([line.split(": ")[1] for line in said.splitlines()], [f"{path}, line {number}" for number in (2, 4, 5)])

    def test_a_wrong_command_line(self):
        for words in ((), ("a.calls", "b.calls"), ("--as", "word", "a"), ("--explain", "a")):
            self.assertNoCommandLine(*words)


class Program(HelpTest):
    """The command as a user calls it, without the toolchain."""

    def test_the_program_is_needed(self):
        self.assertEqual(desk_alone("cuts", "--as", "words", "-", given=b"close\n"),
                         (1, "", "vorstelpijp: the command rt is not on the PATH\n"))

    def test_a_wrong_input_is_told_before_anything_is_run(self):
        status, printed, said = desk_alone("cuts", "--as", "words", "-", given=b"close\nopen\n")
        self.assertEqual((status, printed), (2, ""))
        self.assertIn("standard input, line 2: there is no word 'open' here", said)

    def test_the_help_is_one_page(self):
        self.assertOnePage("cuts", *(f"  {shape} " for shape, _meaning in SHAPES), "  0   ", "  3   ", "  4   ", "  12  ", "--plain",
                           "--as", "8,192", "4,096", "Exit status: 0")

    def test_it_is_one_of_the_commands(self):
        self.assertEqual([command.name for command in COMMANDS].count("cuts"), 1)
        self.assertIn("./vorstelpijp cuts examples/halves.calls ", command_line().format_help())
        self.assertTrue((TOP / "examples/halves.calls").is_file())


class Examples(ExamplesTest):
    """A folder of two examples, one of them of calls."""

    SOURCES = tuple(examples.MADE_FROM)
    FILES = {f"examples/{name}": "" for name in (*(f"one.{ending}" for ending in ("batch", *examples.MADE)), "two.calls", "two.cuts",
                                                 "two.explained")}

    def test_whole_examples(self):
        self.write()
        self.assertEqual((examples.example_names("calls"), examples.example_names("batch")), (["two"], ["one"]))

    def test_cuts_that_are_missing(self):
        del self.files["examples/two.cuts"]
        self.assertNames("examples/two.cuts is missing")

    def test_an_explanation_that_is_missing(self):
        del self.files["examples/two.explained"]
        self.assertNames("examples/two.explained is missing")

    def test_a_listing_of_calls(self):
        self.files["examples/two.listing"] = ""
        self.assertNames("examples/two.listing belongs to no example")


class Halves(unittest.TestCase):
    """The example of calls that is there."""

    def setUp(self):
        self.batch = read_calls(str(examples.file_of("halves", "calls")))
        self.printed = examples.file_of("halves", "cuts").read_text(encoding="ascii")
        self.made = called(self.batch.data, self.printed)

    def test_its_words(self):
        self.assertIn("halves", examples.example_names("calls"))
        examples.held("halves", "explained", text_of(self.batch, self.printed))

    def test_it_has_every_ending_and_an_empty_cut(self):
        self.assertEqual({(made.closes, made.ending) for made in self.made}, {(False, 0), (False, 4), (False, 12), (True, 3), (True, 12)})
        self.assertTrue(any(not made.closes and not made.call.cut for made in self.made))
        self.assertTrue(any(made.ending == 4 and made.held for made in self.made))
        self.assertTrue(any(made.ending == 4 and made.answers for made in self.made))

    def test_what_had_no_room_is_handed_over_again(self):
        for made, after in zip(self.made, self.made[1:]):
            if made.ending == 4:
                self.assertEqual((after.call.cut, after.ending), (made.call.cut[made.taken:], 0))

    def test_its_answers_are_those_of_one_replay(self):
        joined = b"".join(made.call.cut[:made.taken] for made in self.made)
        listing = "".join(f"{answer.hex()}\n" for made in self.made for answer in made.answers) + "end 3\n"
        lines = explain(Batch(joined), listing, Paper()).splitlines()[:-1]
        shown = [line[4:] for line in text_of(self.batch, self.printed).splitlines() if re.match(r"    [0-9a-f]{8}  | +-> ", line)]
        self.assertEqual(shown, lines)


if __name__ == "__main__":
    unittest.main()
