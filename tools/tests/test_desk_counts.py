"""Settings from words, hex and bytes, and what is counted of them as a table."""
import os
import random
import unittest
from unittest import mock

import examples
from commands import TOP, CannotRun
from desk import counting, refusals
from desk.commands import COMMANDS
from desk.counting import COLUMNS, remarks_of, rows_of, table
from desk.files import read_settings
from desk.lines import BadInput
from desk.main import command_line
from desk.sheets import SHAPES, Setting, bytes_of, from_bytes, from_hex, from_words
from desk.terminal import Paper
from records import are_settings
from tests.desk_tree import CommandTest, FilesTest, HelpTest, desk_alone
from tests.examples_tree import ExamplesTest

# Sheets, and of each setting there the name and the registers that are not 0.
SAID = {
    "": [],
    "# only a comment\n\n ; ;\n": [],
    "setting": [("", {})],
    "R0 = 63": [("", {0: 63})],
    "r15=$f4;R0=0": [("", {15: 0xF4})],
    "R0 = 255\nR1 = $FF\nR2 = 0\nR3 = $0\nR4 = 007\nR5 = $0001f": [("", {0: 255, 1: 255, 4: 7, 5: 31})],
    "R00 = 1; R07 = 2": [("", {0: 1, 7: 2})],
    "setting A\nR4 = 200": [("A", {4: 200})],
    "SETTING a b\n\tSetting\t c ": [("a b", {}), ("c", {})],
    "setting one\nR1 = 1\nsetting two; R1 = 2; setting ; R1 = 3": [("one", {1: 1}), ("two", {1: 2}), ("", {1: 3})],
    "R1 = 1\nsetting two\nR1 = 2": [("", {1: 1}), ("two", {1: 2})],
    "# first\n;\nsetting one": [("one", {})],
    "setting 40 x 25 # columns and rows\r\nR1 = 40 # shown\rR6 = 25": [("40 x 25", {1: 40, 6: 25})],
    "setting R8 = $30, 100%": [("R8 = $30, 100%", {})],
    "setting setting": [("setting", {})],
    "R1 = 1 # ; R1 = 2": [("", {1: 1})],
    "R10 = $66; R11 = 7; R12 = $04; R13 = 1; R14 = 5": [("", {10: 0x66, 11: 7, 12: 4, 13: 1, 14: 5})],
}
# Lines that cannot be read, and a part of what is said of each.
UNCLEAR = {
    "clock 3": "there is no word 'clock' here; expected a register, as 'R0 = 63', or 'setting' and a name",
    "settings A": "there is no word 'settings' here",
    "setting: A": "there is no word 'setting:' here",
    "setting=A": "there is no word 'setting=A' here",
    "63": "there is no word '63' here",
    "= 63": "expected a register",
    "bytes 01": "expected a register",
    "R": "expected a register",
    "R0": "expected '=' behind it, as in 'R0 = 63'",
    "R7 63": "expected '=' behind it, as in 'R7 = 63'",
    "R0 : 63": "expected '=' behind it",
    "R0 =": "something is missing; expected it as in 'R0 = 63'",
    "R0 = 1 2": "'2' is too much; expected it as in 'R0 = 63', with ';' before another one and '#' before a comment",
    "R0 = 63, R1 = 40": "'R1' is too much",
    "R0 == 1": "'1' is too much",
    "R16 = 1": "'R16' is none of the registers R0 to R15",
    "R31 = 0": "R0 to R15",
    "R99 = 0": "R0 to R15",
    "R100 = 0": "R0 to R15",
    "R0 = 256": "256 is too large; a register's value goes from 0 to 255, or $0 to $FF in hex",
    "R0 = $100": "$0 to $FF",
    "R0 = -1": "'-1' is not a number",
    "R0 = 0x3f": "'0x3f' is not a number",
    "R0 = 3F": "'3F' is not a number",
    "R0 = $": "'$' is not a number",
    "R0 = R1": "'R1' is not a number",
    "R0 = " + 5000 * "9": "too large",
    "R4 = 31; R4 = 31": "R4 is set twice in this setting, at first to 31; expected one value for it, or 'setting' before the next setting",
    "setting A; R12 = 4; r12 = 5": "R12 is set twice in this setting, at first to $04",
    "R1 = 1; R01 = 2": "R1 is set twice",
    "R1 = 0; R1 = 2": "R1 is set twice in this setting, at first to 0",
    "R1 = 1; clock 3": "no word 'clock'",
    5000 * "x": "there is no word 'xxxxx",
}
A = from_words("a", "setting A\nR0 = 3; R1 = 2; R4 = 1; R5 = 1; R6 = 2; R9 = 1")
A_COUNTED = "8 8 1 0 20 32 3\ntotal 8 8 1 0 20 32 3\n"
# The widths of registers as the scope document has them.
WIDTHS = {8: (0, 1, 2, 3, 8, 13, 15), 7: (4, 6, 7, 10), 6: (12, 14), 5: (5, 9, 11)}


def setting(name, values):
    """A setting from the registers that are not 0."""
    return Setting(name, bytes(values.get(register, 0) for register in range(16)))


def sheet(text):
    """The settings of a sheet in words."""
    return from_words("some.settings", text)


def text_for(*rows):
    """What the program prints where these are the rows."""
    totals = [sum(column) for column in zip(*rows)][:-1] + [max(row[-1] for row in rows)]
    return "".join(f"{' '.join(map(str, row))}\n" for row in rows) + f"total {' '.join(map(str, totals))}\n"


def tabled(settings, *rows, width=None):
    """The lines of a table."""
    return table(settings, text_for(*rows), Paper(width)).splitlines()


class Words(unittest.TestCase):
    """Words to settings."""

    def test_sheets(self):
        for text, due in SAID.items():
            with self.subTest(text):
                self.assertEqual(sheet(text), [setting(name, values) for name, values in due])

    def test_what_the_help_shows_is_read(self):
        self.assertEqual(sheet("\n".join(shape for shape, _meaning in SHAPES)), [setting("40 x 25", {0: 63})])

    def test_what_is_no_statement(self):
        for text, part in UNCLEAR.items():
            with self.subTest(text[:40]):
                with self.assertRaises(BadInput) as caught:
                    sheet(f"# a heading\n{text}\n")
                message, = caught.exception.messages
                self.assertTrue(message.startswith("some.settings, line 2: "), message)
                self.assertIn(part, message)
                self.assertLess(len(message), 200)

    def test_every_wrong_line_is_told(self):
        with self.assertRaises(BadInput) as caught:
            sheet("setting A\nR16 = 1\nR0 = 1\n\nR0 = 256\nR0 = 2\nsetting B\nR0 = 2\nR0 =\n")
        self.assertEqual([message.split(":")[0] for message in caught.exception.messages],
                         ["some.settings, line 2", "some.settings, line 5", "some.settings, line 6", "some.settings, line 9"])

    def test_a_misspelt_word_makes_nothing_else_wrong(self):
        with self.assertRaises(BadInput) as caught:
            sheet("setting A\nR0 = 1\nseting B\nR0 = 1\nsetting C\nR0 = 1\n")
        self.assertEqual([message.split(":")[0] for message in caught.exception.messages], ["some.settings, line 3"])

    def test_not_more_wrong_lines_than_one_can_read(self):
        for count, more in ((20, []), (21, ["some.settings: 1 more lines are wrong"]), (500, ["some.settings: 480 more lines are wrong"])):
            with self.subTest(count), self.assertRaises(BadInput) as caught:
                sheet("R16 = 1\n" * count)
            self.assertEqual(list(caught.exception.messages[20:]), more)

    def test_what_is_written_is_read(self):
        plan = random.Random(16)
        for _ in range(200):
            settings = some_settings(plan)
            text = written(plan, settings)
            with self.subTest(text):
                self.assertEqual(sheet(text), settings)
                self.assertEqual(from_bytes(bytes_of(settings)), [one._replace(name="") for one in settings])


def some_settings(plan):
    """A few settings, often with a name and often with registers that are 0."""
    names = ("", "A", "40 x 25", "R0 = 1", "late, $30")
    return [setting(plan.choice(names), {register: plan.randrange(256) for register in plan.sample(range(16), plan.randrange(17))})
            for _ in range(plan.randrange(6))]


def written(plan, settings):
    """Settings in words, as some people write: registers in any order, zeros left out or not, in decimal or in hex, with comments."""
    lines = []
    for one in settings:
        statements = [f"R{register} = {plan.choice((str(value), f'${value:X}', f'${value:02x}'))}"
                      for register, value in enumerate(one.data) if value or plan.randrange(2)]
        plan.shuffle(statements)
        if lines or one.name or not statements or plan.randrange(2):
            statements.insert(0, f"setting {one.name}")
        while statements:
            count = plan.randrange(1, 5)
            lines.append("; ".join(statements[:count]) + plan.choice(("", " # R0 = 1; setting", ";")))
            del statements[:count]
    return plan.choice(("\n", "\r\n", "\n\n", "\n# setting\n")).join(lines)


class HexAndBytes(unittest.TestCase):
    """Settings that are not in words."""

    def test_bytes(self):
        self.assertEqual(from_bytes(b""), [])
        self.assertEqual(from_bytes(bytes(range(33))), [Setting("", bytes(range(16))), Setting("", bytes(range(16, 32))), Setting("", b"\x20")])

    def test_hex(self):
        self.assertEqual(from_hex("some.hex", f"{'0f' * 15} # a part\n0F{'00' * 16}\n01"),
                         [Setting("", 16 * b"\x0f"), Setting("", bytes(16)), Setting("", b"\x01")])

    def test_what_is_no_hex(self):
        for text, part in (("00\n0g", "line 2: 'g' in '0g'"), ("012", "line 1: '012' has an odd number"), ("setting", "not a hex digit")):
            with self.subTest(text), self.assertRaises(BadInput) as caught:
                from_hex("some.hex", text)
            self.assertIn(part, str(caught.exception))


class Table(unittest.TestCase):
    """How the numbers are laid out."""

    def test_one_setting_without_a_name(self):
        self.assertEqual(tabled(sheet("R0 = 3"), (8, 8, 1, 0, 20, 32, 3)), [
            "setting  picture  enable  cursor  HSYNC  VSYNC  MA changes  largest",
            "1              8       8       1      0     20          32        3",
            "total          8       8       1      0     20          32        3"])

    def test_names_and_large_numbers(self):
        rows = ((1000, 999, 2, 12345678, 0, 946634752, 14), (1, 2, 3, 4, 5, 6, 7))
        self.assertEqual(tabled(sheet("R0 = 3; setting a longer name"), *rows), [
            "setting           picture  enable  cursor       HSYNC  VSYNC   MA changes  largest",
            "1                   1,000     999       2  12,345,678      0  946,634,752       14",
            "2  a longer name        1       2       3           4      5            6        7",
            "total               1,001   1,001       5  12,345,682      5  946,634,758       14"])

    def test_numbers_of_settings_are_aligned(self):
        lines = tabled([Setting("x", bytes(16))] * 10, *[(0,) * 7] * 10)
        self.assertEqual([line[:5] for line in lines], ["setti", *[f" {number}  x" for number in range(1, 10)], "10  x", "total"])

    def test_every_line_has_the_same_length(self):
        for count in (1, 9, 10, 64):
            settings = [Setting("n" * (number % 30), bytes(16)) for number in range(count)]
            lines = tabled(settings, *[(10 ** (number % 20),) * 7 for number in range(count)])
            self.assertEqual(len(lines), count + 2)
            self.assertEqual(len(set(map(len, lines))), 1)

    def test_a_narrow_terminal(self):
        settings = [Setting("short", bytes(16)), Setting("a name that goes on and on", bytes(16))]
        rows = [(1,) * 7] * 2
        wide, narrow = tabled(settings, *rows), tabled(settings, *rows, width=80)
        self.assertEqual({len(line) for line in narrow}, {80})
        self.assertGreater(len(wide[0]), 80)
        self.assertEqual([line[:20].rstrip() for line in narrow], ["setting", "1  short", "2  a name that goe..", "total"])
        self.assertEqual([line[20:] for line in narrow], [line[-60:] for line in wide])
        self.assertEqual(tabled(settings, *rows, width=len(wide[0])), wide)
        self.assertEqual({len(line) for line in tabled(settings, *rows, width=60)}, {70})

    def test_nothing_of_a_name_moves_the_terminal(self):
        lines = tabled([Setting("\033[2J", bytes(16))], (0,) * 7)
        self.assertIn("1  \\x1b[2J  ", lines[1])

    def test_what_the_program_does_not_print(self):
        good = A_COUNTED
        for text in ("", "refused 10\n", "refused 11\n", good[:-1], good + "\n", good.replace("total ", ""), good.split("\n")[1] + "\n",
                     good.replace("20", "-20"), good.replace("20", "020"), good.replace("20", "2,000"), good.replace(" 20", "  20"),
                     good.replace(" 20", ""), good.replace("20", "20 20"), "8 8 1 0 20 32 3\n" + good, good.replace("total 8", "total 9"),
                     text_for((8, 8, 1, 0, 20, 32, 3), (8, 8, 1, 0, 20, 32, 3)),
                     good.replace("\n", "\r\n"), good.replace("total", "Total"), good.replace("8 8", "8\t8")):
            with self.subTest(text), self.assertRaisesRegex(CannotRun, "'counts' printed what it does not print of these settings"):
                table(A, text, Paper())

    def test_rows(self):
        self.assertEqual(rows_of(A_COUNTED, A), [[8, 8, 1, 0, 20, 32, 3]] * 2)
        self.assertEqual(rows_of("refused 10\n", []), [])


class Remarks(unittest.TestCase):
    """What a register does not keep."""

    def test_remarks_stand_under_the_table(self):
        lines = tabled(sheet("setting A; setting B; R4 = 200; R12 = $FF"), *[(0,) * 7] * 2)
        self.assertEqual(lines[4:], ["", "R4 = 200 in setting 2: the register keeps 72", "R12 = $FF in setting 2: the register keeps $3F"])

    def test_each_register_keeps_its_bits(self):
        seen = []
        for width, registers in WIDTHS.items():
            for register in registers:
                seen.append(register)
                for value in range(256):
                    told = remarks_of([setting("", {register: value})])
                    self.assertEqual(bool(told), value >= 2 ** width, f"R{register} = {value}")
        self.assertEqual(sorted(seen), list(range(16)))

    def test_what_is_kept(self):
        for told, held in (("R5 = 255", "31"), ("R6 = 128", "0"), ("R7 = 129", "1"), ("R9 = 32", "0"), ("R10 = $FF", "$7F"), ("R11 = 33", "1"),
                           ("R12 = $C4", "$04"), ("R14 = $85", "$05")):
            with self.subTest(told):
                self.assertEqual(remarks_of(sheet(told)), [f"{told} in setting 1: the register keeps {held}"])


class Refused(unittest.TestCase):
    """What is said of bytes that are not 1 to 64 whole settings."""

    def test_which_are_refused(self):
        for length in range(16 * 66):
            self.assertEqual(not refusals.not_settings(length), length % 16 == 0 and 16 <= length <= 1024, length)
            self.assertEqual(not refusals.not_settings(length), are_settings(bytes(length)), length)

    def test_reasons(self):
        for length, *parts in ((0, "there is no setting. Begin one"),
                               (1, "the last setting is cut: it has 1 of a setting's 16 bytes, behind 0 whole ones."),
                               (17, "it has 1 of a setting's 16 bytes, behind 1 whole one."), (47, "it has 15 of", "behind 2 whole ones."),
                               (1040, "there are 65 settings; at most 64 are counted at once. Cut the file"),
                               (16 * 1000 + 3, "it has 3 of", "behind 1,000 whole ones.", "there are 1,000 settings")):
            with self.subTest(length):
                said = refusals.not_settings(length)
                self.assertEqual([part for part in parts if part not in said], [])
        self.assertNotIn("there are", refusals.not_settings(1025))
        self.assertNotIn("is cut", refusals.not_settings(1040))

    def test_the_text(self):
        text = table(from_bytes(bytes(19)), "refused 10\n", Paper())
        self.assertTrue(text.startswith("refused 10: the last setting is cut: it has 3 of a setting's 16 bytes, behind 1 whole one."), text)
        self.assertEqual(text.count("\n"), 1)
        self.assertTrue(all(len(line) <= 60 for line in table([], "refused 10\n", Paper(60)).splitlines()))

    def test_what_the_program_prints_of_no_settings(self):
        for given in (b"", bytes(15), bytes(1040)):
            for text in ("", A_COUNTED, "refused 10", "refused 11\n", "refused 10\n\n"):
                with self.subTest(f"{len(given)} bytes, {text}"), self.assertRaises(CannotRun):
                    table(from_bytes(given), text, Paper())


class Files(FilesTest):
    """Which file is read as what."""

    def test_by_its_ending_or_as_was_said(self):
        numbers, named = bytes(range(0x30, 0x40)), setting("", {0: 0x30})
        for name, content, said, due in (("x.settings", b"R0 = $30", None, [named]), ("x.SETTINGS", b"setting\nR0=48", None, [named]),
                                         ("x.hex", b"30" + 30 * b"0", None, [named]), ("x.bin", numbers, None, [Setting("", numbers)]),
                                         ("x.txt", b"R0 = $30", "words", [named]), ("x.settings", b"30" + 30 * b"0", "hex", [named]),
                                         ("x.hex", numbers, "bytes", [Setting("", numbers)])):
            with self.subTest(f"{name} as {said}"):
                self.assertEqual(read_settings(self.path(name, content), said), due)

    def test_what_cannot_be_told(self):
        for name in ("x.batch", "x.txt", "settings"):
            with self.subTest(name), self.assertRaisesRegex(BadInput, r"a name that ends in \.settings \(words\), \.hex \(hex\) or \.bin"):
                read_settings(self.path(name, b""))
        with self.assertRaisesRegex(BadInput, "there is no such file"):
            read_settings(os.path.join(self.folder, "none.settings"))
        with self.assertRaisesRegex(BadInput, "standard input: cannot tell"):
            read_settings("-")

    def test_an_input_that_never_ends(self):
        with mock.patch("desk.files.MOST_STREAM", 1000), self.assertRaisesRegex(BadInput, "of settings at most 1,024 are taken"):
            read_settings("/dev/zero", "bytes")


class Command(CommandTest):
    """The command with a program that stands in for the proved one."""

    COMMAND = "counts"
    ANSWER = A_COUNTED

    def test_a_table(self):
        path = self.path("a.settings", b"setting A\nR0 = 3; R1 = 2; R4 = 129; R5 = 1; R6 = 2; R9 = 1\n")
        status, printed, said, asked = self.call(path)
        self.assertEqual((status, said), (0, ""))
        self.assertEqual(asked, [("counts", bytes((3, 2, 0, 0, 129, 1, 2, 0, 0, 1, 0, 0, 0, 0, 0, 0)))])
        self.assertEqual(printed.splitlines()[1:], ["1  A           8       8       1      0     20          32        3",
                                                    "total          8       8       1      0     20          32        3", "",
                                                    "R4 = 129 in setting 1: the register keeps 1"])

    def test_plain(self):
        path = self.path("a.bin", bytes(15) + b"\xff")
        self.assertEqual(self.call("--plain", path), (0, A_COUNTED, "", [("counts", bytes(15) + b"\xff")]))
        self.assertEqual(self.call(self.path("a.settings", b"setting A; R4 = 255"), "--plain")[:3], (0, A_COUNTED, ""))

    def test_a_refusal_is_an_answer(self):
        for name, content, part in (("none.settings", b"# none", "there is no setting."), ("cut.hex", b"00", "1 of a setting's 16 bytes"),
                                    ("many.bin", bytes(1040), "there are 65 settings")):
            with self.subTest(name):
                path = self.path(name, content)
                status, printed, said, asked = self.call("--plain", path, answer="refused 10\n")
                self.assertEqual((status, printed, len(asked)), (0, "refused 10\n", 1))
                self.assertTrue(said.startswith("vorstelpijp: ") and part in said, said)
                status, printed, said, _asked = self.call(path, answer="refused 10\n")
                self.assertEqual((status, said), (0, ""))
                self.assertTrue(printed.startswith("refused 10: ") and part in printed, printed)

    def test_a_program_that_prints_something_else(self):
        path = self.path("a.bin", bytes(16))
        for words in ((path,), ("--plain", path)):
            with self.subTest(words):
                status, printed, said, _asked = self.call(*words, answer="refused 10\n")
                self.assertEqual((status, printed), (1, ""))
                self.assertIn("printed what it does not print", said)

    def test_a_program_that_cannot_be_run(self):
        status, printed, said, _asked = self.call(self.path("a.bin", bytes(16)), answer=CannotRun("no such luck"))
        self.assertEqual((status, printed, said), (1, "", "vorstelpijp: no such luck\n"))

    def test_wrong_words_are_told_and_nothing_is_run(self):
        path = self.path("a.settings", b"R0 = 1\nR0 = 2\nclock\n" + 30 * b"R16 = 1\n")
        for words in ((path,), ("--plain", path), ("--as", "words", path)):
            with self.subTest(words):
                status, printed, said, asked = self.call(*words)
                self.assertEqual((status, printed, asked), (2, "", []))
                lines = said.splitlines()
                self.assertEqual(len(lines), 21)
                self.assertEqual([line.split(": ")[1] for line in lines[:3]], [f"{path}, line {number}" for number in (2, 3, 4)])
                self.assertIn("12 more lines are wrong", lines[20])

    def test_standard_input(self):
        with mock.patch("desk.files.read_bytes", return_value=b"R15 = 1") as read:
            self.assertEqual(self.call("--as", "words", "--plain", "-"), (0, A_COUNTED, "", [("counts", bytes(15) + b"\x01")]))
        self.assertEqual(read.call_args.args[1:], ("standard input", 0))

    def test_a_wrong_command_line(self):
        for words in ((), ("a.settings", "b.settings"), ("--as", "word", "a"), ("--plan", "a")):
            self.assertNoCommandLine(*words)


class Program(HelpTest):
    """The command as a user calls it, without the toolchain."""

    def test_the_program_is_needed(self):
        self.assertEqual(desk_alone("counts", "--as", "words", "-", given=b"R0 = 1\n"),
                         (1, "", "vorstelpijp: the command rt is not on the PATH\n"))

    def test_a_wrong_input_is_told_before_anything_is_run(self):
        status, printed, said = desk_alone("counts", "--as", "words", "-", given=b"R0 = 1\nR16 = 1\n")
        self.assertEqual((status, printed), (2, ""))
        self.assertIn("standard input, line 2: 'R16' is none of the registers R0 to R15", said)

    def test_the_help_is_one_page(self):
        self.assertOnePage("counts", *(f"  {shape} " for shape, _meaning in SHAPES), *(f"  {head} " for head, _meaning in COLUMNS),
                           "--plain", "--as", "Exit status: 0")

    def test_it_is_one_of_the_commands(self):
        self.assertEqual([command.name for command in COMMANDS].count("counts"), 1)
        self.assertIn("counts", command_line().format_help())


class Examples(ExamplesTest):
    """A folder of two examples, one of them of settings."""

    SOURCES = tuple(examples.MADE_FROM)

    FILES = {f"examples/{name}": "" for name in ("one.batch", *(f"one.{ending}" for ending in examples.MADE), "two.settings", "two.counts")}

    def test_whole_examples(self):
        self.write()
        self.assertEqual(examples.example_names("settings"), ["two"])
        self.assertEqual(examples.example_names("batch"), ["one"])
        self.assertEqual(examples.example_names(), ["one"])

    def test_counts_that_are_missing(self):
        del self.files["examples/two.counts"]
        self.assertNames("examples/two.counts is missing")

    def test_settings_that_are_missing(self):
        del self.files["examples/two.settings"]
        self.assertNames("examples/two.counts belongs to no example")

    def test_a_listing_of_settings(self):
        self.files["examples/two.listing"] = ""
        self.assertNames("examples/two.listing belongs to no example")

    def test_the_examples_that_are_there(self):
        with mock.patch.object(examples, "EXAMPLES", TOP / "examples"):
            names = examples.example_names("settings")
            self.assertIn("boards", names)
            for name in names:
                settings = read_settings(str(examples.file_of(name, "settings")))
                lines = examples.file_of(name, "counts").read_text(encoding="utf-8").splitlines()
                self.assertEqual([line[:len(label)] for line, label in zip(lines[1:], counting.labels_of(settings))], counting.labels_of(settings))
                self.assertEqual(lines[len(settings) + 2:], ["", *remarks_of(settings)] if remarks_of(settings) else [])


if __name__ == "__main__":
    unittest.main()
