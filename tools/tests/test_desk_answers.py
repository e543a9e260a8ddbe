"""Answers in words, and the explained listing."""
import unittest

from commands import CannotRun
from desk import refusals
from desk.answers import answer_words
from desk.batch import Batch, Remark
from desk.explaining import explain
from desk.reading import read_line
from desk.settings import meaning
from desk.terminal import BOLD, Paper

# A record, its answer, and what is said of it.
ANSWERED = (
    ("status", "0200010000000000", "$00, neither L nor V"),
    ("status", "0200014000000000", "$40, L (a strike not read yet)"),
    ("status", "0200016000000000", "$60, L (a strike not read yet), V (the rows shown are over)"),
    ("read", "0200014000000000", "$40"),
    ("read", "0200000000000000", "not driven, cannot be read back"),
    ("clock 1", "0300000100130000", "MA $0001, RA 0, picture, display enable, VSYNC"),
    ("clock 1", "03003fff1f0c0000", "MA $3FFF, RA 31, outside the picture, cursor, HSYNC"),
    ("clock 1", "0300000000000000", "MA $0000, RA 0, outside the picture"),
    ("strike", "0400000301000000", "latch $0003, in the picture"),
    ("strike", "0400123400000000", "latch $1234, outside the picture"),
    ("bus read $A000", "0600021000000000", "select 2 (ROM 1), 16 crystal ticks (slow)"),
    ("bus read $A000", "0600000803000040", "select 0 (RAM), 8 crystal ticks (fast), bank 0, row $00, column $40, barred pair"),
    ("bus write $1234", "0600071001013408", "select 7 (RAM write), 16 crystal ticks (slow), bank 1, row $34, column $08"),
    ("set TY", "0600071004000000", "select 7 (control bit), 16 crystal ticks (slow)"),
    ("bus read $FF60", "0600071000000000", "select 7 (no device), 16 crystal ticks (slow)"),
    ("fetch 1", "0700040100011001", "display address $0401, bank 0, row $01, column $10, with RAM access"),
    ("fetch 1", "0700040200021000", "display address $0402, bank 0, row $02, column $10, without RAM access"),
    ("levels HS 0 DA0 0", "0800010808000000", "HS falls, 8 rows refreshed from row $08 on"),
    ("levels HS 0 DA0 0", "0800010000000000", "HS falls, no refresh"),
    ("levels HS 1 DA0 0", "0800020000000000", "HS rises"),
    ("levels HS 1 DA0 1", "0800030000000000", "HS rises with preload"),
    ("levels HS 1 DA0 0", "0800000000000000", "no edge"),
    ("locate", "0900010200000000", "row 1, column 2"),
    ("strike", "0400000301000000", "latch $0003, in the picture"),
    ("write 3", "0100000000000000", ""),
    ("reset controller", "0500000000000000", ""),
)
MEANINGS = {
    (0, 63): "64 characters in a line", (0, 0): "1 character in a line", (3, 0x28): "HSYNC 8 characters long, VSYNC 2 lines long",
    (3, 0x01): "HSYNC 1 character long, VSYNC 16 lines long", (4, 200): "7 bits are kept, 72: 73 rows in a frame", (5, 1): "1 adjust line",
    (8, 0x34): "addresses by row and column, display enable delayed, cursor delayed", (8, 0): "straight binary addresses, no delay",
    (8, 0x07): "addresses by row and column; left out here: bit 0 and bit 1",
    (10, 0x66): "cursor from line 6 on, blinking, 16 frames on and 16 off", (10, 0x20): "cursor from line 0 on, never shown",
    (12, 0xFF): "6 bits are kept, $3F: start address $3Fxx", (15, 7): "cursor address $xx07", (16, 5): "cannot be written, so nothing changes",
    (31, 5): "cannot be written, so nothing changes", (5, 255): "5 bits are kept, 31: 31 adjust lines", (9, 33): "5 bits are kept, 1: 2 lines in a row",
    (14, 0x40): "6 bits are kept, $00: cursor address $00xx", (10, 0x41): "cursor from line 1 on, blinking, 8 frames on and 8 off",
    (8, 0xC8): "straight binary addresses, no delay; left out here: bit 3 and bit 6 and bit 7",
}


def explained(statement, listing, paper=Paper()):
    """The lines of an explained listing of words."""
    return explain(Batch(read_line(statement)), listing, paper).splitlines()


class Answers(unittest.TestCase):
    """What each answer says."""

    def test_answers(self):
        for statement, answer, said in ANSWERED:
            with self.subTest(f"{statement} {answer}"):
                self.assertEqual(answer_words(read_line(statement), bytes.fromhex(answer)), said)

    def test_what_a_byte_means_to_a_register(self):
        for (number, value), said in MEANINGS.items():
            with self.subTest(f"R{number} = {value}"):
                self.assertEqual(meaning(number, value), said)

    def test_every_byte_means_something_to_every_register(self):
        for number in range(32):
            self.assertTrue(all(meaning(number, value) for value in range(256)))


class Explained(unittest.TestCase):
    """The listing with words beside it."""

    def test_a_line(self):
        self.assertEqual(explained("clock 1", "0300000100130000\nend 0\n"), [
            "03000100  0300000100130000  clock 1: MA $0001, RA 0, picture, display enable, VSYNC",
            "          end 0             every record was answered"])

    def test_a_refusal_with_its_reason_and_what_to_do_once(self):
        lines = explained("locate; locate; bytes 05 00 07 00", "0905000000000000\n0905000000000000\n0502000000000000\nend 0\n")
        self.assertEqual(lines[0], "09000000  0905000000000000  locate: refused 5, the pen has not fired since the controller was reset")
        self.assertTrue(lines[1].startswith(28 * " " + "-> Put a strike"))
        self.assertEqual(lines[2], lines[0])
        self.assertIn("reset: lo is 7 and has to be 0 or 1: refused 2", lines[3])
        self.assertEqual(lines[5:], ["          end 0             every record was answered, 3 with a refusal"])

    def test_a_batch_without_records(self):
        self.assertEqual(explained("", "end 0\n"), ["          end 0             the batch is empty: it has no record"])

    def test_a_cell_that_is_not_certain(self):
        answers = {"reset controller": "0500000000000000", "write 3": "0100000000000000", "strike": "0400000301000000", "locate": "0900000100000000",
                   "read": "0200010000000000", "clock 1": "0300000100130000"}
        for statements, certain in ((("strike", "locate"), False), (("reset controller", "clock 1", "strike", "read", "locate"), True),
                                    (("reset controller", "write 3", "strike", "locate"), False),
                                    (("reset controller", "strike", "write 3", "locate"), False),
                                    (("write 3", "reset controller", "strike", "locate"), True)):
            with self.subTest(statements):
                listing = "".join(f"{answers[one]}\n" for one in statements) + "end 0\n"
                text = "\n".join(explained("; ".join(statements), listing))
                self.assertEqual("-> Registers were written" not in text, certain)
                self.assertEqual("row 0, column 1 (not certain)" not in text, certain)

    def test_each_cell_that_is_not_certain_is_marked(self):
        lines = explained("locate; locate", "0900000100000000\n0900000100000000\nend 0\n")
        self.assertEqual([("(not certain)" in line, "->" in line) for line in lines], [(True, False), (False, True), (True, False), (False, False)])

    def test_only_what_a_write_changes_makes_a_cell_uncertain(self):
        for number, certain in ((0, False), (15, False), (16, True), (31, True)):
            with self.subTest(number):
                listing = "0500000000000000\n0100000000000000\n0100000000000000\n0900000100000000\nend 0\n"
                lines = explained(f"reset controller; R{number} = 1; locate", listing)
                self.assertEqual("(not certain)" not in lines[3], certain)

    def test_each_refusal_has_its_reason_and_its_advice(self):
        for number, reason, advice in ((1, "no such kind", "Kinds are 1 to 9"), (2, "does not allow", "Mend the field"), (5, "has not fired", "Put a strike"),
                                       (6, "outside the picture", "blanked part"), (7, "no cell", "Put the reset behind"), (8, "two or more", "smaller")):
            with self.subTest(number):
                lines = explained("locate", f"09{number:02}000000000000\nend 0\n")
                self.assertIn(f"refused {number}, ", lines[0])
                self.assertIn(reason, lines[0])
                self.assertIn(advice, lines[1])

    def test_a_remark_behind_the_last_bytes(self):
        lines = explain(Batch(b"\x09", (Remark(1, "mine", True),)), "end 3\n", Paper()).splitlines()
        self.assertTrue(lines[0].endswith("# mine"), lines)

    def test_nothing_of_a_remark_moves_the_terminal(self):
        text = explain(Batch(b"", (Remark(0, "\033[2J", False),)), "end 0\n", Paper())
        self.assertIn("# \\x1b[2J", text)

    def test_bytes_behind_the_last_record(self):
        lines = explained("strike; bytes 09 00", "0400000200000000\nend 3\n")
        self.assertEqual(len(lines), 2)
        self.assertIn("end 3             the last bytes, 09 00, are 2 of a record's 4", lines[1])

    def test_too_long(self):
        text = explain(Batch(bytes(5000)), "too long\n", Paper())
        self.assertIn("too long: the batch has 5,000 bytes", text)
        self.assertIn("1,024 records", text)

    def test_headings_stand_between_the_lines(self):
        batch = Batch(read_line("strike; locate"), (Remark(4, "And now", False), Remark(8, "behind", True), Remark(8, None, False)))
        lines = explain(batch, "0400000200000000\n0906000000000000\nend 0\n", Paper()).splitlines()
        self.assertEqual((lines[1], lines[4]), ("# And now", ""))
        self.assertTrue(lines[2].endswith("the strike was outside the picture  # behind"))

    def test_headings_are_folded(self):
        batch = Batch(b"", (Remark(0, 30 * "words ", False),))
        lines = explain(batch, "end 0\n", Paper(60)).splitlines()
        self.assertTrue(all(len(line) <= 60 for line in lines), lines)
        self.assertEqual((lines[0][:7], lines[1][:7]), ("# words", "  words"))

    def test_what_is_no_listing_of_the_batch(self):
        for listing in ("", "end 0\n", "0400000200000000\n", "0400000200000000\n0400000200000000\nend 0\n", "04000002000000\nend 0\n", "too short\n", "too long\n"):
            with self.subTest(listing):
                with self.assertRaises(CannotRun):
                    explained("strike", listing)

    def test_a_narrow_terminal(self):
        wide = " ".join(explained("locate", "0906000000000000\nend 0\n"))
        lines = explained("locate", "0906000000000000\nend 0\n", Paper(72, True))
        self.assertTrue(all(len(line.replace(BOLD, "").replace("\033[0m", "")) <= 72 for line in lines), lines)
        self.assertGreater(len(lines), 5)
        self.assertEqual(" ".join(lines).replace(BOLD, "").replace("\033[0m", "").split(), wide.split())
        self.assertIn(BOLD, lines[0])

    def test_a_pipe_has_nothing_but_the_text(self):
        self.assertNotIn("\033", "".join(explained("locate", "0906000000000000\nend 0\n")))


if __name__ == "__main__":
    unittest.main()
