"""Words to records and records to words."""
import random
import unittest

from desk.batch import Batch, Remark, from_hex, from_words
from desk.files import decoded
from desk.lines import BadInput
from desk.reading import FORMS, NotWords, read_line
from desk.trials import edges
from desk.wording import labels_of, statements_of
from desk.writing import as_hex, as_words

# Statements, and their records as the scope document has them.
SAID = {
    "R0 = 63": "01000000 0100013f",
    "r15=$f4": "0100000f 010001f4",
    "R31 = 0": "0100001f 01000100",
    "select R16": "01000010",
    "select $46": "01000046",
    "write 255": "010001ff",
    "read": "02000100",
    "Read R17": "01000011 02000100",
    "status": "02000000",
    "clock 0": "03000000",
    "clock 65535": "03ffff00",
    "clock $0102": "03010200",
    "strike": "04000000",
    "reset controller": "05000000",
    "RESET Multiplexer": "05000100",
    "bus read $A000": "06a00001",
    "bus write 4660": "06123400",
    "set V0": "06ffc100",
    "clear V0": "06ffc000",
    "set F6": "06ffd300",
    "set p": "06ffd500",
    "clear R0": "06ffd600",
    "set R1": "06ffd900",
    "clear M1": "06ffdc00",
    "set TY": "06ffdf00",
    "fetch 32": "07002000",
    "levels HS 0 DA0 1": "08000001",
    "levels hs 1 da0 0": "08000100",
    "levels HS=1 DA0=1": "08000101",
    "locate": "09000000",
    "bytes 0a 01 02 03": "0a010203",
    "bytes 0A010203 ff": "0a010203 ff",
    "clock 1; strike;locate": "03000100 04000000 09000000",
    "": "",
}
# Statements that are none, and a part of what is said of each.
UNCLEAR = {
    "clok 3": "did you mean 'clock'?",
    "63": "expected a register",
    "R0": "expected '=' behind it, as in 'R0 = 63'",
    "R7 63": "expected '=' behind it, as in 'R7 = 63'",
    "R0 =": "something is missing; expected it as in 'R0 = 63'",
    "R0 = 1 2": "'2' is too much",
    "R0 = 63, R1 = 40": "'R1' is too much",
    "R0 = 63 // a": "'#' before a comment",
    "R32 = 1": "R0 to R31",
    "R0 = 256": "0 to 255",
    "R0 = $100": "$0 to $FF",
    "R0 = -1": "0 to 255",
    "R0 = 0x3f": "'0x3f' is not a number",
    "R0 = $": "'$' is not a number",
    "write": "something is missing; expected it as in 'write 63'",
    "select": "expected it as in 'select R16'",
    "select R99": "R0 to R31",
    "select 256": "0 to 255",
    "read 16": "R0 to R31",
    "read R1 R2": "'R2' is too much; expected it as in 'read' or 'read R16'",
    "clock": "expected it as in 'clock 20'",
    "clock 20 30": "'30' is too much; expected it as in 'clock 20', with ';' before another record",
    "clock 65536": "0 to 65535",
    "clock 1,000": "'1,000' is not a number",
    "clock " + 5000 * "9": "too large",
    "fetch 65536": "0 to 65535",
    "strike 1": "'1' is too much",
    "reset": "'reset controller' or 'reset multiplexer'",
    "reset pen": "'reset controller' or 'reset multiplexer'",
    "bus $A000": "expected it as in 'bus read $A000'",
    "bus fetch $A000": "'bus read' or a 'bus write'",
    "bus read $10000": "$0 to $FFFF",
    "set V3": "V0 V1 V2 F0 to F6 P R0 R1 M0 M1 TY",
    "clear": "expected it as in 'clear TY'",
    "set TY 1": "'1' is too much",
    "levels HS 2 DA0 0": "0 to 1",
    "levels DA0 0 HS 0": "expected it as in 'levels HS 0 DA0 1'",
    "levels 0 1": "expected it as in 'levels HS 0 DA0 1'",
    "bytes 03 00 05; strike": "'strike' cannot follow bytes that end inside a record",
    "bytes": "expected bytes in hex",
    "bytes 1": "odd number of hex digits",
    "bytes $0a": "not a hex digit",
    "bytes é0": "not a hex digit",
}


def words_batch(text):
    """A batch in words."""
    return from_words("some.batch", text)


def hex_batch(text):
    """A batch in hex."""
    return from_hex("some.hex", text)


def some_batches():
    """Batches of all sorts: every kind at its edges, and bytes of any length, their kinds often known ones."""
    plan = random.Random(14)
    yield edges()
    for length in range(200):
        data = bytearray(plan.randrange(256) for _ in range(length))
        for at in range(0, length, 4):
            if plan.randrange(4):
                data[at:at + 3] = bytes((plan.choice((1, 1, 2, 2, 3, 5, 6, 8)), 0, plan.randrange(2)))[:length - at]
        yield bytes(data[:length])


class Reading(unittest.TestCase):
    """Words to records."""

    def test_statements(self):
        for text, data in SAID.items():
            with self.subTest(text):
                self.assertEqual(read_line(text), bytes.fromhex(data))

    def test_every_form_is_read_as_its_help_shows_it(self):
        for form in FORMS:
            with self.subTest(form.shape):
                self.assertTrue(read_line(form.shape))

    def test_what_is_no_statement(self):
        for text, part in UNCLEAR.items():
            with self.subTest(text[:40]):
                with self.assertRaises(NotWords) as caught:
                    read_line(text)
                self.assertIn(part, str(caught.exception))
                self.assertLess(len(str(caught.exception)), 200)

    def test_comments_ends_of_lines_and_empty_lines(self):
        batch = words_batch("\n# a heading\r\nstrike # it fires\r\rlocate")
        self.assertEqual(batch.data.hex(), "0400000009000000")
        self.assertEqual(batch.remarks, (Remark(0, None, False), Remark(0, "a heading", False), Remark(4, "it fires", True), Remark(4, None, False)))

    def test_every_wrong_line_is_told(self):
        with self.assertRaises(BadInput) as caught:
            words_batch("strike\nstrik\nclock x\n")
        self.assertEqual([message.split(":")[0] for message in caught.exception.messages], ["some.batch, line 2", "some.batch, line 3"])

    def test_not_more_wrong_lines_than_one_can_read(self):
        with self.assertRaises(BadInput) as caught:
            words_batch("x\n" * 500)
        self.assertEqual(len(caught.exception.messages), 21)
        self.assertIn("480 more", caught.exception.messages[-1])

    def test_only_the_last_record_may_be_cut(self):
        self.assertEqual(words_batch("strike\nbytes 01 02 # and an end\n\n").data.hex(), "040000000102")
        with self.assertRaises(BadInput) as caught:
            words_batch("bytes 01 02\n\nstrike\nlocate\n")
        self.assertIn("line 1: these bytes end inside a record, and line 3 follows", caught.exception.messages[0])

    def test_hex_may_be_cut_anywhere(self):
        self.assertEqual(hex_batch("04 0000\n00 09 # a part\n000000").data.hex(), "0400000009000000")


class Writing(unittest.TestCase):
    """Records to words and to hex."""

    def test_words_are_the_inverse_of_records(self):
        for data in some_batches():
            with self.subTest(data.hex()):
                text = as_words(Batch(data))
                self.assertEqual(words_batch(text).data, data)
                self.assertEqual(as_words(words_batch(text)), text)

    def test_hex_is_the_inverse_of_records(self):
        for data in some_batches():
            with self.subTest(data.hex()):
                self.assertEqual(hex_batch(as_hex(Batch(data))), Batch(data))

    def test_statements_are_written_as_they_are_said(self):
        for text in ("R0 = 63", "R3 = $28", "select R16", "select $46", "write $3F", "read", "read R17", "status", "clock 7", "fetch 9", "set TY",
                     "clear F0", "bus read $FFC0", "bus write $FFE0", "bus write $FFBF", "levels HS 1 DA0 0", "reset multiplexer"):
            with self.subTest(text):
                self.assertEqual(as_words(Batch(read_line(text))), f"{text}\n")

    def test_a_damaged_record_is_written_as_its_bytes(self):
        for data in ("0a000000", "00000000", "01010000", "01000200", "02000001", "04000001", "06000002", "08000200", "09000001", "0400", "ff"):
            with self.subTest(data):
                self.assertEqual(as_words(Batch(bytes.fromhex(data))), f"bytes {bytes.fromhex(data).hex(' ')}\n")

    def test_remarks_go_through_hex_and_back(self):
        text = ("# A heading.\n#\n\nR0 = 63                  # 64 characters\nselect R16\n# between\nread                     # the latch: $00\n"
                "strike\n\nbytes 09 00              # cut\n# the end\n")
        self.assertEqual(as_words(words_batch(text)), text)
        self.assertEqual(as_words(hex_batch(as_hex(words_batch(text)))), text)

    def test_a_remark_between_two_records_keeps_them_apart(self):
        self.assertEqual(as_words(hex_batch("01000000\n# and now\n0100013f\n")), "select R0\n# and now\nwrite $3F\n")

    def test_remarks_of_one_statement_are_joined(self):
        self.assertEqual(as_words(hex_batch("01000000 # one\n0100013f # two\n")), "R0 = 63                  # one; two\n")

    def test_letters_of_other_alphabets(self):
        for given, said in (("strike # café".encode(), "café"), (b"R0\xa0= 3 # caf\xe9", "café"), ("strike # café".encode("utf-8-sig"), "café"),
                            ("strike # café".encode("utf-16"), "café")):
            with self.subTest(given):
                self.assertEqual(words_batch(decoded("some.batch", given)).remarks[0].text, said)

    def test_what_is_no_text(self):
        with self.assertRaises(BadInput) as caught:
            decoded("some.batch", b"\x04\0\0\0")
        self.assertIn("--as bytes", str(caught.exception))

    def test_the_register_that_is_meant(self):
        data = read_line("write 3; R6 = 25; write 9; select $46; read; select R20; bytes 01 00 02 05; read")
        self.assertEqual(labels_of(data), [
            "R0 = 3 (4 characters in a line)", "select R6 (rows shown)", "R6 = 25 (25 rows shown)", "R6 = 9 (9 rows shown)", "select $46 (R6, rows shown)",
            "read R6 (rows shown)", "select R20 (left out here)",
            "bytes 01 00 02 05, controller write: lo is 2 and has to be 0 or 1", "read R20 (left out here)"])
        for given, label in (("read R17", "read R17 (pen latch, low)"), ("read R18", "read R18 (left out here)"), ("read R31", "read R31 (left out here)")):
            self.assertEqual(labels_of(read_line(given))[1], label)

    def test_pairs_are_found_from_the_left(self):
        data = read_line("select R1; select R2; write 5; read")
        self.assertEqual([statement.words for statement in statements_of(data)], ["select R1", "R2 = 5", "read"])


if __name__ == "__main__":
    unittest.main()
