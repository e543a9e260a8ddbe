"""The two programs of the serial line: what their inputs hold, and what is read from their outputs."""
import unittest

from batches import Batch
from batches.outputs import describe_difference
from compared import CUTS, LISTING, REPLAYS, SERIAL, NotReadable
from compared.calls import CLOSING, calls_of, in_call
from compared.cuts import NO_CALL
from programs import Outcome

ANSWERS = [bytes.fromhex("0400000200000000"), bytes.fromhex("0a01000000000000")]
LISTED = "0400000200000000\n0a01000000000000\nend 3\n"
# Three bytes of a strike, the fourth without enough room and with it, two records of which one has room, two closings and one more cut.
CALLS = bytes.fromhex("0100000003040000 010007000100 010008000100 01000b00080affffff04000000 02 02 010002000104")
SHOWN = ("0000030000000000\n" "0400000000000000\na5a5a5a5a5a5a5\n" "0000010001000000\n0400000200000000\n"
         "0400040001000000\n0a01000000000000\na5a5a5\n" "0000000000000000\n" "0c00000000000000\n" "0c00000000000000\na5a5\n")
GIVEN = [(0, []), (4, []), (0, ANSWERS[:1]), (4, ANSWERS[1:]), (0, []), (12, []), (12, [])]
COUNTS = "the ending, the bytes taken and the answers written"


class Serial(unittest.TestCase):
    """What is printed off the line."""

    def test_it_replays_records_and_reads_them_as_they_come(self):
        self.assertIn(SERIAL, REPLAYS)
        self.assertEqual([program for program in REPLAYS if program.reads_as_it_comes], [SERIAL])
        self.assertFalse(CUTS.reads_as_it_comes)

    def test_the_lines_of_a_listing(self):
        for text in (LISTED, "end 0\n", LISTED.replace("000\nend", "000 odd\nend")):
            self.assertEqual(SERIAL.read(text), LISTING.read(text))
        self.assertEqual(SERIAL.read(LISTED), (ANSWERS, 3))

    def test_it_has_room_for_all_and_nothing_is_too_long(self):
        for text in ("end 4\n", "too long\n", "", LISTED.replace("end 3\n", ""), LISTED + "end 3\n", "no call\n"):
            with self.subTest(text), self.assertRaises(NotReadable):
                SERIAL.read(text)


class Lists(unittest.TestCase):
    """Which bytes are a list of calls."""

    def test_a_list(self):
        calls = calls_of(CALLS)
        self.assertEqual(b"".join(call.written for call in calls), CALLS)
        self.assertEqual([(call.room, call.cut.hex()) for call in calls],
                         [(0, "040000"), (7, "00"), (8, "00"), (11, "0affffff04000000"), (0, ""), (0, ""), (2, "04")])
        self.assertEqual([call.lines for call in calls], [1, 2, 2, 3, 1, 1, 2])

    def test_no_byte_is_a_list_of_no_calls(self):
        self.assertEqual(calls_of(b""), [])

    def test_a_call_as_a_list_has_it(self):
        self.assertEqual(in_call(0x123, b"\4\5"), bytes.fromhex("01 0123 0002 0405"))
        self.assertEqual([(call.room, call.cut) for call in calls_of(in_call(300, 260 * b"\2"))], [(300, 260 * b"\2")])

    def test_a_room_above_the_most_counts_as_the_most(self):
        self.assertEqual([calls_of(in_call(room, b""))[0].room for room in (8191, 8192, 8193, 65535)], [8191, 8192, 8192, 8192])

    def test_what_is_no_list(self):
        for given in (b"\0", b"\3", b"\1", in_call(1, b"")[:-1], in_call(1, b"\4\5")[:-1], CALLS[:-1], CALLS + b"\0", CALLS + b"\1"):
            with self.subTest(given.hex()):
                self.assertIsNone(calls_of(given))

    def test_a_list_of_the_most_bytes_and_of_one_more(self):
        self.assertEqual(len(calls_of(4096 * CLOSING)), 4096)
        self.assertIsNone(calls_of(4097 * CLOSING))


class Edges(unittest.TestCase):
    """What cuts is tried on."""

    def test_lists_and_what_is_none_at_each_length(self):
        for length in CUTS.edge_lengths:
            inputs = dict(CUTS.edge_inputs(length))
            calls = {what: calls_of(given) for what, given in inputs.items()}
            with self.subTest(length):
                self.assertEqual(calls["closings" if length else "zeros"] is not None, length <= 4096)
                if length > 6:
                    lists = {"closings", "a cut with little room", "a cut with much room", "a cut and a closing", "a closing and a cut"}
                    none = {"zeros", "a cut that lacks a byte", "a call that there is not", "a cut and a byte too many"}
                    self.assertLessEqual({*lists, *none}, set(calls))
                    self.assertEqual({what for what in lists if calls[what]}, lists if length <= 4096 else set())
                    self.assertFalse({what for what in none if calls[what] is not None})

    def test_the_good_calls_are_cuts_and_closings_and_calls_after_these(self):
        written = [call.written for call in calls_of(CUTS.good_input)]
        self.assertTrue(0 < written.index(CLOSING) < len(written) - 1)
        self.assertEqual(dict(CUTS.edge_inputs(len(CUTS.good_input)))["good calls"], CUTS.good_input)


class Cuts(unittest.TestCase):
    """What is printed for calls."""

    def assertNotReadable(self, given, *texts):
        """None of these is an output for the input."""
        for text in texts:
            with self.subTest(text), self.assertRaises(NotReadable):
                CUTS.read_for(given, text)

    def test_what_each_call_gave(self):
        self.assertEqual(CUTS.read_for(CALLS, SHOWN), GIVEN)
        self.assertEqual(CUTS.read_for(b"", ""), [])

    def test_what_is_no_list(self):
        self.assertEqual(CUTS.read_for(b"\3", "no call\n"), [(NO_CALL, [])])
        self.assertNotReadable(b"\3", "", "no call", SHOWN)
        self.assertNotReadable(CALLS, "no call\n", "no call\n" + SHOWN)

    def test_other_lines_than_the_calls_have(self):
        self.assertNotReadable(CALLS, "", SHOWN[:-5], SHOWN + "a5a5\n", SHOWN[:-1], SHOWN.replace("a5a5a5a5a5a5a5\n", ""),
                               SHOWN.replace("a5a5\n", "a5a5a5\n"), "\n" + SHOWN, SHOWN.upper())
        self.assertNotReadable(b"", "\n", "0000000000000000\n")

    def test_an_output_in_other_lines(self):
        def shown(counts, *lengths):
            return counts + "".join("\n" + length * "a5" for length in lengths) + "\n"

        self.assertEqual(CUTS.read_for(in_call(20, b""), shown(16 * "0", 8, 8, 4)), [(0, [])])
        self.assertNotReadable(in_call(20, b""), shown(16 * "0", 7, 8, 5), shown(16 * "0", 8, 8, 3), shown(16 * "0", 8, 12),
                               shown(14 * "0", 8, 8, 4))

    def test_an_ending_that_its_call_cannot_have(self):
        self.assertNotReadable(CLOSING, *(f"{ending}00000000000000\n" for ending in ("01", "04", "05", "ff")))
        self.assertNotReadable(in_call(0, b"\4"), *(f"{ending}00000000000000\n" for ending in ("03", "05", "0a")))

    def test_counts_that_its_call_cannot_have(self):
        one_record = in_call(8, b"\5\0\0\0")
        answer, none = "0500000000000000\n", 8 * "a5" + "\n"
        self.assertEqual(CUTS.read_for(one_record, f"0000040001000000\n{answer}"), [(0, [bytes.fromhex(answer)])])
        self.assertNotReadable(one_record, f"0000030001000000\n{answer}", f"0000050001000000\n{answer}",  # done, and not all is taken
                               f"0000040002000000\n{answer}", f"0000040001000001\n{answer}",  # too many answers, no zeros behind
                               f"0000040000000000\n{answer}",  # more written than is told
                               f"0400040000000000\n{none}", f"0c00040000000000\n{none}", f"0c00000001000000\n{answer}")

    def test_bytes_past_the_answers_that_are_touched(self):
        self.assertNotReadable(CALLS, SHOWN.replace("a5a5a5\n", "a5a500\n"), SHOWN.replace("\na5a5\n", "\n00a5\n"))

    def test_what_a_message_shows(self):
        self.assertEqual(CUTS.told_of_input(CALLS[:14]), ["calls in hex:", "  0100000003040000", "  010007000100"])
        self.assertEqual(CUTS.told_of_input(b"\3\2"), ["no list of calls, in hex:", "  0302"])
        self.assertEqual(CUTS.told_of_input(b""), ["calls in hex:", "  (no byte)"])

    def test_the_places_of_lines(self):
        self.assertEqual([CUTS.place_of_line(CALLS, number) for number in (0, 1, 2, 5, 7, 8, 12)],
                         [f"call 1, 0100000003: {COUNTS}", f"call 2, 0100070001: {COUNTS}", "call 2, 0100070001: line 1 of the output",
                          f"call 4, 01000b0008: {COUNTS}", "call 4, 01000b0008: line 2 of the output", f"call 5, 02: {COUNTS}",
                          "what follows the last call"])
        self.assertEqual(CUTS.place_of_line(b"\3", 0), "the words for what is no list of calls")

    def test_the_first_line_that_differs(self):
        other = SHOWN.replace("0a01", "0a02").replace("\na5a5\n", "\na500\n")
        told = describe_difference(Batch(7, "some sort", CUTS, CALLS), Outcome(SHOWN, None), Outcome(other, None))
        self.assertTrue(told.endswith("first difference at call 4, 01000b0008: line 1 of the output:\n"
                                      "  proved: 0a01000000000000\n  second: 0a02000000000000"), told)

    def test_the_same_output_that_is_none(self):
        same = Outcome(SHOWN + "a5\n", None)
        told = describe_difference(Batch(7, "some sort", CUTS, CALLS), same, same)
        self.assertIn("both programs print the same, and it is no output of cuts:", told)
        self.assertIsNone(describe_difference(Batch(7, "some sort", CUTS, CALLS), Outcome(SHOWN, None), Outcome(SHOWN, None)))


if __name__ == "__main__":
    unittest.main()
