"""The programs under comparison: the words that run them, what their inputs hold, and what is read from their outputs."""
import unittest

from batches import Batch
from batches.outputs import describe_difference
from checks.crates import programs
from commands import TOP
from compared import COUNTS, CUTS, LISTING, NAMES, PROGRAMS, ROOMS, SERIAL, NotReadable
from compared.rooms import in_room
from programs import Outcome

BATCH = bytes.fromhex("05000000 0affffff 02")  # a record that is done, one that is refused, and a byte left over
ANSWERS = [bytes.fromhex("0500000000000000"), bytes.fromhex("0a01000000000000")]
LISTED = "0500000000000000\n0a01000000000000\nend 3\n"
ROOM = in_room(19, BATCH)
SHOWN = "0300080002000000\n0500000000000000\n0a01000000000000\na5a5a5\n"
FIRST_LINE = "the line of the ending, the bytes taken and the answers written"
SETTING_A, ZEROS = "03020000010102000001000000000000", 32 * "0"
SETTINGS = bytes.fromhex(SETTING_A + ZEROS)
ROWS = [[8, 8, 1, 0, 20, 32, 3], [0, 0, 0, 0, 1, 0, 0]]
COUNTED = "8 8 1 0 20 32 3\n0 0 0 0 1 0 0\ntotal 8 8 1 0 21 32 3\n"


class Commands(unittest.TestCase):
    """Where the programs are, and with which words they run."""

    def test_the_second_program_in_the_part_of_each(self):
        self.assertEqual(LISTING.second_words(TOP / "second"), [str(TOP / "second")])
        self.assertEqual(ROOMS.second_words(TOP / "second"), [str(TOP / "second"), "--room"])
        self.assertEqual(COUNTS.second_words(TOP / "second"), [str(TOP / "second"), "--counts"])
        self.assertEqual(SERIAL.second_words(TOP / "second"), [str(TOP / "second"), "--serial"])
        self.assertEqual(CUTS.second_words(TOP / "second"), [str(TOP / "second"), "--cuts"])

    def test_each_is_a_proved_program_of_its_own(self):
        self.assertEqual([program.proved for program in PROGRAMS], [TOP / "crates" / name / "out" / name for name in NAMES])
        self.assertEqual(len(set(NAMES)), len(PROGRAMS))
        self.assertLessEqual(set(NAMES), set(programs(TOP)))


class Inputs(unittest.TestCase):
    """What an input holds, and what is tried and told of it."""

    def test_the_batch_of_rooms_is_behind_two_bytes(self):
        self.assertEqual(ROOM, b"\x00\x13" + BATCH)
        self.assertEqual(ROOMS.records_in(ROOM), BATCH)
        self.assertEqual(LISTING.records_in(BATCH), BATCH)

    def test_what_a_message_shows(self):
        self.assertEqual(LISTING.told_of_input(BATCH), ["batch in hex:", "  05000000 0affffff 02"])
        self.assertEqual(ROOMS.told_of_input(ROOM), ["room, two bytes: 0013", "batch in hex:", "  05000000 0affffff 02"])
        self.assertEqual(ROOMS.told_of_input(b""), ["room, two bytes: (none)", "batch in hex:", "  (no byte)"])

    def test_what_a_message_shows_of_settings(self):
        self.assertEqual(COUNTS.told_of_input(SETTINGS + b"\xff"), ["settings in hex:", f"  {SETTING_A}", f"  {ZEROS}", "  ff"])
        self.assertEqual(COUNTS.told_of_input(b""), ["settings in hex:", "  (no byte)"])

    def test_each_program_is_tried_at_its_edges(self):
        for program in (LISTING, ROOMS):
            self.assertEqual(program.edge_lengths, (*range(0, 13), *range(4084, 4101)))
        self.assertEqual(SERIAL.edge_lengths, (*range(0, 13), *range(252, 265), *range(508, 517), *range(4084, 4101)))
        self.assertEqual(COUNTS.edge_lengths, (*range(0, 18), 31, 32, 33, *range(1007, 1027)))
        self.assertEqual(CUTS.edge_lengths, (*range(0, 13), *range(4090, 4099)))

    def test_the_inputs_of_a_length_have_it(self):
        for program in PROGRAMS:
            for length in (0, 1, 2, 3, 70):
                with self.subTest(program=program.name, length=length):
                    inputs = list(program.edge_inputs(length))
                    self.assertEqual({len(given) for _what, given in inputs}, {length})
                    self.assertEqual(len({what for what, _given in inputs}), len(inputs))

    def test_rooms_is_also_tried_with_rooms_in_front(self):
        inputs = dict(ROOMS.edge_inputs(6))
        self.assertEqual(inputs["room 2000 and good records"], bytes.fromhex("2000 01000001"))
        self.assertEqual(dict(ROOMS.edge_inputs(1))["room ffff and zeros"], b"\xff")
        self.assertLess(set(dict(LISTING.edge_inputs(6))), set(inputs))


    def test_counts_is_tried_with_settings(self):
        self.assertEqual(dict(COUNTS.edge_inputs(32))["good settings"], SETTINGS)
        self.assertEqual(COUNTS.good_input[:32], SETTINGS)


class Outputs(unittest.TestCase):
    """Outputs that can be read and some that cannot."""

    def assertNotReadable(self, program, *texts):
        """None of these is an output of the program."""
        for text in texts:
            with self.subTest(text), self.assertRaises(NotReadable):
                program.read(text)

    def test_a_listing(self):
        self.assertEqual(LISTING.read(LISTED), (ANSWERS, 3))
        self.assertEqual(LISTING.read("end 0\n"), ([], 0))
        self.assertEqual(LISTING.read("too long\n"), ([], "too long"))

    def test_a_remark_is_no_part_of_an_answer(self):
        self.assertEqual(LISTING.read(LISTED.replace("000\nend", "000 odd\nend")), (ANSWERS, 3))

    def test_a_listing_with_another_line(self):
        self.assertNotReadable(LISTING, LISTED.replace("0a01", "0A01"), LISTED.replace("0a01", "0a"),
                               LISTED.replace("000\nend", "000 even\nend"), "another line\n" + LISTED, LISTED + "end 3\n")

    def test_a_listing_without_a_right_ending(self):
        self.assertNotReadable(LISTING, "", LISTED.replace("end 3\n", ""), LISTED.replace("end 3", "end 5"), "end 0", "too long")

    def test_a_room(self):
        self.assertEqual(ROOMS.read(SHOWN), (ANSWERS, 3))
        self.assertEqual(ROOMS.read("0400000000000000\na5a5a5\n"), ([], 4))
        self.assertEqual(ROOMS.read("no room\n"), ([], "no room"))
        self.assertEqual(ROOMS.read("too long\n"), ([], "too long"))

    def test_bytes_past_the_answers_are_no_answers(self):
        shown = SHOWN.replace("0a01000000000000", 8 * "a5").replace("0300080002", "0300080001")
        self.assertEqual(ROOMS.read(shown), (ANSWERS[:1], 3))

    def test_a_room_with_a_wrong_count(self):
        self.assertNotReadable(ROOMS, *(SHOWN.replace("0300080002", f"030008{count}") for count in ("0003", "0004", "0102")))
        self.assertNotReadable(ROOMS, "0000000001000000\n")

    def test_a_room_with_a_wrong_line(self):
        self.assertNotReadable(ROOMS, "", SHOWN.replace("03", "05", 1), SHOWN.replace("0a01", "0a"),
                               SHOWN + 8 * "a5" + "\n", LISTED)

    def test_a_report(self):
        self.assertEqual(COUNTS.read(COUNTED), (ROWS, 0))
        self.assertEqual(COUNTS.read("refused 10\n"), ([], 10))
        self.assertEqual(len(COUNTS.read(64 * "0 0 0 0 1 0 0\n" + "total 0 0 0 0 64 0 0\n").rows), 64)

    def test_a_report_with_another_line(self):
        self.assertNotReadable(COUNTS, COUNTED.replace("1 0 20", "1 0 020"), COUNTED.replace("1 0 20", "1  0 20"),
                               COUNTED.replace("32 3\n0", "32\n0"), COUNTED.replace("8 8 1", "8 8 -1", 1),
                               COUNTED.replace("\n0", "\n\n0"), "another line\n" + COUNTED, COUNTED + COUNTED)

    def test_a_report_with_too_many_rows(self):
        self.assertNotReadable(COUNTS, 65 * "0 0 0 0 1 0 0\n" + "total 0 0 0 0 65 0 0\n")

    def test_a_report_without_right_totals(self):
        self.assertNotReadable(COUNTS, COUNTED.replace("0 21 32 3", "0 20 32 3"), COUNTED.replace("21 32 3", "21 32 2"),
                               COUNTED.replace("total ", ""), COUNTED.rpartition("total")[0], "total 0 0 0 0 0 0 0\n")

    def test_the_greatest_change_is_not_summed(self):
        self.assertEqual(COUNTS.read("0 0 0 0 2 28 14\n0 0 0 0 3 8 4\ntotal 0 0 0 0 5 36 14\n").refusal, 0)
        self.assertNotReadable(COUNTS, "0 0 0 0 2 28 14\n0 0 0 0 3 8 4\ntotal 0 0 0 0 5 36 18\n")

    def test_a_refusal_that_is_none(self):
        self.assertNotReadable(COUNTS, "", "refused 10", "refused 11\n", "refused 10\n" + COUNTED, "too long\n")

    def test_the_words_of_another_program(self):
        self.assertNotReadable(LISTING, "no room\n", SHOWN, "refused 10\n", COUNTED)
        self.assertNotReadable(COUNTS, LISTED, SHOWN, "end 0\n")


class Differences(unittest.TestCase):
    """The place that is named where two outputs differ."""

    def told(self, program, given, proved, second):
        """What is told of two outputs, without the input."""
        story = describe_difference(Batch(7, "some sort", program, given), Outcome(proved, None), Outcome(second, None))
        heading, _, rest = story.partition(program.told_of_input(given)[-1] + "\n")
        self.assertTrue(heading.startswith(f"batch 7 (some sort), through {program.name}:\n"), heading)
        return rest.splitlines()

    def test_no_difference(self):
        for program, given, text in ((LISTING, BATCH, LISTED), (ROOMS, ROOM, SHOWN), (COUNTS, SETTINGS, COUNTED)):
            same = Outcome(text, None)
            self.assertIsNone(describe_difference(Batch(7, "some sort", program, given), same, same))

    def test_the_places_of_lines(self):
        self.assertEqual([LISTING.place_of_line(BATCH, number) for number in range(3)],
                         ["record 1, 05000000", "record 2, 0affffff", "what follows the last whole record"])
        self.assertEqual([ROOMS.place_of_line(ROOM, number) for number in range(4)],
                         [FIRST_LINE, "record 1, 05000000", "record 2, 0affffff", "what follows the last whole record"])

    def test_the_first_line_that_differs_in_a_listing(self):
        other = LISTED.replace("0a01", "0a02").replace("end 3", "end 0")
        self.assertEqual(self.told(LISTING, BATCH, LISTED, other),
                         ["first difference at record 2, 0affffff:", "  proved: 0a01000000000000", "  second: 0a02000000000000"])

    def test_the_first_answer_that_differs_in_a_room(self):
        other = SHOWN.replace("0a01", "0a02").replace("a5a5a5", "a5a500")
        self.assertEqual(self.told(ROOMS, ROOM, SHOWN, other),
                         ["first difference at record 2, 0affffff:", "  proved: 0a01000000000000", "  second: 0a02000000000000"])

    def test_the_counts_of_a_room_and_its_first_answer_that_differs(self):
        other = SHOWN.replace("0300", "0400", 1).replace("0a01", "0a02").replace("a5a5a5", "a5a500")
        self.assertEqual(self.told(ROOMS, ROOM, SHOWN, other),
                         [f"first difference at {FIRST_LINE}:", "  proved: 0300080002000000", "  second: 0400080002000000",
                          "first difference at record 2, 0affffff:", "  proved: 0a01000000000000", "  second: 0a02000000000000"])

    def test_the_places_of_the_lines_of_a_report(self):
        self.assertEqual([COUNTS.place_of_line(SETTINGS, number) for number in range(4)],
                         [f"setting 1, {SETTING_A}", f"setting 2, {ZEROS}", "the totals", "what follows the totals"])
        for given in (b"", SETTINGS[:-1], bytes(1040)):
            self.assertEqual(COUNTS.place_of_line(given, 0), "the refusal, since the bytes are not 1 to 64 whole settings")

    def test_the_first_row_that_differs_in_a_report(self):
        other = COUNTED.replace("0 0 0 0 1", "0 0 0 0 2").replace("0 21", "0 22")
        self.assertEqual(self.told(COUNTS, SETTINGS, COUNTED, other),
                         [f"first difference at setting 2, {ZEROS}:", "  proved: 0 0 0 0 1 0 0", "  second: 0 0 0 0 2 0 0"])

    def test_a_report_beside_a_refusal(self):
        told = self.told(COUNTS, SETTINGS, COUNTED, "refused 10\n")
        self.assertEqual(told[:3],
                         [f"first difference at setting 1, {SETTING_A}:", "  proved: 8 8 1 0 20 32 3", "  second: refused 10"])
        self.assertEqual(told[-2:], ["whole output of the second program:", "  refused 10"])

    def test_the_same_wrong_totals(self):
        wrong = COUNTED.replace("0 21", "0 22")
        self.assertEqual(self.told(COUNTS, SETTINGS, wrong, wrong)[0],
                         "both programs print the same, and it is no output of counts:")

    def test_the_same_output_that_is_none(self):
        self.assertEqual(self.told(LISTING, BATCH, "another\n", "another\n"),
                         ["both programs print the same, and it is no output of listing:", "  another"])


if __name__ == "__main__":
    unittest.main()
