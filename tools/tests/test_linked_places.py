"""Reports on settings into places: the host in C, with calls that stand in for the proved one, what the trials have to show, and how
two reports are told apart. Nothing is proved here."""
import collections
import pathlib
import runpy
import subprocess
import tempfile
import unittest

from commands import TOP
from compared import NotReadable
from kit import compile_c
from linked import places
from linked.hosts import SOURCES
from linked.places import PLACES, all_trials, in_places, needed, unseen
from linked.sources import Unfit
from records import REPORT_REFUSAL_NAMES, are_settings

CHECK_LINKED = runpy.run_path(str(TOP / "tools" / "check-linked"), run_name="check_linked")
COMPILER = ["gcc"]
# Calls that stand in for the proved one, by what they do before they give the number that the lent places ask for.
CALL = """#include "vorstelpijp.h"
u8 settings_report(const u8 *settings, unsigned long settings_count, u64 *places, unsigned long places_count)
{
    %s
    return settings_count %% 16 || !settings_count ? 10 : places_count < 14 ? 11 : 0;
}
"""
SETTING = bytes(range(16))
LEFT_ALONE = 8 * "a5" + "\n"


class Host(unittest.TestCase):
    """The host that has a report laid into places, built for this machine with calls that stand in for the proved one."""

    def printed(self, work, given):
        """What it prints for an input, with a call that does some work."""
        with tempfile.TemporaryDirectory() as folder:
            room = pathlib.Path(folder)
            (room / "call.c").write_text(CALL % work)
            for source in (SOURCES / "places.c", room / "call.c"):
                compile_c(COMPILER, source, room / f"{source.stem}.o")
            subprocess.run([*COMPILER, room / "places.o", room / "call.o", "-o", room / "program"], check=True)
            return subprocess.run([room / "program"], input=given, capture_output=True, check=True).stdout.decode()

    def test_the_refusal_and_every_place(self):
        laid = self.printed("places[1] = settings[2] + 256 * settings_count;", in_places(3, SETTING))
        self.assertEqual(laid, "11\n" + LEFT_ALONE + "0000000000001002\n" + LEFT_ALONE)

    def test_the_call_is_given_all_that_was_read(self):
        for size in (0, 1, 16, 17, 1024, 1025):
            laid = self.printed("places[0] = settings_count; places[1] = places_count;", in_places(14, bytes(size)))
            self.assertEqual(laid.splitlines()[1:3], [f"{size:016x}", f"{14:016x}"])

    def test_an_input_too_long_is_noticed_and_cut(self):
        laid = self.printed("places[0] = settings_count;", in_places(14, bytes(5000)))
        self.assertEqual(laid.splitlines()[1], f"{1025:016x}")

    def test_the_most_places(self):
        for count in (1024, 1025, 65535):
            self.assertEqual(self.printed("", in_places(count, SETTING)), "0\n" + 1024 * LEFT_ALONE)

    def test_no_count(self):
        for given in (b"", b"\x0e"):
            self.assertEqual(self.printed("places[0] = 0;", given), "no room\n")

    def test_a_place_that_was_not_lent(self):
        for far in ("", " + 400"):
            laid = self.printed(f"places[places_count{far}] = 0;", in_places(2, SETTING))
            self.assertEqual(laid, "11\n" + 2 * LEFT_ALONE + "a place was written to that was not lent\n")

    def test_a_setting_that_was_written_to(self):
        laid = self.printed("((u8 *)settings)[3] ^= 1;", in_places(1, SETTING))
        self.assertEqual(laid, "11\n" + LEFT_ALONE + "a setting was written to\n")


def refusal_of(batch):
    """What a report into places has to end with, by the request; None where the number of places was not given."""
    count, given = int.from_bytes(batch.input[:2], "big"), batch.input[2:]
    if len(batch.input) < 2:
        return None
    return 10 if not are_settings(given) else 11 if count < needed(given) else 0


class Reports(unittest.TestCase):
    """The reports into places, and what is read from them."""

    def test_each_refusal_comes_often(self):
        refusals = collections.Counter(map(refusal_of, all_trials()))
        for number in REPORT_REFUSAL_NAMES:
            self.assertGreaterEqual(refusals[number], 15)
        self.assertEqual(refusals[None], 2)

    def test_each_number_of_places_comes_with_and_without_settings(self):
        off = [(int.from_bytes(batch.input[:2], "big") - needed(batch.input[2:]), are_settings(batch.input[2:]))
               for batch in all_trials()]
        for one in ((-1, True), (0, True), (1, True), (-1, False), (0, False), (1, False)):
            self.assertGreaterEqual(off.count(one), 3)

    def test_the_trials_are_the_same_in_every_run(self):
        self.assertEqual(all_trials(), all_trials())
        self.assertEqual([batch.number for batch in all_trials()], list(range(1, len(all_trials()) + 1)))

    def test_settings_of_all_numbers(self):
        sizes = {len(batch.input) - 2 for batch in all_trials()}
        self.assertLessEqual({0, 16, 1024, 1040}, sizes)
        self.assertTrue(any(size % 16 for size in sizes))

    def test_what_is_read(self):
        self.assertEqual(PLACES.read("0\n" + "0000000000000008\n" + LEFT_ALONE), (0, ["0000000000000008", 8 * "a5"]))
        self.assertEqual(PLACES.read("11\n" + LEFT_ALONE), (11, [8 * "a5"]))
        self.assertEqual(PLACES.read("10\n"), (10, []))
        self.assertEqual(PLACES.read("no room\n"), (None, []))

    def test_what_is_no_report(self):
        for text in ("", "0", "9\n", "11\n" + 16 * "0" + "\n", "0\n" + 15 * "0" + "\n", "0\n" + 16 * "A" + "\n",
                     "10\na setting was written to\n"):
            with self.subTest(text), self.assertRaises(NotReadable):
                PLACES.read(text)

    def test_the_places_of_lines(self):
        given = in_places(22, 2 * SETTING)
        self.assertEqual([PLACES.place_of_line(given, number) for number in (0, 7, 8, 15, 22)],
                         ["the line of the refusal", f"place 7, of setting 1, {SETTING.hex()}",
                          f"place 8, of setting 2, {SETTING.hex()}", "place 15, of the totals", "place 22, of what follows the totals"])
        self.assertEqual(PLACES.place_of_line(given[:-1], 9), "place 9")

    def test_what_a_message_shows(self):
        self.assertEqual(PLACES.told_of_input(in_places(13, SETTING)),
                         ["places, two bytes: 000d", "settings in hex:", f"  {SETTING.hex()}"])
        self.assertEqual(PLACES.told_of_input(b""), ["places, two bytes: (none)", "settings in hex:", "  (no byte)"])


def ended(number, count):
    """An output that ends a report into so many places with a number."""
    return f"{number}\n" + count * LEFT_ALONE


class Unseen(unittest.TestCase):
    """Reports that do not show all that they have to."""

    ENOUGH = [ended(0, 14), ended(10, 13), ended(11, 13)] * places.ENOUGH

    def test_all_is_seen(self):
        self.assertIsNone(unseen(self.ENOUGH))

    def test_a_refusal_that_is_seen_too_seldom(self):
        for number, name in REPORT_REFUSAL_NAMES.items():
            texts = [text for text in self.ENOUGH if not text.startswith(f"{number}\n")] + [ended(number, 2)] * (places.ENOUGH - 1)
            self.assertIn(f"ends with {number} ({name})", unseen(texts))

    def test_10_that_never_comes_before_11(self):
        self.assertIn("10 before 11", unseen([text.replace(ended(10, 13), ended(10, 14)) for text in self.ENOUGH]))


class Compared(unittest.TestCase):
    """How the two ways to a report are compared, with programs that stand in for both."""

    def test_reports_that_differ(self):
        with self.assertRaises(Unfit) as refused:
            CHECK_LINKED["compare_places"](["sh", "-c", "cat >/dev/null; echo 0"], ["sh", "-c", "cat >/dev/null; echo 11"])
        self.assertIn("batch 1 (one setting), through places:\nplaces, two bytes: 000e\nsettings in hex:\n", str(refused.exception))
        self.assertIn("first difference at the line of the refusal:\n  proved: 0\n  second: 11", str(refused.exception))

    def test_reports_that_show_too_little(self):
        alike = ["sh", "-c", "cat >/dev/null; echo 10"]
        with self.assertRaises(Unfit) as refused:
            CHECK_LINKED["compare_places"](alike, alike)
        self.assertIn("the reports no longer show a report that ends with 0 (done)", str(refused.exception))


if __name__ == "__main__":
    unittest.main()
