"""What the batches are made from: the seeds, the shares, the corners and the settings."""
import collections
import random
import unittest

from batches import DEAL, SHARES, SORT_NAMES, make_batch, settings
from batches.controller import cell_address, cell_cut_off, frame_length
from batches.seeds import FIXED_SEED, OF_COMMIT, WHOLE_RUN, seeds_of, share
from compared import COUNTS, LISTING, PROGRAMS, ROOMS
from records import (
    KEPT_BITS, MOST_BATCH_BYTES, MOST_SETTINGS, SETTING_BYTES, are_settings, clocks, fetches, is_allowed, locate, put, read, records_of,
    reset_controller, select, settings_of, strike,
)

COMMIT = "0000199101234567" + 24 * "f"
SEEDS = (FIXED_SEED, 1, 2)  # as many as a whole run has
BATCHES = range(1, share(WHOLE_RUN, 1 + OF_COMMIT) + 1)
LARGEST = 1056512  # character times of the largest frame
MOST_TIMES = 15_000_000  # that the gate can spend on counting: under the emulator a million takes some 40 ms
REFUSED = (settings.no_settings, settings.cut_settings, settings.too_many_settings)
OFTEN = 10


class Batches(unittest.TestCase):
    """A run of one seed, as the gate has it."""

    def test_a_run_of_a_seed_has_each_sort_by_its_share(self):
        self.assertEqual(len(DEAL), sum(share_of for shares in SHARES.values() for share_of in shares.values()))
        self.assertEqual(len(BATCHES) % len(DEAL), 0)

    def test_a_whole_run_has_as_many_batches_and_settings_as_ever(self):
        times = WHOLE_RUN // len(DEAL)
        self.assertEqual([times * sum(SHARES[program].values()) for program in (LISTING, ROOMS, COUNTS)], [516, 84, 150])

    def test_each_program_has_batches(self):
        self.assertEqual(set(SHARES), set(PROGRAMS))
        self.assertEqual({make_batch(FIXED_SEED, number).program for number in BATCHES}, set(PROGRAMS))

    def test_each_sort_is_of_one_program(self):
        self.assertEqual(len(set(SORT_NAMES)), len(SORT_NAMES))

    def test_each_sort_comes_in_a_run_of_the_fixed_seed(self):
        self.assertEqual({make_batch(FIXED_SEED, number).sort for number in BATCHES}, set(SORT_NAMES))

    def test_a_batch_follows_from_its_seed_and_its_number(self):
        self.assertEqual(make_batch(1, 7), make_batch(1, 7))
        self.assertNotEqual(make_batch(1, 7).input, make_batch(2, 7).input)

    def test_the_seeds_of_a_commit_are_its_first_digits(self):
        self.assertEqual(seeds_of(COMMIT), [0x00001991, 0x01234567])

    def test_a_whole_run_is_shared_among_its_seeds(self):
        self.assertEqual([share(600, 1), share(600, 3), share(7, 3)], [600, 200, 3])

    def test_the_greatest_counts_come_often(self):
        inputs = [make_batch(FIXED_SEED, number).input for number in BATCHES]
        for most in (clocks(65535), fetches(65535)):
            self.assertGreaterEqual(sum(most in given for given in inputs), 4)

    def test_each_of_the_32_names_is_read_often_with_a_strike_unread_and_without(self):
        reads = collections.Counter(one for number in BATCHES for one in reads_of(make_batch(FIXED_SEED, number)))
        for name in range(32):
            self.assertGreaterEqual(reads[name, True], OFTEN, f"R{name} after a strike")
            self.assertGreaterEqual(reads[name, False], OFTEN, f"R{name} before one")

    def test_a_struck_cell_is_cut_off_by_the_ends_of_line_and_frame(self):
        cut = [put(0, 1), locate(), put(0, 5), put(4, 0), locate(), put(4, 3), locate()]
        self.assertEqual(cell_cut_off({0: 5, 4: 3}, 1, 2), b"".join(cut))
        self.assertEqual(cell_cut_off({0: 5, 4: 3}, 0, 0), locate())


def reads_of(batch):
    """The register reads that the listing answers in a batch: each with the name, and whether a strike waits to be read."""
    named, waits = 0, False
    answered = batch.program is LISTING and len(batch.input) <= MOST_BATCH_BYTES
    for one in filter(is_allowed, records_of(batch.input) if answered else ()):
        if one == read():
            yield named, waits
        if one in (read(), reset_controller()):
            waits = waits and one == read() and named not in (16, 17)
        elif one == strike():
            waits = True
        elif one[:3] == select(0)[:3]:
            named = one[3] % 32


def registers_of(setting):
    """What the registers keep of a setting."""
    return {register: byte & KEPT_BITS.get(register, 255) for register, byte in enumerate(setting)}


def ends_in_picture(r):
    """Whether the last character of the frame is in the picture."""
    return r[5] == 0 and r[4] < r[6] and r[0] < r[1]


def lines_after_vsync(r):
    """The lines of the frame from the row on at which VSYNC begins."""
    return (r[4] + 1 - r[7]) * (r[9] + 1) + r[5]


def wraps(r):
    """Whether the addresses of the picture pass the last one, or by rows the end of a row or the last row."""
    if r[8] & 4:
        return r[13] + r[0] > 255 or r[12] + r[4] > 63
    return 256 * r[12] + r[13] + r[4] * r[1] + r[0] > 16383


def cursor_cells(r):
    """The cells of the picture that have the cursor's address."""
    return [(row, column) for row in range(min(r[6], r[4] + 1)) for column in range(min(r[1], r[0] + 1))
            if cell_address(r, row, column) == 256 * r[14] + r[15]]


# What the settings of a run have to show, and how it is seen in their registers.
SHOWN = {
    "display enable late": lambda r: r[8] & 16,
    "the cursor late": lambda r: r[8] & 32,
    "display enable late where the frame ends in the picture": lambda r: r[8] & 16 and ends_in_picture(r),
    "the cursor late where it is at the frame's last character":
        lambda r: r[8] & 32 and ends_in_picture(r) and (r[4], r[0]) in cursor_cells(r),
    "addressing by rows": lambda r: r[8] & 4,
    "addresses that wrap": lambda r: not r[8] & 4 and wraps(r),
    "addresses by rows that wrap": lambda r: r[8] & 4 and wraps(r),
    **{f"a cursor in the picture with blink {blink}":
       lambda r, blink=blink: r[10] >> 5 == blink and cursor_cells(r) for blink in range(4)},
    "a cursor on some of a row's lines": lambda r: cursor_cells(r) and 0 < r[10] % 32 <= r[11] < r[9],
    "a cursor on no line": lambda r: cursor_cells(r) and r[10] % 32 > r[11],
    "a cursor outside the picture": lambda r: not cursor_cells(r),
    "HSYNC longer than a line": lambda r: r[2] <= r[0] and r[3] % 16 > r[0] + 1,
    "HSYNC over the end of a line": lambda r: r[2] <= r[0] < r[2] + r[3] % 16 - 1 < 2 * r[0],
    "VSYNC over the end of the frame": lambda r: r[7] <= r[4] and (r[3] >> 4 or 16) > lines_after_vsync(r),
    "HSYNC out of reach": lambda r: r[2] > r[0],
    "VSYNC out of reach": lambda r: r[7] > r[4],
    "a picture wider than a line": lambda r: r[1] > r[0] + 1,
    "a picture higher than the frame": lambda r: r[6] > r[4] + 1,
    "no column in the picture": lambda r: r[1] == 0,
    "no row in the picture": lambda r: r[6] == 0,
    "no adjust line": lambda r: r[5] == 0,
    "adjust lines": lambda r: r[5] not in (0, 31),
    "as many adjust lines as there can be": lambda r: r[5] == 31,
    "a middling frame": lambda r: 10_000 < frame_length(r) < 100_000,
    "a frame of one character": lambda r: frame_length(r) == 1,
}


class Settings(unittest.TestCase):
    """The settings of a whole run."""

    @classmethod
    def setUpClass(cls):
        batches = [make_batch(seed, number) for seed in SEEDS for number in BATCHES]
        cls.inputs = [batch.input for batch in batches if batch.program is COUNTS]
        cls.good = [given for given in cls.inputs if are_settings(given)]
        cls.settings = [setting for given in cls.good for setting in settings_of(given)]
        cls.registers = [registers_of(setting) for setting in cls.settings]

    def test_hundreds_of_settings_are_counted(self):
        self.assertGreater(len(set(self.settings)), 500)

    def test_they_show_all_that_can_go_wrong(self):
        for what, is_shown in SHOWN.items():
            with self.subTest(what):
                self.assertGreaterEqual(sum(bool(is_shown(registers)) for registers in self.registers), OFTEN)

    def test_many_are_wider_than_their_registers(self):
        wide = [setting for setting, registers in zip(self.settings, self.registers) if bytes(registers.values()) != setting]
        self.assertGreater(len(wide), 3 * OFTEN)

    def test_the_largest_frame_comes_once(self):
        self.assertEqual([frame_length(registers) for registers in self.registers].count(LARGEST), 1)
        self.assertEqual(self.settings.count(bytes((255,)) * SETTING_BYTES), 1)

    def test_they_take_no_longer_than_the_gate_can_spend(self):
        self.assertLess(sum(frame_length(registers) for registers in self.registers), MOST_TIMES)

    def test_reports_are_done_and_refused_often(self):
        self.assertGreater(len(self.good), 5 * OFTEN)
        self.assertGreater(len(self.inputs) - len(self.good), 2 * OFTEN)

    def test_inputs_at_their_greatest_length_and_past_it(self):
        lengths = [len(given) for given in self.inputs]
        most = MOST_SETTINGS * SETTING_BYTES
        for length in (0, SETTING_BYTES, most, most + 1, most + SETTING_BYTES):
            with self.subTest(length):
                self.assertGreaterEqual(lengths.count(length), 2)


# What most settings of a making show.
MOSTLY = {
    settings.middle_setting: lambda r: 3_000 < frame_length(r) < 100_000,
    settings.late_setting: lambda r: r[8] & 48,
    settings.wrapping_setting: wraps,
    settings.cursor_setting: cursor_cells,
    settings.outside_setting: lambda r: not cursor_cells(r),
    settings.sync_setting: lambda r: r[3] % 16 > r[0] or (r[3] >> 4 or 16) > (r[4] + 1) * (r[9] + 1) + r[5],
    settings.beyond_setting: lambda r: r[1] > r[0] + 1 or r[6] > r[4] + 1,
}


class SortsOfSettings(unittest.TestCase):
    """Each sort by itself, many times."""

    def test_most_settings_of_a_making_show_what_it_is_for(self):
        for make, is_shown in MOSTLY.items():
            with self.subTest(make.__name__):
                made = [registers_of(settings.packed(make(random.Random(seed)))) for seed in range(60)]
                self.assertGreater(sum(bool(is_shown(registers)) for registers in made), 30)

    def test_what_is_refused_and_what_is_not(self):
        for sort in (*SHARES[COUNTS], settings.largest_frame):
            for seed in range(60):
                with self.subTest(sort.__name__, seed=seed):
                    self.assertEqual(are_settings(sort(random.Random(seed))), sort not in REFUSED)

    def test_small_frames_are_small(self):
        for make in settings.SMALL_MAKERS:
            for seed in range(60):
                with self.subTest(make.__name__, seed=seed):
                    setting = settings.packed(make(random.Random(seed)))
                    self.assertEqual(len(setting), SETTING_BYTES)
                    self.assertLess(frame_length(registers_of(setting)), 4000)


if __name__ == "__main__":
    unittest.main()
