"""The batches for the serial line, the pieces in which they come off it, and the lists of calls."""
import collections
import functools
import random
import unittest

from batches import DEAL, SHARES, Batch, cuts, make_batch
from batches.pieces import plan_for
from batches.seeds import FIXED_SEED, OF_COMMIT, WHOLE_RUN, share
from compared import CUTS, SERIAL
from compared.calls import CLOSING, calls_of, first_call
from records import ANSWER_BYTES, MOST_BATCH_BYTES, RECORD_BYTES

SEEDS = (FIXED_SEED, 1, 2)  # as many as a whole run has
BATCHES = range(1, share(WHOLE_RUN, 1 + OF_COMMIT) + 1)
# The sorts that are no lists, each with how that is seen in the bytes and in what follows the last call that is one.
NO_LISTS = {
    cuts.bytes_between_calls: lambda given, rest: rest[0] not in (1, 2) and calls_of(given.removesuffix(rest) + rest[1:]) is not None,
    cuts.calls_of_no_kind: lambda given, rest: rest[0] not in (1, 2),
    cuts.heads_broken_off: lambda given, rest: rest[0] == 1 and len(rest) < 5,
    cuts.cuts_broken_off: lambda given, rest: rest[0] == 1 and 5 <= len(rest) < 5 + int.from_bytes(rest[3:5], "big"),
    cuts.lists_too_long: lambda given, rest: not rest and len(given) > 4096,
}
TAKEN_WHOLE = (cuts.cuts_with_room, cuts.cuts_handed_again, cuts.byte_by_byte)
OFTEN = 10


@functools.cache
def batches_of(program):
    """The batches of a program in a whole run."""
    numbers = [number for number in BATCHES if DEAL[(number - 1) % len(DEAL)][1] is program]
    return [make_batch(seed, number) for seed in SEEDS for number in numbers]


class OffTheLine(unittest.TestCase):
    """What comes off the line in a run."""

    def test_empty_short_long_and_much_longer_batches(self):
        lengths = [len(batch.input) for batch in batches_of(SERIAL)]
        self.assertGreaterEqual(lengths.count(0), 3)
        self.assertGreater(sum(0 < length <= MOST_BATCH_BYTES for length in lengths), 2 * OFTEN)
        self.assertGreaterEqual(sum(length > MOST_BATCH_BYTES for length in lengths), OFTEN)
        self.assertGreater(max(lengths), 12_000)
        self.assertLessEqual(max(lengths), 20_000)

    def test_whole_records_and_some_bytes_more(self):
        rests = collections.Counter(len(batch.input) % RECORD_BYTES for batch in batches_of(SERIAL))
        self.assertEqual([rests[rest] > 0 for rest in range(RECORD_BYTES)], 4 * [True])
        self.assertGreater(rests[0], OFTEN)


class Pieces(unittest.TestCase):
    """How the batches of a run are cut."""

    @classmethod
    def setUpClass(cls):
        cls.batches = batches_of(SERIAL)
        cls.plans = [(batch, plan_for(batch, reader)) for batch in cls.batches for reader in ("proved", "second")]

    def ends(self, batch, plan):
        """The places behind the pieces, but for the batch's end."""
        places = [0]
        for piece in plan.pieces:
            places.append(places[-1] + len(piece))
        return places[1:-1]

    def test_they_are_the_batch_and_none_is_empty(self):
        for batch, plan in self.plans:
            self.assertEqual(b"".join(plan.pieces), batch.input)
            self.assertNotIn(b"", plan.pieces)

    def test_they_follow_from_seed_number_and_reader(self):
        given = bytes(400)
        batch = Batch(7, "some sort", SERIAL, given, 5)
        self.assertEqual(plan_for(batch, "proved"), plan_for(Batch(7, "another", SERIAL, given, 5), "proved"))
        others = [plan_for(batch._replace(seed=6), "proved"), plan_for(batch._replace(number=8), "proved"), plan_for(batch, "second")]
        self.assertNotIn(plan_for(batch, "proved"), others)

    def test_a_batch_of_a_run_knows_its_seed(self):
        self.assertEqual({batch.seed for batch in self.batches}, set(SEEDS))

    def test_cuts_at_each_place_of_a_record(self):
        ends = collections.Counter(end % RECORD_BYTES for batch, plan in self.plans for end in self.ends(batch, plan))
        for place in range(RECORD_BYTES):
            self.assertGreater(ends[place], 10 * OFTEN)

    def test_single_bytes_and_pieces_longer_than_a_read(self):
        lengths = [len(piece) for _batch, plan in self.plans for piece in plan.pieces]
        self.assertGreater(lengths.count(1), 50 * OFTEN)
        self.assertGreater(sum(length > 256 for length in lengths), 3 * OFTEN)

    def test_a_record_whose_four_bytes_come_one_by_one(self):
        alone = [end for batch, plan in self.plans for end in set(self.ends(batch, plan))
                 if end % RECORD_BYTES == 0 and {end + 1, end + 2, end + 3, end + 4} <= set(self.ends(batch, plan))]
        self.assertGreater(len(alone), OFTEN)

    def test_a_few_pauses(self):
        pauses = [len(plan.pauses) for _batch, plan in self.plans]
        self.assertGreater(sum(pauses), 10 * OFTEN)
        self.assertLessEqual(max(pauses), 6)
        for _batch, plan in self.plans:
            self.assertLessEqual(plan.pauses, set(range(len(plan.pieces))))


def endings(calls):
    """The endings that calls on a line have to have, by their numbers alone, and how many answers each gives."""
    held, closed = 0, False
    for call in calls:
        come, fit = held + len(call.cut), call.room // ANSWER_BYTES
        if closed:
            yield 12, 0
        elif call.written == CLOSING:
            closed = True
            yield 3 if held else 0, 0
        elif come // RECORD_BYTES <= fit:
            held = come % RECORD_BYTES
            yield 0, come // RECORD_BYTES
        else:
            held = 0 if fit else held
            yield 4, fit


class Lists(unittest.TestCase):
    """The lists of calls of a whole run."""

    @classmethod
    def setUpClass(cls):
        cls.lists = [calls for calls in (calls_of(batch.input) for batch in batches_of(CUTS)) if calls is not None]
        cls.calls = [call for calls in cls.lists for call in calls]

    def test_each_ending_comes_often(self):
        seen = collections.Counter(ending for calls in self.lists for ending, _answers in endings(calls))
        for ending in (0, 3, 4, 12):
            self.assertGreater(seen[ending], 2 * OFTEN, f"ending {ending}")
        self.assertGreater(len(batches_of(CUTS)) - len(self.lists), 2 * OFTEN)

    def test_each_ending_comes_with_the_fixed_seed_alone(self):
        lists = [calls_of(batch.input) or [] for batch in batches_of(CUTS) if batch.seed == FIXED_SEED]
        self.assertEqual({ending for calls in lists for ending, _answers in endings(calls)}, {0, 3, 4, 12})

    def test_calls_without_room_that_have_given_answers_and_that_have_not(self):
        answers = [answers for calls in self.lists for ending, answers in endings(calls) if ending == 4]
        self.assertGreater(sum(count > 0 for count in answers), 5 * OFTEN)
        self.assertGreater(answers.count(0), 5 * OFTEN)

    def test_closed_lines_are_called_with_and_without_room_with_empty_cuts_and_closed_again(self):
        late = [call for calls in self.lists for call, (ending, _answers) in zip(calls, endings(calls)) if ending == 12]
        for what, count in (("closings", sum(call.written == CLOSING for call in late)),
                            ("cuts with room", sum(call.room >= ANSWER_BYTES and len(call.cut) >= RECORD_BYTES for call in late)),
                            ("cuts without room", sum(call.room < ANSWER_BYTES and len(call.cut) >= RECORD_BYTES for call in late)),
                            ("empty cuts", sum(not call.cut and call.written != CLOSING for call in late))):
            self.assertGreaterEqual(count, OFTEN, what)

    def test_lines_are_closed_at_the_end_in_the_middle_and_never(self):
        lists = [[call.written for call in calls] for calls in self.lists]
        self.assertGreater(sum(calls[-1:] == [CLOSING] for calls in lists), 3 * OFTEN)
        self.assertGreaterEqual(sum(CLOSING in calls[3:-3] for calls in lists), OFTEN // 2)
        self.assertGreater(sum(CLOSING not in calls for calls in lists), OFTEN)

    def test_cuts_of_all_lengths(self):
        lengths = collections.Counter(len(call.cut) for call in self.calls if call.written != CLOSING)
        for length in range(6):
            self.assertGreater(lengths[length], 3 * OFTEN, f"{length} bytes")
        self.assertGreater(sum(count for length, count in lengths.items() if length > 100), OFTEN)
        self.assertIn(4091, lengths)

    def test_rooms_above_the_most_just_that_and_a_byte_less(self):
        rooms = collections.Counter(int.from_bytes(call.written[1:3], "big") for call in self.calls if call.written != CLOSING)
        for room in (0, 7, 8, 8191, 8192, 8193, 65535):
            self.assertGreater(rooms[room], 0, f"room {room}")


def behind_the_calls(given):
    """What follows the last whole call of some bytes, however many there are."""
    while given and first_call(given):
        given = given[len(first_call(given).written):]
    return given


class Sorts(unittest.TestCase):
    """Each sort of lists by itself, many times."""

    def test_what_is_a_list_and_what_is_none(self):
        for sort in SHARES[CUTS]:
            for seed in range(60):
                with self.subTest(sort.__name__, seed=seed):
                    self.assertEqual(calls_of(sort(random.Random(seed))) is None, sort in NO_LISTS)

    def test_why_they_are_none(self):
        for sort, is_so in NO_LISTS.items():
            for seed in range(60):
                given = sort(random.Random(seed))
                with self.subTest(sort.__name__, seed=seed):
                    self.assertTrue(is_so(given, behind_the_calls(given)))

    def test_what_is_handed_over_again_is_all_taken(self):
        for sort in TAKEN_WHOLE:
            for seed in range(30):
                calls = calls_of(sort(random.Random(seed)))
                with self.subTest(sort.__name__, seed=seed):
                    self.assertEqual(calls[-1].written, CLOSING)
                    self.assertEqual(joined(calls[:-1]), self.batch_of(sort, seed)[:len(joined(calls[:-1]))])

    def batch_of(self, sort, seed):
        """The batch that a list of a sort hands over."""
        return cuts.some_batch(random.Random(seed), 400) if sort is cuts.byte_by_byte else cuts.some_batch(random.Random(seed))

    def test_the_longest_lists_have_as_many_bytes_as_there_can_be(self):
        self.assertEqual({len(cuts.longest_lists(random.Random(seed))) for seed in range(60)}, {4096})

    def test_lists_with_room_never_lack_it(self):
        for seed in range(60):
            seen = {ending for ending, _answers in endings(calls_of(cuts.cuts_with_room(random.Random(seed))))}
            self.assertLessEqual(seen, {0, 3})


def joined(calls):
    """The bytes that a line has taken of calls with cuts."""
    taken, held = b"", 0
    for call, (ending, answers) in zip(calls, endings(calls)):
        count = len(call.cut) if ending == 0 else max(RECORD_BYTES * answers - held, 0)
        taken += call.cut[:count]
        held = (held + count) % RECORD_BYTES
    return taken


if __name__ == "__main__":
    unittest.main()
