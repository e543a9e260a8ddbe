//! Endings, counts and lent buffers of a whole replay.

use second::{replay, unread_rest, Bench, Ending};

use crate::trial::SETTING_A;

const UNTOUCHED: u8 = 0xEE;

/// Records that move both chips: setting A, then a little of everything.
pub fn batch() -> Vec<u8> {
    let mut records = Vec::new();
    for (register, value) in SETTING_A {
        records.extend([1, 0, 0, register, 1, 0, 1, value]);
    }
    let more: [[u8; 4]; 8] = [
        [5, 0, 0, 0],
        [3, 0, 9, 0],
        [4, 0, 0, 0],
        [9, 0, 0, 0],
        [6, 0xFF, 0xC1, 0],
        [7, 1, 2, 0],
        [8, 0, 0, 1],
        [0, 1, 2, 3],
    ];
    records.extend(more.concat());
    records
}

#[test]
fn an_empty_batch_ends_with_0_even_without_room() {
    let replayed = replay(Bench::fresh(), &[], &mut []);
    assert_eq!(
        (replayed.ending, replayed.ending.number()),
        (Ending::BatchEmpty, 0)
    );
    assert_eq!((replayed.bytes_taken, replayed.answers_written), (0, 0));
    assert_eq!(replayed.bench, Bench::fresh());
}

#[test]
fn one_to_three_bytes_end_with_3_before_they_are_taken() {
    for extra in 1..4 {
        let whole = [3, 0, 5, 0];
        let bytes = [&whole[..], &[255; 3][..extra]].concat();
        let mut output = [UNTOUCHED; 24];
        let replayed = replay(Bench::fresh(), &bytes, &mut output);
        assert_eq!(
            (replayed.ending, replayed.ending.number()),
            (Ending::BrokenRecord, 3)
        );
        assert_eq!((replayed.bytes_taken, replayed.answers_written), (4, 1));
        assert_eq!(output[8..], [UNTOUCHED; 16]);
        assert_eq!(
            replayed.bench,
            replay(Bench::fresh(), &whole, &mut output).bench
        );
    }
}

#[test]
fn ending_3_comes_before_ending_4() {
    for length in 1..4 {
        let replayed = replay(Bench::fresh(), &[3, 0, 5][..length], &mut []);
        assert_eq!(replayed.ending, Ending::BrokenRecord);
    }
}

#[test]
fn ending_4_comes_before_an_unknown_kind_and_a_bad_field() {
    for record in [[0, 0, 0, 0], [4, 1, 1, 1], [9, 0, 0, 0], [3, 0, 1, 0]] {
        for room in 0..8 {
            let mut output = vec![UNTOUCHED; room];
            let replayed = replay(Bench::fresh(), &record, &mut output);
            assert_eq!(
                (replayed.ending, replayed.ending.number()),
                (Ending::OutputFull, 4)
            );
            assert_eq!((replayed.bytes_taken, replayed.answers_written), (0, 0));
            assert_eq!(replayed.bench, Bench::fresh());
            assert_eq!(output, vec![UNTOUCHED; room]);
        }
    }
}

#[test]
fn room_for_some_answers_gives_just_those_and_leaves_the_rest_untouched() {
    let batch = batch();
    let records = batch.len() / 4;
    let mut whole = vec![UNTOUCHED; 8 * records];
    assert_eq!(
        replay(Bench::fresh(), &batch, &mut whole).ending,
        Ending::BatchEmpty
    );
    for room in 0..8 * records + 20 {
        let mut output = vec![UNTOUCHED; room];
        let replayed = replay(Bench::fresh(), &batch, &mut output);
        let answers = (room / 8).min(records);
        let full = answers < records;
        assert_eq!(
            replayed.ending,
            if full {
                Ending::OutputFull
            } else {
                Ending::BatchEmpty
            }
        );
        assert_eq!(
            (replayed.bytes_taken, replayed.answers_written),
            (4 * answers, answers)
        );
        assert_eq!(output[..8 * answers], whole[..8 * answers]);
        assert!(output[8 * answers..].iter().all(|byte| *byte == UNTOUCHED));
    }
}

#[test]
fn a_replay_taken_up_again_on_the_unread_rest_goes_on_as_if_unbroken() {
    let batch = batch();
    let mut whole = vec![0; 2 * batch.len()];
    let unbroken = replay(Bench::fresh(), &batch, &mut whole);
    for answers in 0..=batch.len() / 4 {
        let (mut before, mut after) =
            (vec![0; 8 * answers], vec![0; 2 * batch.len() - 8 * answers]);
        let first = replay(Bench::fresh(), &batch, &mut before);
        let second = replay(
            first.bench,
            unread_rest(&batch, first.bytes_taken),
            &mut after,
        );
        assert_eq!(second.bench, unbroken.bench);
        assert_eq!(second.ending, Ending::BatchEmpty);
        assert_eq!([before, after].concat(), whole);
    }
}

#[test]
fn the_unread_rest_is_the_tail_of_the_batch_itself() {
    let batch = [1, 2, 3, 4, 5];
    for taken in 0..=5 {
        let rest = unread_rest(&batch, taken);
        assert_eq!(rest, &batch[taken..]);
        assert_eq!(rest.as_ptr(), batch[taken..].as_ptr());
    }
    for taken in [6, 7, 1_000, usize::MAX] {
        let rest = unread_rest(&batch, taken);
        assert!(rest.is_empty());
        assert_eq!(rest.as_ptr(), batch[5..].as_ptr());
    }
    assert!(unread_rest(&[], 1).is_empty());
}

/// A plain pseudo-random sequence; the same at every run.
pub struct Dice(pub u64);

impl Dice {
    pub fn below(&mut self, limit: u64) -> u64 {
        self.0 = self
            .0
            .wrapping_mul(6364136223846793005)
            .wrapping_add(1442695040888963407);
        (self.0 >> 33) % limit
    }
}

#[test]
fn damaged_batches_of_every_sort_get_their_answers() {
    let mut dice = Dice(1);
    for _ in 0..400 {
        let length = dice.below(400) as usize;
        let mut bytes: Vec<u8> = (0..length).map(|_| dice.below(256) as u8).collect();
        for record in bytes.chunks_mut(4) {
            record[0] = dice.below(12) as u8;
            if dice.below(4) > 0 && record.len() == 4 {
                record[1] = 0;
                record[2] = dice.below(2) as u8;
                record[3] = if record[0] == 1 {
                    record[3]
                } else {
                    dice.below(2) as u8
                };
            }
        }
        let mut output = vec![UNTOUCHED; 8 * (length / 4)];
        let replayed = replay(Bench::fresh(), &bytes, &mut output);
        let expected = if length & 3 == 0 {
            Ending::BatchEmpty
        } else {
            Ending::BrokenRecord
        };
        assert_eq!(replayed.ending, expected);
        assert_eq!(
            (replayed.bytes_taken, replayed.answers_written),
            (length / 4 * 4, length / 4)
        );
        for (record, answer) in bytes.chunks_exact(4).zip(output.chunks_exact(8)) {
            assert_eq!(record[0], answer[0]);
            assert!([0, 1, 2, 5, 6, 7, 8].contains(&answer[1]));
            assert!(answer[1] == 0 || answer[2..] == [0; 6]);
        }
    }
}
