//! However the bytes are cut, the closed line has done what one replay of the
//! joined bytes does.

use second::{replay, Bench, Ending};

use crate::line::{call, fresh_line};
use crate::replay::{batch, Dice};

/// The batch with one to three bytes of another record after it, or none.
fn batch_and(extra: usize) -> Vec<u8> {
    [&batch()[..], &[3, 0, 5][..extra]].concat()
}

/// Puts the cuts through a line, each with just the room for the answers it can
/// give, and compares answers, chips and ending with those of a replay.
fn equals_one_replay(cuts: &[&[u8]]) {
    let joined = cuts.concat();
    let mut whole = vec![0; joined.len() / 4 * 8];
    let replayed = replay(Bench::fresh(), &joined, &mut whole);
    assert_ne!(replayed.ending, Ending::OutputFull);

    let mut line = fresh_line();
    let mut answers = Vec::new();
    let mut arrived = 0;
    for cut in cuts {
        let records = (arrived + cut.len()) / 4 - arrived / 4;
        let (told, output) = call(&mut line, cut, 8 * records);
        assert_eq!(told, (0, cut.len(), records));
        answers.extend(output);
        arrived += cut.len();
        assert_eq!(line.held(), &joined[arrived / 4 * 4..arrived]);
    }
    assert_eq!(line.close().number(), replayed.ending.number());
    assert_eq!(*line.bench(), replayed.bench);
    assert_eq!(answers, whole);
    assert_eq!(line.held(), &joined[replayed.bytes_taken..]);
}

#[test]
fn no_cut_at_all_and_one_whole_cut() {
    equals_one_replay(&[]);
    for extra in 0..4 {
        equals_one_replay(&[&batch_and(extra)]);
    }
}

#[test]
fn every_split_into_two_cuts() {
    for extra in 0..4 {
        let bytes = batch_and(extra);
        for place in 0..=bytes.len() {
            let (before, after) = bytes.split_at(place);
            equals_one_replay(&[before, after]);
            equals_one_replay(&[&[], before, &[], &[], after, &[]]);
        }
    }
}

#[test]
fn single_bytes() {
    for extra in 0..4 {
        let bytes = batch_and(extra);
        let cuts: Vec<&[u8]> = bytes.chunks(1).collect();
        equals_one_replay(&cuts);
    }
}

#[test]
fn cuts_of_every_one_length() {
    for extra in 0..4 {
        let bytes = batch_and(extra);
        for length in 1..=bytes.len() {
            let cuts: Vec<&[u8]> = bytes.chunks(length).collect();
            equals_one_replay(&cuts);
        }
    }
}

#[test]
fn every_split_of_three_records_into_three_cuts() {
    let bytes = [[3, 0, 1, 0], [7, 0, 1, 0], [6, 0xA0, 0, 1]].concat();
    for first in 0..=bytes.len() {
        for second in first..=bytes.len() {
            equals_one_replay(&[&bytes[..first], &bytes[first..second], &bytes[second..]]);
        }
    }
}

#[test]
fn any_bytes_cut_by_lot() {
    let mut dice = Dice(3);
    for _ in 0..300 {
        let length = dice.below(120);
        let mut bytes: Vec<u8> = (0..length).map(|_| dice.below(3) as u8).collect();
        for kind in bytes.iter_mut().step_by(4) {
            *kind = dice.below(11) as u8;
        }
        let mut cuts = Vec::new();
        let mut rest = &bytes[..];
        while !rest.is_empty() {
            let place = dice.below(10).min(rest.len() as u64) as usize;
            let (cut, later) = rest.split_at(place);
            cuts.push(cut);
            rest = later;
        }
        equals_one_replay(&cuts);
    }
}
