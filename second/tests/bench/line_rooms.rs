//! Calls on a line that have too little room and are made again with the rest.

use second::{replay, unread_rest, Bench, Line};

use crate::line::{call, fresh_line, UNTOUCHED};
use crate::replay::batch;

/// What a call on the open line tells, reckoned from lengths alone: as many
/// answers as there are records and as the room takes.
fn due(held: usize, cut: usize, room: usize) -> (u8, usize, usize) {
    let records = (held + cut) / 4;
    let answers = records.min(room / 8);
    if answers == records {
        (0, cut, answers)
    } else if answers == 0 {
        (4, 0, 0)
    } else {
        (4, 4 * answers - held, answers)
    }
}

/// One call, seen to tell what is due and to leave the output past its answers
/// alone. Gives bytes taken and the answers.
fn seen_call(line: &mut Line, cut: &[u8], room: usize) -> (usize, Vec<u8>) {
    let due = due(line.held().len(), cut.len(), room);
    let before = line.clone();
    let (told, mut output) = call(line, cut, room);
    assert_eq!(told, due, "cut {} room {room}", cut.len());
    let (ending, taken, answers) = told;
    if answers == 0 && ending == 4 {
        assert_eq!(*line, before);
    }
    let untouched = output.split_off(8 * answers);
    assert!(untouched.iter().all(|byte| *byte == UNTOUCHED));
    (taken, output)
}

/// Calls with the rest again and again until the cut is taken whole. A call that
/// could give no answer is first tried twice and then given room for one.
fn take_whole(line: &mut Line, cut: &[u8], room: usize) -> Vec<u8> {
    let mut answers = Vec::new();
    let mut rest = cut;
    while !rest.is_empty() {
        let (mut taken, mut given) = seen_call(line, rest, room);
        if taken == 0 {
            assert_eq!(seen_call(line, rest, room), (0, Vec::new()));
            (taken, given) = seen_call(line, rest, room.max(8));
        }
        assert!(taken > 0);
        answers.extend(given);
        rest = unread_rest(rest, taken);
    }
    answers
}

#[test]
fn rooms_0_to_40_with_cuts_of_many_lengths() {
    for extra in 0..4 {
        let bytes = [&batch()[..], &[3, 0, 5][..extra]].concat();
        let mut whole = vec![0; bytes.len() / 4 * 8];
        let replayed = replay(Bench::fresh(), &bytes, &mut whole);
        for room in 0..=40 {
            for length in [1, 2, 3, 4, 5, 6, 7, 8, 9, 11, 13, 16, 31, 83] {
                let mut line = fresh_line();
                let mut answers = Vec::new();
                for cut in bytes.chunks(length) {
                    answers.extend(take_whole(&mut line, cut, room));
                }
                assert_eq!(line.close().number(), replayed.ending.number());
                assert_eq!(*line.bench(), replayed.bench);
                assert_eq!(answers, whole);
            }
        }
    }
}

#[test]
fn every_split_into_two_cuts_with_rooms_0_to_40() {
    let bytes = [&batch()[48..], &[3, 0]].concat();
    let mut whole = vec![0; bytes.len() / 4 * 8];
    let replayed = replay(Bench::fresh(), &bytes, &mut whole);
    for room in 0..=40 {
        for place in 0..=bytes.len() {
            let (before, after) = bytes.split_at(place);
            let mut line = fresh_line();
            let mut answers = take_whole(&mut line, before, room);
            answers.extend(take_whole(&mut line, after, room));
            assert_eq!(line.close().number(), 3);
            assert_eq!(*line.bench(), replayed.bench);
            assert_eq!(answers, whole);
        }
    }
}

#[test]
fn the_bytes_due_are_those_of_the_records_answered() {
    assert_eq!(due(0, 10, 8), (4, 4, 1));
    assert_eq!(due(3, 10, 8), (4, 1, 1));
    assert_eq!(due(3, 10, 23), (4, 5, 2));
    assert_eq!(due(3, 10, 24), (0, 10, 3));
    assert_eq!(due(3, 1, 7), (4, 0, 0));
    assert_eq!(due(2, 1, 0), (0, 1, 0));
}
