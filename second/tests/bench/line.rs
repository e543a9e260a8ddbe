//! Single calls on a line, at their edges.

use second::{replay, Bench, CutTaken, Line, LineEnding};

use crate::room::{CLOCK, FETCH};
use crate::trial::{Trial, SETTING_A};

pub const UNTOUCHED: u8 = 0xEE;

/// The answer to a character clock on the fresh chip: VSYNC is high.
const CLOCKED: [u8; 8] = [3, 0, 0, 0, 0, 0x10, 0, 0];

pub fn fresh_line() -> Line {
    Line::open(Bench::fresh())
}

/// A line on moved chips that holds these bytes.
fn line_holding(bytes: &[u8]) -> Line {
    let mut trial = Trial::with(&SETTING_A);
    trial.clocks(9);
    trial.fetch(77);
    let mut line = Line::open(trial.bench);
    let taken = line.take_cut(bytes, &mut []);
    assert_eq!(told(taken), (0, bytes.len(), 0));
    line
}

/// Ending number, bytes taken and answers written.
pub fn told(taken: CutTaken) -> (u8, usize, usize) {
    (
        taken.ending.number(),
        taken.bytes_taken,
        taken.answers_written,
    )
}

/// A call with an output of this room: what it tells, and the whole output.
pub fn call(line: &mut Line, cut: &[u8], room: usize) -> ((u8, usize, usize), Vec<u8>) {
    let mut output = vec![UNTOUCHED; room];
    let taken = line.take_cut(cut, &mut output);
    (told(taken), output)
}

/// What was written, then as many untouched bytes as the room has left.
fn written_then_untouched(written: &[u8], room: usize) -> Vec<u8> {
    let mut output = vec![UNTOUCHED; room];
    output[..written.len()].copy_from_slice(written);
    output
}

#[test]
fn each_ending_has_its_number() {
    assert_eq!(LineEnding::Done.number(), 0);
    assert_eq!(LineEnding::BrokenRecord.number(), 3);
    assert_eq!(LineEnding::OutputFull.number(), 4);
    assert_eq!(LineEnding::AlreadyClosed.number(), 12);
}

#[test]
fn a_line_is_opened_on_the_chips_given_with_nothing_held() {
    let bench = Trial::with(&SETTING_A).bench;
    let line = Line::open(bench);
    assert_eq!(*line.bench(), bench);
    assert!(line.held().is_empty());
    assert!(!line.is_closed());
}

#[test]
fn an_empty_cut_ends_with_0_and_changes_nothing() {
    for held in 0..4 {
        for room in [0, 7, 8, 20] {
            let mut line = line_holding(&CLOCK[..held]);
            let before = line.clone();
            assert_eq!(
                call(&mut line, &[], room),
                ((0, 0, 0), vec![UNTOUCHED; room])
            );
            assert_eq!(line, before);
        }
    }
}

#[test]
fn bytes_of_no_whole_record_are_all_taken_and_held_whatever_the_room() {
    let bytes = [3, 0, 5];
    for held in 0..4 {
        for length in held..4 {
            for room in [0, 1, 7, 8, 16] {
                let mut line = line_holding(&bytes[..held]);
                let bench = *line.bench();
                let (told, output) = call(&mut line, &bytes[held..length], room);
                assert_eq!(told, (0, length - held, 0));
                assert_eq!(output, vec![UNTOUCHED; room]);
                assert_eq!(line.held(), &bytes[..length]);
                assert_eq!(*line.bench(), bench);
                assert!(!line.is_closed());
            }
        }
    }
}

#[test]
fn the_bytes_that_make_the_held_ones_whole_are_counted_without_these() {
    for held in 0..4 {
        let mut line = fresh_line();
        call(&mut line, &CLOCK[..held], 0);
        let (told, output) = call(&mut line, &CLOCK[held..], 11);
        assert_eq!(told, (0, 4 - held, 1));
        assert_eq!(output, written_then_untouched(&CLOCKED, 11));
        assert!(line.held().is_empty());
    }
}

#[test]
fn a_held_record_without_room_stays_held_and_no_byte_is_taken() {
    for held in 1..4 {
        for room in 0..8 {
            let mut line = line_holding(&CLOCK[..held]);
            let before = line.clone();
            let cut = [&CLOCK[held..], &FETCH, &[255; 2]].concat();
            for length in 4 - held..=cut.len() {
                let expected = ((4, 0, 0), vec![UNTOUCHED; room]);
                assert_eq!(call(&mut line, &cut[..length], room), expected);
                assert_eq!(line, before);
            }
            assert_eq!(call(&mut line, &cut, 16).0, (0, cut.len(), 2));
            assert_eq!(line.held(), [255; 2]);
        }
    }
}

#[test]
fn a_later_record_without_room_leaves_its_bytes_in_the_cut() {
    for held in 0..4 {
        for room in 8..16 {
            for extra in 0..4 {
                let mut line = fresh_line();
                call(&mut line, &CLOCK[..held], 0);
                let cut = [&CLOCK[held..], &FETCH, &[255; 3][..extra]].concat();
                let (told, output) = call(&mut line, &cut, room);
                assert_eq!(told, (4, 4 - held, 1));
                assert_eq!(output, written_then_untouched(&CLOCKED, room));
                assert!(line.held().is_empty());
                assert_eq!(
                    *line.bench(),
                    replay(Bench::fresh(), &CLOCK, &mut [0; 8]).bench
                );
            }
        }
    }
}

#[test]
fn bytes_left_over_after_the_last_answer_with_room_are_held() {
    for extra in 0..4 {
        let mut line = fresh_line();
        let cut = [&CLOCK, &[255; 3][..extra]].concat();
        let (told, output) = call(&mut line, &cut, 8);
        assert_eq!(told, (0, 4 + extra, 1));
        assert_eq!(output, CLOCKED);
        assert_eq!(line.held(), vec![255; extra]);
    }
}

#[test]
fn room_is_asked_for_before_a_record_is_judged() {
    for record in [[0, 0, 0, 0], [4, 1, 1, 1], [9, 0, 0, 0]] {
        let mut line = fresh_line();
        call(&mut line, &record[..2], 0);
        assert_eq!(call(&mut line, &record[2..], 7).0, (4, 0, 0));
    }
}

#[test]
fn refused_records_are_answered_and_the_call_goes_on() {
    let mut line = fresh_line();
    let cut = [[0xAB, 0, 0, 0], [3, 0, 0, 9], [9, 0, 0, 0], CLOCK].concat();
    assert_eq!(call(&mut line, &cut[..1], 0).0, (0, 1, 0));
    let (told, output) = call(&mut line, &cut[1..], 32);
    assert_eq!(told, (0, 15, 4));
    let mut refused = [[0; 8]; 3];
    refused[0][..2].copy_from_slice(&[0xAB, 1]);
    refused[1][..2].copy_from_slice(&[3, 2]);
    refused[2][..2].copy_from_slice(&[9, 5]);
    assert_eq!(output, [&refused.concat()[..], &CLOCKED].concat());
}

#[test]
fn closing_gives_0_with_nothing_held_and_3_with_one_to_three_bytes() {
    for (held, number) in [(0, 0), (1, 3), (2, 3), (3, 3)] {
        let mut line = line_holding(&[255; 3][..held]);
        let bench = *line.bench();
        assert_eq!(line.close().number(), number, "{held} held");
        assert!(line.is_closed());
        assert_eq!(*line.bench(), bench);
        assert_eq!(line.held(), vec![255; held]);
    }
}

#[test]
fn closing_after_ending_4_goes_by_the_held_bytes_alone() {
    for (held, number) in [(0, 0), (1, 3), (2, 3), (3, 3)] {
        let mut line = line_holding(&CLOCK[..held]);
        assert_eq!(call(&mut line, &CLOCK[held..], 7).0, (4, 0, 0));
        assert_eq!(line.close().number(), number, "{held} held");
    }
}

#[test]
fn a_call_after_closing_ends_with_12_before_all_else_and_changes_nothing() {
    for held in 0..4 {
        let mut line = line_holding(&CLOCK[..held]);
        line.close();
        let closed = line.clone();
        for length in 0..12 {
            let cut = &CLOCK.repeat(3)[..length];
            for room in [0, 7, 8, 30] {
                let expected = ((12, 0, 0), vec![UNTOUCHED; room]);
                assert_eq!(call(&mut line, cut, room), expected);
                assert_eq!(line, closed);
            }
        }
    }
}

#[test]
fn a_second_closing_ends_with_12_and_changes_nothing() {
    for held in 0..4 {
        let mut line = line_holding(&CLOCK[..held]);
        line.close();
        let closed = line.clone();
        for _ in 0..3 {
            assert_eq!(line.close(), LineEnding::AlreadyClosed);
            assert_eq!(line, closed);
        }
    }
}
