//! Lists of calls on a line, as text and through the built program.

use second::cuts::cuts_text;

use crate::listing::{SETTLED_INPUT, SETTLED_LISTING};
use crate::places::UNTOUCHED;
use crate::program::prints_with;
use crate::room::{CLOCK, CLOCKED, FETCH};

pub const CLOSE: &[u8] = &[2];

/// A call with a cut: room, length and the cut itself.
pub fn cut(room: u16, bytes: &[u8]) -> Vec<u8> {
    let length = u16::try_from(bytes.len()).expect("no cut is this long");
    [&[1], &room.to_be_bytes()[..], &length.to_be_bytes(), bytes].concat()
}

/// Tried as text and in the program.
pub fn gives(calls: &[&[u8]], expected: &str) {
    let input = calls.concat();
    assert_eq!(cuts_text(&input), expected);
    prints_with(&["--cuts"], &input, expected);
}

#[test]
fn a_list_of_no_calls_prints_nothing() {
    gives(&[], "");
}

#[test]
fn a_cut_prints_its_counts_and_its_whole_output() {
    gives(&[&cut(0, &[])], "0000000000000000\n");
    gives(&[&cut(3, &[])], "0000000000000000\na5a5a5\n");
    let one = String::from("0000040001000000\n") + CLOCKED;
    gives(&[&cut(8, &CLOCK)], &one);
    gives(&[&cut(9, &CLOCK)], &(one.clone() + "a5\n"));
    gives(&[&cut(18, &CLOCK)], &(one + UNTOUCHED + "a5a5\n"));
}

#[test]
fn closing_prints_its_counts_alone() {
    gives(&[CLOSE], "0000000000000000\n");
    for held in 1..4 {
        let first = format!("00000{held}0000000000\n");
        let expected = first + "0300000000000000\n";
        gives(&[&cut(0, &CLOCK[..held]), CLOSE], &expected);
    }
}

#[test]
fn the_settled_batch_in_two_cuts() {
    let answers: Vec<&str> = SETTLED_LISTING.split_inclusive('\n').take(11).collect();
    for place in 0..=44 {
        let (before, after) = SETTLED_INPUT.split_at(place);
        let (first, second) = answers.split_at(place / 4);
        let expected = [
            format!("00{place:04x}{:04x}000000\n", first.len()),
            first.concat(),
            format!("00{:04x}{:04x}000000\n", 44 - place, second.len()),
            second.concat(),
            String::from("0000000000000000\n"),
        ];
        let calls: [&[u8]; 3] = [
            &cut(8 * first.len() as u16, before),
            &cut(8 * second.len() as u16, after),
            CLOSE,
        ];
        gives(&calls, &expected.concat());
    }
}

#[test]
fn a_call_without_room_made_again_with_the_rest() {
    let two = [CLOCK, FETCH].concat();
    let calls = [
        cut(0, &two[..3]),
        cut(7, &two[3..]),
        cut(8, &two[3..]),
        cut(7, &two[4..]),
        cut(8, &two[4..]),
        CLOSE.to_vec(),
    ];
    let expected = [
        "0000030000000000\n",
        "0400000000000000\na5a5a5a5a5a5a5\n",
        "0400010001000000\n0300000000100000\n",
        "0400000000000000\na5a5a5a5a5a5a5\n",
        "0000040001000000\n0700000100010001\n",
        "0000000000000000\n",
    ];
    gives(&[&calls.concat()], &expected.concat());
}

#[test]
fn calls_after_a_closing_are_made_and_end_with_12() {
    let calls = [
        cut(0, &CLOCK[..2]),
        CLOSE.to_vec(),
        cut(0, &[]),
        cut(10, &CLOCK[2..]),
        CLOSE.to_vec(),
        cut(7, &CLOCK),
    ];
    let expected = [
        "0000020000000000\n",
        "0300000000000000\n",
        "0c00000000000000\n",
        "0c00000000000000\na5a5a5a5a5a5a5a5\na5a5\n",
        "0c00000000000000\n",
        "0c00000000000000\na5a5a5a5a5a5a5\n",
    ];
    gives(&[&calls.concat()], &expected.concat());
}

#[test]
fn each_list_has_a_fresh_line() {
    for _ in 0..2 {
        let calls = [cut(8, &[3, 0, 1, 0]), CLOSE.to_vec()].concat();
        let expected = "0000040001000000\n0300000000100000\n0000000000000000\n";
        gives(&[&calls], expected);
    }
}

#[test]
fn a_room_above_8192_counts_as_8192() {
    let one = String::from("0000040001000000\n") + CLOCKED + &UNTOUCHED.repeat(1_023);
    let closed = String::from("0c00000000000000\n") + &UNTOUCHED.repeat(1_024);
    let closing = "0000000000000000\n";
    for room in [8_192, 8_193, 8_200, 32_768, u16::MAX] {
        let calls: [&[u8]; 3] = [&cut(room, &CLOCK), CLOSE, &cut(room, &CLOCK)];
        gives(&calls, &[&one, closing, &closed].concat());
    }
    let below = String::from("0000000000000000\n") + &UNTOUCHED.repeat(1_023) + "a5a5a5a5a5a5a5\n";
    gives(&[&cut(8_191, &[])], &below);
}

#[test]
fn the_high_bytes_of_room_and_length_come_first() {
    gives(&[&[1, 0, 1, 0, 1, 9]], "0000010000000000\na5\n");
    let cut_of_256 = [&[1, 1, 0, 1, 0][..], &[0; 256]].concat();
    let expected = String::from("0400800020000000\n") + &"0001000000000000\n".repeat(32);
    gives(&[&cut_of_256], &expected);
}

#[test]
fn no_output_line_is_called_odd() {
    let cycle = [6, 0, 0, 1];
    let expected = "0000040001000000\n0600001001000000\n";
    gives(&[&cut(8, &cycle)], expected);
    assert!(!cuts_text(&cut(8, &cycle)).contains("odd"));
}
