//! A replay into an output of a chosen size, as text, without the program around it.

use second::room::room_text;

use crate::listing::{SETTLED_INPUT, SETTLED_LISTING};

/// A character clock on the fresh chip and its answer, which is the same at every
/// later clock: a new frame at address 0, with VSYNC high and nothing else.
pub const CLOCK: [u8; 4] = [3, 0, 1, 0];
pub const CLOCKED: &str = "0300000000100000\n";

/// The first display fetch on the fresh chip and its answer: address 1, in row 1
/// of the memory, with RAM access.
pub const FETCH: [u8; 4] = [7, 0, 1, 0];
pub const FETCHED: &str = "0700000100010001\n";

/// The room's two bytes and the batch after them.
pub fn input(room: u16, batch: &[u8]) -> Vec<u8> {
    [&room.to_be_bytes()[..], batch].concat()
}

/// The settled listing's first lines, without the `end` line.
fn settled_answers(count: usize) -> String {
    SETTLED_LISTING.split_inclusive('\n').take(count).collect()
}

fn gives(room: u16, batch: &[u8], expected: &str) {
    assert_eq!(room_text(&input(room, batch)), expected, "room {room}");
}

#[test]
fn the_exact_room_takes_the_whole_batch() {
    let expected = String::from("00002c000b000000\n") + &settled_answers(11);
    gives(88, &SETTLED_INPUT, &expected);
}

#[test]
fn one_byte_short_ends_with_4_before_the_last_record() {
    let expected = String::from("040028000a000000\n") + &settled_answers(10) + "a5a5a5a5a5a5a5\n";
    gives(87, &SETTLED_INPUT, &expected);
}

#[test]
fn each_room_takes_the_answers_that_fit_and_leaves_the_rest_untouched() {
    for room in 0..=120u16 {
        let answers = usize::from(room / 8).min(11);
        let ending = if answers < 11 { 4 } else { 0 };
        let mut expected = format!("{ending:02x}{:04x}{answers:04x}000000\n", 4 * answers);
        expected.push_str(&settled_answers(answers));
        let untouched = usize::from(room) - 8 * answers;
        expected.push_str(&"a5a5a5a5a5a5a5a5\n".repeat(untouched / 8));
        if untouched & 7 > 0 {
            expected.push_str(&"a5".repeat(untouched & 7));
            expected.push('\n');
        }
        gives(room, &SETTLED_INPUT, &expected);
    }
}

#[test]
fn no_byte_of_room_shows_the_counts_alone() {
    gives(0, &CLOCK, "0400000000000000\n");
    gives(0, &[], "0000000000000000\n");
}

#[test]
fn rooms_around_one_answer() {
    let batch = [CLOCK, FETCH].concat();
    gives(7, &batch, "0400000000000000\na5a5a5a5a5a5a5\n");
    gives(8, &batch, "0400040001000000\n0300000000100000\n");
    gives(9, &batch, "0400040001000000\n0300000000100000\na5\n");
}

#[test]
fn one_record_fills_eight_bytes_and_ends_with_0() {
    gives(8, &CLOCK, "0000040001000000\n0300000000100000\n");
    gives(9, &CLOCK, "0000040001000000\n0300000000100000\na5\n");
}

#[test]
fn more_room_than_needed_is_left_untouched() {
    let expected = "0000040001000000\n0300000000100000\na5a5a5a5a5a5a5a5\na5a5a5a5\n";
    gives(20, &CLOCK, expected);
    gives(10, &[], "0000000000000000\na5a5a5a5a5a5a5a5\na5a5\n");
}

#[test]
fn a_broken_record_ends_with_3_when_there_is_room() {
    let expected = "0300040001000000\n0300000000100000\na5a5a5a5a5a5a5a5\n";
    for extra in 1..4 {
        let batch = [&CLOCK[..], &[255; 3][..extra]].concat();
        gives(16, &batch, expected);
    }
}

#[test]
fn a_broken_record_ends_with_3_also_without_room() {
    for extra in 1..4 {
        let broken = &[3, 0, 5][..extra];
        gives(0, broken, "0300000000000000\n");
        gives(7, broken, "0300000000000000\na5a5a5a5a5a5a5\n");
        let batch = [&CLOCK[..], broken].concat();
        gives(8, &batch, "0300040001000000\n0300000000100000\n");
        gives(
            15,
            &batch,
            "0300040001000000\n0300000000100000\na5a5a5a5a5a5a5\n",
        );
    }
}

#[test]
fn a_whole_record_without_room_ends_with_4_though_a_broken_one_follows() {
    let batch = [&CLOCK[..], &[4]].concat();
    gives(7, &batch, "0400000000000000\na5a5a5a5a5a5a5\n");
}

#[test]
fn ending_4_comes_before_a_record_is_judged() {
    for record in [[0, 0, 0, 0], [4, 1, 1, 1], [9, 0, 0, 0]] {
        gives(7, &record, "0400000000000000\na5a5a5a5a5a5a5\n");
    }
    gives(8, &[0xAB, 0, 0, 0], "0000040001000000\nab01000000000000\n");
    gives(8, &[4, 1, 1, 1], "0000040001000000\n0402000000000000\n");
    gives(8, &[9, 0, 0, 0], "0000040001000000\n0905000000000000\n");
}

#[test]
fn fewer_than_two_bytes_name_no_room() {
    assert_eq!(room_text(&[]), "no room\n");
    for byte in [0, 8, 255] {
        assert_eq!(room_text(&[byte]), "no room\n");
    }
    assert_eq!(room_text(&[0, 0]), "0000000000000000\n");
}

#[test]
fn the_longest_batch_is_taken_and_a_longer_one_is_not() {
    let longest = CLOCK.repeat(1_024);
    let whole = String::from("0010000400000000\n") + &CLOCKED.repeat(1_024);
    gives(8_192, &longest, &whole);
    let short = String::from("040ffc03ff000000\n") + &CLOCKED.repeat(1_023) + "a5a5a5a5a5a5a5\n";
    gives(8_191, &longest, &short);
    for room in [0, 8, 8_192, u16::MAX] {
        let longer = [&longest[..], &[0]].concat();
        gives(room, &longer, "too long\n");
    }
}

#[test]
fn a_room_above_8192_counts_as_8192() {
    let empty = String::from("0000000000000000\n") + &"a5a5a5a5a5a5a5a5\n".repeat(1_024);
    let one = String::from("0000040001000000\n") + CLOCKED + &"a5a5a5a5a5a5a5a5\n".repeat(1_023);
    for room in [8_192, 8_193, 8_200, 32_768, u16::MAX] {
        gives(room, &[], &empty);
        gives(room, &CLOCK, &one);
    }
    let below = String::from("0000000000000000\n")
        + &"a5a5a5a5a5a5a5a5\n".repeat(1_023)
        + "a5a5a5a5a5a5a5\n";
    gives(8_191, &[], &below);
}

#[test]
fn the_high_byte_of_the_room_comes_first() {
    assert_eq!(room_text(&[0, 1]), "0000000000000000\na5\n");
    let expected = String::from("0000000000000000\n") + &"a5a5a5a5a5a5a5a5\n".repeat(32);
    assert_eq!(room_text(&[1, 0]), expected);
}
