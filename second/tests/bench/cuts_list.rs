//! What is a list of calls and what is none.

use crate::cuts::{cut, gives, CLOSE};
use crate::room::{CLOCK, CLOCKED};

fn is_no_list(calls: &[&[u8]]) {
    gives(calls, "no call\n");
}

#[test]
fn any_other_byte_where_a_call_should_begin_is_no_call() {
    for byte in [0, 3, 4, 16, 127, 254, 255] {
        is_no_list(&[&[byte]]);
        is_no_list(&[&[byte, 0, 8, 0, 0]]);
        is_no_list(&[CLOSE, &[byte]]);
        is_no_list(&[&cut(8, &CLOCK), &[byte]]);
        is_no_list(&[&[byte], &cut(8, &CLOCK)]);
    }
}

#[test]
fn a_head_or_a_cut_broken_off_is_no_call() {
    let whole = cut(8, &CLOCK);
    for length in 1..whole.len() {
        is_no_list(&[&whole[..length]]);
        is_no_list(&[&whole, &whole[..length]]);
        is_no_list(&[CLOSE, &whole[..length]]);
    }
    is_no_list(&[&[1, 0, 8, 0xFF, 0xFF]]);
    is_no_list(&[&[1, 0, 8, 1, 0], &[0; 255]]);
}

#[test]
fn bytes_past_a_cut_are_the_next_call() {
    let one = "0000040001000000\n0300000000100000\n";
    is_no_list(&[&[1, 0, 8, 0, 4], &CLOCK, &[0]]);
    gives(
        &[&[1, 0, 8, 0, 4], &CLOCK, CLOSE],
        &(String::from(one) + "0000000000000000\n"),
    );
    // The cut of length 1 swallows the byte that would have closed the line.
    gives(&[&[1, 0, 0, 0, 1], CLOSE], "0000010000000000\n");
}

/// Closings and nothing else: the first ends with 0, the others with 12.
fn closings(count: usize) -> String {
    String::from("0000000000000000\n") + &"0c00000000000000\n".repeat(count - 1)
}

#[test]
fn a_list_of_4096_bytes_is_made_and_a_longer_one_is_none() {
    gives(&[&[2; 4_096]], &closings(4_096));
    is_no_list(&[&[2; 4_097]]);
    is_no_list(&[&[2; 100_000]]);
}

#[test]
fn the_longest_cut_has_4091_bytes() {
    let longest = [&CLOCK.repeat(1_022)[..], &CLOCK[..3]].concat();
    let whole = String::from("000ffb03fe000000\n") + &CLOCKED.repeat(1_022);
    gives(&[&cut(8_176, &longest)], &whole);
    let longer = CLOCK.repeat(1_023);
    is_no_list(&[&cut(8_176, &longer)]);
    is_no_list(&[&cut(8_176, &longest), CLOSE]);
}
