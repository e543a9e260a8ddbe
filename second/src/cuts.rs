//! A list of calls on one line, each shown with its counts and whole output.

use crate::bench::Bench;
use crate::line::Line;
use crate::replay::unread_rest;
use crate::room::{counts_line, output_lines, untouched_output};

pub const MOST_CUTS_INPUT_BYTES: usize = 4_096;

/// All that is printed for an input that is no list of calls.
pub const NO_CALL: &str = "no call\n";

const CUT: u8 = 1;
const CLOSE: u8 = 2;

enum Call<'a> {
    Cut { room: u16, cut: &'a [u8] },
    Close,
}

/// What every call of the list gives, made in order on a line with fresh chips;
/// or just the words for an input that is not such a list from end to end.
pub fn cuts_text(input: &[u8]) -> String {
    let Some(calls) = list_of_calls(input) else {
        return String::from(NO_CALL);
    };
    let mut line = Line::open(Bench::fresh());
    calls
        .iter()
        .map(|call| call_text(&mut line, call))
        .collect()
}

fn list_of_calls(input: &[u8]) -> Option<Vec<Call<'_>>> {
    if input.len() > MOST_CUTS_INPUT_BYTES {
        return None;
    }
    let mut calls = Vec::new();
    let mut rest = input;
    while !rest.is_empty() {
        let (call, later) = first_call(rest)?;
        calls.push(call);
        rest = later;
    }
    Some(calls)
}

/// The call that the bytes begin with, and the bytes after it. A cut's head is
/// its room and then its length, each with the high byte first.
fn first_call(bytes: &[u8]) -> Option<(Call<'_>, &[u8])> {
    match *bytes {
        [CUT, room_high, room_low, length_high, length_low, ref after_head @ ..] => {
            let room = u16::from_be_bytes([room_high, room_low]);
            let length = usize::from(u16::from_be_bytes([length_high, length_low]));
            let cut = after_head.get(..length)?;
            Some((Call::Cut { room, cut }, unread_rest(after_head, length)))
        }
        [CLOSE, ref later @ ..] => Some((Call::Close, later)),
        _ => None,
    }
}

fn call_text(line: &mut Line, call: &Call) -> String {
    match *call {
        Call::Cut { room, cut } => {
            let mut output = untouched_output(room);
            let taken = line.take_cut(cut, &mut output);
            counts_line(
                taken.ending.number(),
                taken.bytes_taken,
                taken.answers_written,
            ) + &output_lines(&output)
        }
        Call::Close => counts_line(line.close().number(), 0, 0),
    }
}
