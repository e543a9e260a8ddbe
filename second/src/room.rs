//! A replay into an output of a chosen size, shown byte for byte. The listing
//! always has room for every answer, so only here can a replay end with 4.

use crate::bench::Bench;
use crate::hex::hex;
use crate::listing::{MOST_INPUT_BYTES, TOO_LONG};
use crate::replay::{replay, ANSWER_BYTES};
use crate::two_bytes::two_bytes;

/// The room comes first in the input, high byte before low byte.
const ROOM_FIELD_BYTES: usize = 2;

/// The room's two bytes and the longest batch.
pub const MOST_ROOM_INPUT_BYTES: usize = ROOM_FIELD_BYTES + MOST_INPUT_BYTES;

/// As much as the longest batch can fill; a greater room counts as this one.
const MOST_ROOM: usize = 8_192;

/// All that is printed for an input that does not name its room.
pub const NO_ROOM: &str = "no room\n";

/// What an output holds before, so that writing past the answers shows.
const UNTOUCHED: u8 = 0xA5;

/// The counts and the whole output of a batch replayed on fresh chips, or just
/// the words for an input too long or one that does not name its room.
pub fn room_text(input: &[u8]) -> String {
    if input.len() > MOST_ROOM_INPUT_BYTES {
        return String::from(TOO_LONG);
    }
    let Some((field, batch)) = input.split_first_chunk::<ROOM_FIELD_BYTES>() else {
        return String::from(NO_ROOM);
    };
    let mut output = untouched_output(u16::from_be_bytes(*field));
    let replayed = replay(Bench::fresh(), batch, &mut output);
    counts_line(
        replayed.ending.number(),
        replayed.bytes_taken,
        replayed.answers_written,
    ) + &output_lines(&output)
}

/// An output of the room asked for, or of the greatest there is.
pub(crate) fn untouched_output(room: u16) -> Vec<u8> {
    vec![UNTOUCHED; usize::from(room).min(MOST_ROOM)]
}

/// What is told of a replay or of a call on a line: ending number, bytes taken
/// and answers written, filled up with zeros to the length of an answer.
pub(crate) fn counts_line(ending: u8, bytes_taken: usize, answers_written: usize) -> String {
    let [taken_high, taken_low] = two_bytes(bytes_taken);
    let [written_high, written_low] = two_bytes(answers_written);
    line(&[
        ending,
        taken_high,
        taken_low,
        written_high,
        written_low,
        0,
        0,
        0,
    ])
}

/// The whole output, the last line shorter when it must be.
pub(crate) fn output_lines(output: &[u8]) -> String {
    output.chunks(ANSWER_BYTES).map(line).collect()
}

fn line(bytes: &[u8]) -> String {
    hex(bytes) + "\n"
}
