//! The listing of a batch: one line for each answer, and one for the ending.

use crate::bench::Bench;
use crate::hex::hex;
use crate::record::RECORD_BYTES;
use crate::replay::{replay, ANSWER_BYTES};

pub const MOST_INPUT_BYTES: usize = 4_096;

/// All that is printed for a batch too long.
pub const TOO_LONG: &str = "too long\n";

const BUS_CYCLE_KIND: u8 = 6;
const RAM_FLAG: u8 = 1;

/// The whole listing of a batch replayed on fresh chips, or just the words for
/// a batch too long ("The listing program").
pub fn listing(batch: &[u8]) -> String {
    if batch.len() > MOST_INPUT_BYTES {
        return String::from(TOO_LONG);
    }
    let mut output = vec![0; batch.len() / RECORD_BYTES * ANSWER_BYTES];
    let replayed = replay(Bench::fresh(), batch, &mut output);
    let mut text = String::new();
    for answer in output
        .chunks_exact(ANSWER_BYTES)
        .take(replayed.answers_written)
    {
        text.push_str(&answer_line(answer));
        text.push('\n');
    }
    text.push_str(&end_line(replayed.ending.number()));
    text
}

/// The line after all answers.
pub fn end_line(ending: u8) -> String {
    format!("end {ending}\n")
}

/// An answer as hex digits, with the old program's remark where it is due.
pub fn answer_line(answer: &[u8]) -> String {
    let mut line = hex(answer);
    if is_odd(answer) {
        line.push_str(" odd");
    }
    line
}

/// A bus cycle answer is odd when it names RAM and yet selects 1 to 6 ("The
/// listing program", last sentence).
fn is_odd(answer: &[u8]) -> bool {
    match answer {
        [BUS_CYCLE_KIND, _refusal, select, _ticks, flags, ..] => {
            flags & RAM_FLAG != 0 && (1..=6).contains(select)
        }
        _ => false,
    }
}
