//! A setup file as text, a line for each part.

use super::parts::{CONTROL, REGISTERS};
use super::reader::read_setup;
use crate::hex::hex;
use crate::listing::TOO_LONG;

/// The longest input that is read as a file. The longest setup file is somewhat
/// shorter, so that files just too long are refused by their number.
pub const MOST_SETUP_INPUT_BYTES: usize = 4_200;

/// The parts in the file's order, or just the refusal, or just the words for an
/// input too long.
pub fn setup_text(file: &[u8]) -> String {
    if file.len() > MOST_SETUP_INPUT_BYTES {
        return String::from(TOO_LONG);
    }
    match read_setup(file) {
        Err(refusal) => refusal.line(),
        Ok(setup) => {
            let mut text = String::new();
            for (kind, body) in setup.bodies() {
                text.push_str(&part_line(kind, body));
            }
            text
        }
    }
}

/// The part's word and its bytes. Only a batch can be without bytes, and then
/// its word stands alone.
fn part_line(kind: u8, body: &[u8]) -> String {
    let word = match kind {
        REGISTERS => "registers",
        CONTROL => "control",
        _ => "batch",
    };
    if body.is_empty() {
        return format!("{word}\n");
    }
    format!("{word} {}\n", hex(body))
}
