//! A whole batch, record by record, with its answers put in a lent buffer.

use crate::bench::{Bench, Body, BODY_BYTES};
use crate::record::{decode, RECORD_BYTES};

pub const ANSWER_BYTES: usize = 8;

#[derive(Clone, Copy, PartialEq, Eq, Debug)]
pub enum Ending {
    /// Every byte of the batch was taken.
    BatchEmpty,
    /// One to three bytes remain: no whole record.
    BrokenRecord,
    /// A record remains, but no room for its answer.
    OutputFull,
}

impl Ending {
    pub fn number(self) -> u8 {
        match self {
            Ending::BatchEmpty => 0,
            Ending::BrokenRecord => 3,
            Ending::OutputFull => 4,
        }
    }
}

#[derive(Clone, Copy, PartialEq, Eq, Debug)]
pub struct Replayed {
    pub bench: Bench,
    pub ending: Ending,
    pub bytes_taken: usize,
    pub answers_written: usize,
}

/// Takes records until one of the three endings comes, looked for in the order
/// empty, broken, no room ("Records and what comes back", order at each
/// record). Output past the answers is left as it was.
pub fn replay(mut bench: Bench, batch: &[u8], output: &mut [u8]) -> Replayed {
    let mut bytes_taken = 0;
    let mut answers_written = 0;
    let ending = loop {
        let rest = unread_rest(batch, bytes_taken);
        if rest.is_empty() {
            break Ending::BatchEmpty;
        }
        let Some(record) = rest.first_chunk::<RECORD_BYTES>() else {
            break Ending::BrokenRecord;
        };
        let place = answers_written * ANSWER_BYTES;
        let Some(room) = output.get_mut(place..place + ANSWER_BYTES) else {
            break Ending::OutputFull;
        };
        room.copy_from_slice(&answer(&mut bench, *record));
        bytes_taken += RECORD_BYTES;
        answers_written += 1;
    };
    Replayed {
        bench,
        ending,
        bytes_taken,
        answers_written,
    }
}

/// The answer to one record: its own kind, the refusal number (0 when done) and
/// a body, all zero when refused.
fn answer(bench: &mut Bench, record: [u8; RECORD_BYTES]) -> [u8; ANSWER_BYTES] {
    let (number, body): (u8, Body) = match decode(record).and_then(|event| bench.perform(event)) {
        Ok(body) => (0, body),
        Err(refusal) => (refusal.number(), [0; BODY_BYTES]),
    };
    let mut answer = [0; ANSWER_BYTES];
    answer[0] = record[0];
    answer[1] = number;
    answer[2..].copy_from_slice(&body);
    answer
}

/// The part of the batch after the bytes taken; the empty part at its end when
/// told of more bytes than there are.
pub fn unread_rest(batch: &[u8], bytes_taken: usize) -> &[u8] {
    &batch[bytes_taken.min(batch.len())..]
}
