//! The serial line: its bytes come in cuts of any length, and a record that a
//! cut breaks off waits in the line for the bytes it lacks (request W3).

use crate::bench::Bench;
use crate::record::RECORD_BYTES;
use crate::replay::{replay, unread_rest, Ending, ANSWER_BYTES};

/// What stays between two calls.
#[derive(Clone, PartialEq, Eq, Debug)]
pub struct Line {
    bench: Bench,
    /// The bytes of a record not yet whole: three at most.
    held: Vec<u8>,
    closed: bool,
}

/// How a call on the line ends. Only closing gives `BrokenRecord`, only a cut
/// gives `OutputFull`.
#[derive(Clone, Copy, PartialEq, Eq, Debug)]
pub enum LineEnding {
    /// A cut went into the line whole, or the line was closed with nothing held.
    Done,
    /// The line was closed with one to three bytes held.
    BrokenRecord,
    /// A whole record is there, but no room for its answer.
    OutputFull,
    /// The line had been closed before this call.
    AlreadyClosed,
}

impl LineEnding {
    pub fn number(self) -> u8 {
        match self {
            LineEnding::Done => 0,
            LineEnding::BrokenRecord => 3,
            LineEnding::OutputFull => 4,
            LineEnding::AlreadyClosed => 12,
        }
    }
}

/// What a call with a cut tells. The bytes are those of its own cut: bytes held
/// from earlier cuts were counted when those came.
#[derive(Clone, Copy, PartialEq, Eq, Debug)]
pub struct CutTaken {
    pub ending: LineEnding,
    pub bytes_taken: usize,
    pub answers_written: usize,
}

impl Line {
    /// A line on these chips, open and with nothing held.
    pub fn open(bench: Bench) -> Self {
        Line {
            bench,
            held: Vec::new(),
            closed: false,
        }
    }

    pub fn bench(&self) -> &Bench {
        &self.bench
    }

    pub fn held(&self) -> &[u8] {
        &self.held
    }

    pub fn is_closed(&self) -> bool {
        self.closed
    }

    /// Answers the records that the held bytes and the cut make up, one after
    /// the other, and holds what is left over. A record without room for its
    /// answer leaves the line as it is and its bytes in the cut. Output past the
    /// answers is left as it was, and all of it on a closed line.
    pub fn take_cut(&mut self, cut: &[u8], output: &mut [u8]) -> CutTaken {
        if self.closed {
            return CutTaken {
                ending: LineEnding::AlreadyClosed,
                bytes_taken: 0,
                answers_written: 0,
            };
        }
        let mut bytes_taken = 0;
        let mut answers_written = 0;
        let ending = loop {
            let rest = unread_rest(cut, bytes_taken);
            let Some(record) = self.next_record(rest) else {
                self.held.extend(rest);
                bytes_taken = cut.len();
                break LineEnding::Done;
            };
            let room = &mut output[answers_written * ANSWER_BYTES..];
            let replayed = replay(self.bench, &record, room);
            if replayed.ending == Ending::OutputFull {
                break LineEnding::OutputFull;
            }
            self.bench = replayed.bench;
            bytes_taken += RECORD_BYTES - self.held.len();
            answers_written += 1;
            self.held.clear();
        };
        CutTaken {
            ending,
            bytes_taken,
            answers_written,
        }
    }

    /// The held bytes and those of the cut that make them a record, if there are
    /// enough of them.
    fn next_record(&self, rest: &[u8]) -> Option<[u8; RECORD_BYTES]> {
        let joined = self.held.iter().chain(rest);
        let bytes: Vec<u8> = joined.take(RECORD_BYTES).copied().collect();
        bytes.try_into().ok()
    }

    /// Closes the line. Bytes still held stay where they are and are never read.
    pub fn close(&mut self) -> LineEnding {
        if self.closed {
            return LineEnding::AlreadyClosed;
        }
        self.closed = true;
        if self.held.is_empty() {
            LineEnding::Done
        } else {
            LineEnding::BrokenRecord
        }
    }
}
