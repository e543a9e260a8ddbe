//! Records off the serial line as they come: each is answered with a line of
//! text before more bytes are asked for.

use std::io::{self, ErrorKind, Read, Write};

use crate::bench::Bench;
use crate::line::{Line, LineEnding};
use crate::listing::{answer_line, end_line};
use crate::replay::{unread_rest, ANSWER_BYTES};

/// As many bytes as are taken at once at most; fewer when fewer are there.
const PIECE_BYTES: usize = 256;

/// Why the line was left before its end.
#[derive(Debug)]
pub enum SerialFailure {
    Reading(io::Error),
    Writing(io::Error),
}

/// Answers the input on one fresh line and closes that at the end of the input.
/// However long the input is, no more than one piece of it is kept.
pub fn serial(mut input: impl Read, mut output: impl Write) -> Result<(), SerialFailure> {
    let mut line = Line::open(Bench::fresh());
    let mut space = [0; PIECE_BYTES];
    loop {
        let piece = next_piece(&mut input, &mut space).map_err(SerialFailure::Reading)?;
        if piece.is_empty() {
            break;
        }
        answer_piece(&mut line, piece, &mut output).map_err(SerialFailure::Writing)?;
    }
    let end = end_line(line.close().number());
    print(&mut output, &end).map_err(SerialFailure::Writing)
}

/// What is there to be read, or nothing at the end of the input. A read broken
/// off by a signal is no failure and is made again.
fn next_piece<'a>(input: &mut impl Read, space: &'a mut [u8]) -> io::Result<&'a [u8]> {
    loop {
        match input.read(space) {
            Ok(length) => return Ok(&space[..length]),
            Err(error) if error.kind() == ErrorKind::Interrupted => {}
            Err(error) => return Err(error),
        }
    }
}

/// Gives the line room for one answer at a time, so that each is printed before
/// the next record is begun, and calls again with the rest while there is one.
fn answer_piece(line: &mut Line, piece: &[u8], output: &mut impl Write) -> io::Result<()> {
    let mut answer = [0; ANSWER_BYTES];
    let mut rest = piece;
    loop {
        let taken = line.take_cut(rest, &mut answer);
        if taken.answers_written > 0 {
            print(output, &(answer_line(&answer) + "\n"))?;
        }
        if taken.ending != LineEnding::OutputFull {
            return Ok(());
        }
        rest = unread_rest(rest, taken.bytes_taken);
    }
}

fn print(output: &mut impl Write, text: &str) -> io::Result<()> {
    output.write_all(text.as_bytes())?;
    output.flush()
}
