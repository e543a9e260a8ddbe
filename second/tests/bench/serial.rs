//! Records off the serial line as text, with an input that gives its bytes piece
//! by piece and sees what has been printed by then.

use std::cell::RefCell;
use std::collections::VecDeque;
use std::io::{self, ErrorKind, Read, Write};
use std::rc::Rc;

use second::listing::listing;
use second::serial::{serial, SerialFailure};

use crate::listing::{SETTLED_INPUT, SETTLED_LISTING};
use crate::replay::batch;
use crate::room::{CLOCK, CLOCKED, FETCH};

/// What has been flushed, and at each read how much of it there was.
#[derive(Default)]
struct Seen {
    text: String,
    lines_at_reads: Vec<usize>,
}

/// Gives one piece or one failure at each read, then the end of the input.
struct Pieces {
    pieces: VecDeque<io::Result<Vec<u8>>>,
    seen: Rc<RefCell<Seen>>,
}

impl Read for Pieces {
    fn read(&mut self, space: &mut [u8]) -> io::Result<usize> {
        let mut seen = self.seen.borrow_mut();
        let lines = seen.text.lines().count();
        seen.lines_at_reads.push(lines);
        let Some(piece) = self.pieces.pop_front() else {
            return Ok(0);
        };
        let piece = piece?;
        space[..piece.len()].copy_from_slice(&piece);
        Ok(piece.len())
    }
}

/// Shows only what has been flushed.
struct Screen {
    unflushed: Vec<u8>,
    seen: Rc<RefCell<Seen>>,
}

impl Write for Screen {
    fn write(&mut self, bytes: &[u8]) -> io::Result<usize> {
        self.unflushed.extend(bytes);
        Ok(bytes.len())
    }

    fn flush(&mut self) -> io::Result<()> {
        let flushed = String::from_utf8_lossy(&self.unflushed);
        self.seen.borrow_mut().text.push_str(&flushed);
        self.unflushed.clear();
        Ok(())
    }
}

fn run(pieces: Vec<io::Result<Vec<u8>>>) -> (Result<(), SerialFailure>, Seen) {
    let seen = Rc::new(RefCell::new(Seen::default()));
    let input = Pieces {
        pieces: pieces.into(),
        seen: Rc::clone(&seen),
    };
    let screen = Screen {
        unflushed: Vec::new(),
        seen: Rc::clone(&seen),
    };
    let result = serial(input, screen);
    (result, seen.take())
}

/// What is printed for pieces that all come well, and how many lines of it were
/// there at each read.
fn printed(pieces: &[&[u8]]) -> (String, Vec<usize>) {
    let (result, seen) = run(pieces.iter().map(|piece| Ok(piece.to_vec())).collect());
    assert!(result.is_ok());
    (seen.text, seen.lines_at_reads)
}

#[test]
fn no_byte_at_all_prints_only_the_end() {
    assert_eq!(printed(&[]), (String::from("end 0\n"), vec![0]));
}

#[test]
fn one_to_three_bytes_print_end_3() {
    for length in 1..4 {
        assert_eq!(printed(&[&CLOCK[..length]]).0, "end 3\n");
        let expected = String::from(CLOCKED) + "end 3\n";
        assert_eq!(printed(&[&CLOCK, &CLOCK[..length]]).0, expected);
    }
}

#[test]
fn the_settled_listing_however_it_is_cut() {
    for length in 1..=44 {
        let pieces: Vec<&[u8]> = SETTLED_INPUT.chunks(length).collect();
        assert_eq!(printed(&pieces).0, SETTLED_LISTING);
    }
}

#[test]
fn every_two_pieces_print_what_the_listing_prints() {
    for extra in 0..4 {
        let bytes = [&batch()[..], &[3, 0, 5][..extra]].concat();
        let expected = listing(&bytes);
        for place in 1..bytes.len() {
            let (before, after) = bytes.split_at(place);
            assert_eq!(printed(&[before, after]).0, expected);
        }
    }
}

#[test]
fn each_answer_is_printed_before_the_next_read() {
    let bytes = [&SETTLED_INPUT[..], &[1, 2]].concat();
    for length in 1..=46 {
        let pieces: Vec<&[u8]> = bytes.chunks(length).collect();
        let (_, lines_at_reads) = printed(&pieces);
        let mut due = vec![0];
        due.extend((1..=pieces.len()).map(|reads| (reads * length).min(46) / 4));
        assert_eq!(lines_at_reads, due, "pieces of {length}");
    }
}

#[test]
fn more_bytes_than_the_listing_takes_are_all_answered() {
    let pieces = vec![&CLOCK[..]; 2_000];
    let expected = CLOCKED.repeat(2_000) + "end 0\n";
    assert_eq!(printed(&pieces).0, expected);
    let long = CLOCK.repeat(10_000);
    let mut output = Vec::new();
    serial(&long[..], &mut output).expect("a slice is read without failure");
    let expected = CLOCKED.repeat(10_000) + "end 0\n";
    assert_eq!(output, expected.as_bytes());
}

#[test]
fn a_failed_read_leaves_the_answers_printed_and_prints_no_end() {
    for length in 0..4 {
        let (result, seen) = run(vec![
            Ok(CLOCK.to_vec()),
            Ok(CLOCK[..length + 1].to_vec()),
            Err(ErrorKind::ConnectionReset.into()),
            Ok(CLOCK.to_vec()),
        ]);
        let Err(SerialFailure::Reading(error)) = result else {
            panic!("the reading has failed");
        };
        assert_eq!(error.kind(), ErrorKind::ConnectionReset);
        assert_eq!(seen.text, CLOCKED.repeat(1 + (length + 1) / 4));
    }
}

#[test]
fn an_interrupted_read_is_made_again() {
    let (result, seen) = run(vec![
        Err(ErrorKind::Interrupted.into()),
        Ok(CLOCK[..3].to_vec()),
        Err(ErrorKind::Interrupted.into()),
        Err(ErrorKind::Interrupted.into()),
        Ok(CLOCK[3..].to_vec()),
    ]);
    assert!(result.is_ok());
    assert_eq!(seen.text, String::from(CLOCKED) + "end 0\n");
}

#[test]
fn a_failed_write_is_told_and_ends_the_reading() {
    let seen = Rc::new(RefCell::new(Seen::default()));
    let input = Pieces {
        pieces: [Ok(CLOCK.to_vec()), Ok(FETCH.to_vec())].into(),
        seen: Rc::clone(&seen),
    };
    // A slice of seventeen bytes has room for the first line and no more.
    let mut space = [0; 17];
    let result = serial(input, &mut space[..]);
    assert!(matches!(result, Err(SerialFailure::Writing(_))));
    assert_eq!(space, CLOCKED.as_bytes());
    assert_eq!(seen.borrow().lines_at_reads.len(), 2);
}
