//! The seven numbers of a frame, and those of several frames together.

use std::array;
use std::iter;

use super::frame::{CharacterTime, Frame};

pub const ROW_PLACES: usize = 7;

/// Where the largest single change stands, the one number that is not summed.
const LARGEST_CHANGE: usize = 6;

/// Character times in the picture, with display enable, cursor, HSYNC and VSYNC
/// high; then the sum of address lines changed and the largest single change.
pub type Row = [u64; ROW_PLACES];

/// The numbers of one frame, each reckoned from its list of character times and
/// put in the order in which request W1 names them.
pub fn row_of(frame: &Frame) -> Row {
    [
        times_with(frame, |time| time.picture),
        times_with(frame, |time| time.pins.display_enable),
        times_with(frame, |time| time.pins.cursor),
        times_with(frame, |time| time.pins.hsync),
        times_with(frame, |time| time.pins.vsync),
        lines_changed(frame).sum(),
        lines_changed(frame).max().unwrap_or(0),
    ]
}

fn times_with(frame: &Frame, holds: impl Fn(&CharacterTime) -> bool) -> u64 {
    let mut times = 0;
    for time in &frame.times {
        times += u64::from(holds(time));
    }
    times
}

/// How many lines of MA differ between each character time and the next, the
/// step into the next frame being the last one (request W1, address lines).
fn lines_changed(frame: &Frame) -> impl Iterator<Item = u64> + '_ {
    let next_times = frame
        .times
        .iter()
        .skip(1)
        .chain(iter::once(&frame.next_first));
    frame.times.iter().zip(next_times).map(|(time, next)| {
        let differing = time.memory_address ^ next.memory_address;
        u64::from(differing.count_ones())
    })
}

/// The row of totals: a sum in every place but the last, which takes the
/// greatest of the largest changes (request W1, row of totals).
pub fn totals_of(rows: &[Row]) -> Row {
    array::from_fn(|place| {
        let numbers = rows.iter().map(|row| row[place]);
        if place == LARGEST_CHANGE {
            numbers.max().unwrap_or(0)
        } else {
            numbers.sum()
        }
    })
}
