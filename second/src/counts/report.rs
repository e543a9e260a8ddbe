//! The report on a batch of settings, put in lent places.

use super::frame::Frame;
use super::row::{row_of, totals_of, Row, ROW_PLACES};
use crate::setting::{whole_settings, Setting};

/// The reasons for which no report is given.
#[derive(Clone, Copy, PartialEq, Eq, Debug)]
pub enum CountRefusal {
    /// The bytes are not 1 to 64 settings of sixteen bytes.
    NotWholeSettings,
    /// The report has more numbers than there are places.
    TooFewPlaces,
}

impl CountRefusal {
    pub fn number(self) -> u8 {
        match self {
            CountRefusal::NotWholeSettings => 10,
            CountRefusal::TooFewPlaces => 11,
        }
    }
}

/// A row for each setting and the row of totals.
pub fn places_needed(settings: usize) -> usize {
    (settings + 1) * ROW_PLACES
}

/// Writes a row for each setting and then the row of totals, and tells how many
/// places that took. The bytes are judged before the places, and nothing is
/// written unless the whole report is (request W1, refusals). Places past the
/// report are left as they were.
pub fn report(bytes: &[u8], places: &mut [u64]) -> Result<usize, CountRefusal> {
    let settings = whole_settings(bytes).ok_or(CountRefusal::NotWholeSettings)?;
    let needed = places_needed(settings.len());
    let room = places.get_mut(..needed).ok_or(CountRefusal::TooFewPlaces)?;
    let mut rows: Vec<Row> = settings.iter().map(setting_row).collect();
    rows.push(totals_of(&rows));
    room.copy_from_slice(&rows.concat());
    Ok(needed)
}

fn setting_row(setting: &Setting) -> Row {
    row_of(&Frame::first_of(setting))
}
