//! The report put in a chosen number of places, every one of them shown. The
//! listing always has places enough, so only here can refusal 11 come.

use super::listing::MOST_COUNTS_INPUT_BYTES;
use super::report::report;
use crate::room::NO_ROOM;

/// The number of places comes first in the input, high byte before low byte.
const PLACES_FIELD_BYTES: usize = 2;

/// The number of places and the longest batch of settings.
pub const MOST_PLACES_INPUT_BYTES: usize = PLACES_FIELD_BYTES + MOST_COUNTS_INPUT_BYTES;

/// A greater number of places counts as this one.
const MOST_PLACES: usize = 1_024;

/// What every place holds before, so that a place written to shows.
const UNTOUCHED: u64 = 0xA5A5_A5A5_A5A5_A5A5;

/// The refusal number (0 when the report was given) and then all the places, or
/// just the words for an input that does not tell how many there are.
pub fn places_text(input: &[u8]) -> String {
    let Some((field, settings)) = input.split_first_chunk::<PLACES_FIELD_BYTES>() else {
        return String::from(NO_ROOM);
    };
    let count = usize::from(u16::from_be_bytes(*field)).min(MOST_PLACES);
    let mut places = vec![UNTOUCHED; count];
    let number = match report(settings, &mut places) {
        Ok(_) => 0,
        Err(refusal) => refusal.number(),
    };
    let mut text = format!("{number}\n");
    for place in places {
        text.push_str(&format!("{place:016x}\n"));
    }
    text
}
