//! The report as decimal numbers, a line for each row.

use super::report::{places_needed, report};
use super::row::ROW_PLACES;
use crate::setting::{MOST_SETTINGS, SETTING_BYTES};

/// The longest batch of settings, in bytes.
pub const MOST_COUNTS_INPUT_BYTES: usize = MOST_SETTINGS * SETTING_BYTES;

/// A line for each setting and one for the totals, or just the refusal. There
/// are always places enough, so only refusal 10 can come.
pub fn counts_text(bytes: &[u8]) -> String {
    let mut places = vec![0; places_needed(MOST_SETTINGS)];
    let written = match report(bytes, &mut places) {
        Ok(written) => written,
        Err(refusal) => return format!("refused {}\n", refusal.number()),
    };
    let (rows, totals) = places[..written].split_at(written - ROW_PLACES);
    let mut text: String = rows.chunks_exact(ROW_PLACES).map(line).collect();
    text.push_str("total ");
    text.push_str(&line(totals));
    text
}

/// Numbers with one space between them.
fn line(row: &[u64]) -> String {
    let numbers: Vec<String> = row.iter().map(u64::to_string).collect();
    numbers.join(" ") + "\n"
}
