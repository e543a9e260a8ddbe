//! What the frame of a setting does, told in numbers: seven for each setting
//! and seven for the whole batch.

mod frame;
mod listing;
mod places;
mod report;
mod row;

pub use frame::{CharacterTime, Frame};
pub use listing::{counts_text, MOST_COUNTS_INPUT_BYTES};
pub use places::{places_text, MOST_PLACES_INPUT_BYTES};
pub use report::{places_needed, report, CountRefusal};
pub use row::{row_of, totals_of, Row, ROW_PLACES};
