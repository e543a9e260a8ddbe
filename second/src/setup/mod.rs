//! A customer's setup in one file: the registers, the control bits and a batch,
//! or some of these (request W6).

mod contents;
mod listing;
mod pack;
mod parts;
mod reader;
mod refusal;
mod writer;

pub use listing::{setup_text, MOST_SETUP_INPUT_BYTES};
pub use pack::{packed, NO_SETUP};
pub use parts::{Setup, CONTROL_BYTES, MOST_BATCH_BYTES, REGISTERS_BYTES};
pub use reader::read_setup;
pub use refusal::SetupRefusal;
pub use writer::write_setup;
