//! A second reading of the bench on paper: a 6545-1 CRT controller beside an
//! MC6883 synchronous address multiplexer. A batch of four-byte records drives
//! them, and each record is answered with eight bytes. The records may also come
//! off a serial line, in cuts of any length. A batch of settings has the frame of
//! each counted. A customer's setup is read from one file and written to one.
//!
//! Everything is counted the slow way, as the rules read: one character time,
//! one fetch, one cell after another.

pub mod bench;
pub mod controller;
pub mod counts;
pub mod cuts;
pub mod hex;
pub mod line;
pub mod listing;
pub mod locator;
pub mod mode;
pub mod multiplexer;
pub mod record;
pub mod refusal;
pub mod replay;
pub mod room;
pub mod serial;
pub mod setting;
pub mod setup;
mod two_bytes;

pub use bench::Bench;
pub use controller::Controller;
pub use counts::{report, CountRefusal};
pub use line::{CutTaken, Line, LineEnding};
pub use multiplexer::Multiplexer;
pub use refusal::Refusal;
pub use replay::{replay, unread_rest, Ending, Replayed};
pub use setting::Setting;
pub use setup::{read_setup, write_setup, Setup, SetupRefusal};
