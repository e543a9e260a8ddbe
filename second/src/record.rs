//! A record of four bytes, and the event it stands for.

use crate::refusal::Refusal;

pub const RECORD_BYTES: usize = 4;

/// What a sound record asks of the bench.
#[derive(Clone, Copy, PartialEq, Eq, Debug)]
pub enum Event {
    ControllerWrite { rs: u8, data: u8 },
    ControllerRead { rs: u8 },
    CharacterClocks { count: u16 },
    PenStrike,
    ResetController,
    ResetMultiplexer,
    BusCycle { address: u16, read: bool },
    DisplayFetches { count: u16 },
    HorizontalSync { hs_high: bool, da0: bool },
    Locate,
}

/// The largest value each field of a kind may hold. Every allowed range in the
/// table of kinds begins at 0, so the largest value says all.
struct Largest {
    hi: u8,
    lo: u8,
    data: u8,
}

const fn largest(hi: u8, lo: u8, data: u8) -> Largest {
    Largest { hi, lo, data }
}

/// Kinds 1 to 9, in order (table of kinds, "Records and what comes back").
const LARGEST_OF_KIND: [Largest; 9] = [
    largest(0, 1, 255),   // 1 controller write
    largest(0, 1, 0),     // 2 controller read
    largest(255, 255, 0), // 3 character clocks
    largest(0, 0, 0),     // 4 pen strike
    largest(0, 1, 0),     // 5 reset
    largest(255, 255, 1), // 6 bus cycle
    largest(255, 255, 0), // 7 display fetches
    largest(0, 1, 1),     // 8 HS and DA0 levels
    largest(0, 0, 0),     // 9 locate
];

/// Turns a record into an event, or refuses it. An unknown kind is noticed
/// before a bad field (order of refusals, "Records and what comes back").
pub fn decode(record: [u8; RECORD_BYTES]) -> Result<Event, Refusal> {
    let [kind, hi, lo, data] = record;
    let place = usize::from(kind).wrapping_sub(1);
    let allowed = LARGEST_OF_KIND.get(place).ok_or(Refusal::UnknownKind)?;
    if hi > allowed.hi || lo > allowed.lo || data > allowed.data {
        return Err(Refusal::FieldNotAllowed);
    }
    let n = u16::from_be_bytes([hi, lo]);
    match kind {
        1 => Ok(Event::ControllerWrite { rs: lo, data }),
        2 => Ok(Event::ControllerRead { rs: lo }),
        3 => Ok(Event::CharacterClocks { count: n }),
        4 => Ok(Event::PenStrike),
        5 if lo == 0 => Ok(Event::ResetController),
        5 => Ok(Event::ResetMultiplexer),
        6 => Ok(Event::BusCycle {
            address: n,
            read: data == 1,
        }),
        7 => Ok(Event::DisplayFetches { count: n }),
        8 => Ok(Event::HorizontalSync {
            hs_high: lo == 1,
            da0: data == 1,
        }),
        9 => Ok(Event::Locate),
        _ => Err(Refusal::UnknownKind),
    }
}
