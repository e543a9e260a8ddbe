//! The light pen: its latch, the last strike, and the status bit L.

use super::address::memory_address;
use super::registers::Registers;
use super::scan::Scan;

/// How many character times after the strike the latched address is shown.
const TIMES_TO_THE_LATCH: usize = 2;

#[derive(Clone, Copy, PartialEq, Eq, Debug)]
pub struct Strike {
    pub latch: u16,
    pub in_picture: bool,
}

#[derive(Clone, Copy, PartialEq, Eq, Debug)]
pub struct Pen {
    last_strike: Option<Strike>,
    unread: bool,
}

impl Pen {
    pub const NEVER_STRUCK: Self = Pen {
        last_strike: None,
        unread: false,
    };

    /// A strike takes the place of any earlier one and sets L ("One character
    /// time", last paragraph; "Controller registers", L).
    pub fn strike(&mut self, latch: u16, in_picture: bool) -> Strike {
        let strike = Strike { latch, in_picture };
        self.last_strike = Some(strike);
        self.unread = true;
        strike
    }

    /// Reading R16 or R17 clears L; the latch itself stays.
    pub fn note_latch_read(&mut self) {
        self.unread = false;
    }

    /// The status bit L.
    pub fn is_unread(&self) -> bool {
        self.unread
    }

    pub fn last_strike(&self) -> Option<Strike> {
        self.last_strike
    }

    /// R16 and R17; zero while there has been no strike.
    pub fn latch_bytes(&self) -> [u8; 2] {
        self.last_strike
            .map_or(0, |strike| strike.latch)
            .to_be_bytes()
    }
}

/// What a strike latches when the scan stands here: the MA it comes to two
/// character times later if no register is written until then, whatever ends on
/// the way there (request W5). A copy of the scan is stepped, not the scan.
pub fn latched(registers: &Registers, scan: &Scan) -> u16 {
    let mut ahead = *scan;
    for _ in 0..TIMES_TO_THE_LATCH {
        ahead.step(registers);
    }
    memory_address(registers, &ahead)
}
