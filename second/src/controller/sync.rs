//! The two sync pulses, each a count that runs down to zero.

use super::registers::Registers;
use super::scan::Scan;

#[derive(Clone, Copy, PartialEq, Eq, Debug)]
pub struct Sync {
    hsync_left: u8,
    vsync_left: u8,
}

impl Sync {
    pub const IDLE: Self = Sync {
        hsync_left: 0,
        vsync_left: 0,
    };

    /// What arriving at a character does to the pulses: HSYNC is counted at
    /// every character, VSYNC only at column 0 ("One character time", on
    /// arrival). A match sets the count anew, running or not.
    pub fn arrive(&mut self, registers: &Registers, scan: &Scan) {
        if scan.column.is(registers.hsync_column()) {
            self.hsync_left = registers.hsync_width();
        } else {
            self.hsync_left = self.hsync_left.saturating_sub(1);
        }
        if scan.column.is(0) {
            self.arrive_at_line(registers, scan);
        }
    }

    fn arrive_at_line(&mut self, registers: &Registers, scan: &Scan) {
        let first_line_of_row = scan.line.is(0) && !scan.adjusting;
        if first_line_of_row && scan.row.is(registers.vsync_row()) {
            self.vsync_left = registers.vsync_width();
        } else {
            self.vsync_left = self.vsync_left.saturating_sub(1);
        }
    }

    pub fn hsync(&self) -> bool {
        self.hsync_left > 0
    }

    pub fn vsync(&self) -> bool {
        self.vsync_left > 0
    }
}
