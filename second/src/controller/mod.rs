//! The 6545-1 CRT controller.

mod address;
pub mod counter;
mod facts;
mod pen;
mod registers;
mod scan;
mod sync;

pub use facts::Facts;
pub use pen::{latched, Strike};
pub use registers::Registers;
pub use scan::Scan;

use pen::Pen;
use sync::Sync;

const STATUS_L: u8 = 0b0100_0000;
const STATUS_V: u8 = 0b0010_0000;

#[derive(Clone, Copy, PartialEq, Eq, Debug)]
pub struct Controller {
    registers: Registers,
    scan: Scan,
    sync: Sync,
    pen: Pen,
    /// The facts of the last character, as they stood when the scan left it.
    left: Facts,
}

/// The levels on the controller's pins.
#[derive(Clone, Copy, PartialEq, Eq, Debug)]
pub struct Pins {
    pub display_enable: bool,
    pub cursor: bool,
    pub hsync: bool,
    pub vsync: bool,
}

impl Controller {
    /// Power-on: everything zero, and arrived at character 0 as after a reset.
    pub fn fresh() -> Self {
        Self::arrived_with(Registers::ZERO)
    }

    /// Reset keeps what was written and makes everything else fresh
    /// ("Controller registers", last paragraph).
    pub fn reset(&mut self) {
        *self = Self::arrived_with(self.registers);
    }

    fn arrived_with(registers: Registers) -> Self {
        let scan = Scan::fresh(&registers);
        let mut sync = Sync::IDLE;
        sync.arrive(&registers, &scan);
        Controller {
            registers,
            scan,
            sync,
            pen: Pen::NEVER_STRUCK,
            left: Facts::NEITHER,
        }
    }

    /// One character time: note what was true of the character being left,
    /// move the counters, arrive.
    pub fn clock(&mut self) {
        self.left = self.facts();
        self.scan.step(&self.registers);
        self.sync.arrive(&self.registers, &self.scan);
    }

    /// A write: RS 0 names a register, RS 1 fills it ("Controller registers").
    pub fn write(&mut self, rs: u8, data: u8) {
        if rs == 0 {
            self.registers.write_address(data);
        } else {
            self.registers.write_named(data);
        }
    }

    /// A read: RS 0 gives the status, whatever is named ("Controller registers").
    /// RS 1 gives the cursor's address or the latch, R14 to R17; any other name
    /// leaves the bus alone, even one that was written to (request W2).
    pub fn read(&mut self, rs: u8) -> Option<u8> {
        if rs == 0 {
            return Some(self.status());
        }
        let [latch_high, latch_low] = self.pen.latch_bytes();
        let [cursor_high, cursor_low] = self.registers.cursor_address().to_be_bytes();
        match self.registers.address() {
            14 => Some(cursor_high),
            15 => Some(cursor_low),
            16 => {
                self.pen.note_latch_read();
                Some(latch_high)
            }
            17 => {
                self.pen.note_latch_read();
                Some(latch_low)
            }
            _ => None,
        }
    }

    /// The status byte: L for an unread strike, V for the vertical blank.
    fn status(&self) -> u8 {
        let mut status = 0;
        if self.pen.is_unread() {
            status |= STATUS_L;
        }
        if self.in_vertical_blank() {
            status |= STATUS_V;
        }
        status
    }

    /// V: below the rows shown, or in the adjust lines whatever the row says.
    fn in_vertical_blank(&self) -> bool {
        self.scan.adjusting || !self.scan.row.is_below(self.registers.rows_shown())
    }

    /// A pen strike. What it latches comes later in the scan (request W5), but
    /// whether it is in the picture is a fact of the character struck, and never
    /// of a pin that may run late ("One character time", last paragraph).
    pub fn strike(&mut self) -> Strike {
        let latch = latched(&self.registers, &self.scan);
        let in_picture = self.facts().picture;
        self.pen.strike(latch, in_picture)
    }

    pub fn last_strike(&self) -> Option<Strike> {
        self.pen.last_strike()
    }

    pub fn facts(&self) -> Facts {
        Facts::of(&self.registers, &self.scan)
    }

    pub fn memory_address(&self) -> u16 {
        address::memory_address(&self.registers, &self.scan)
    }

    /// The pins: each of the first two may show the character just left
    /// instead of the present one ("One character time", R8 bits 4 and 5).
    pub fn pins(&self) -> Pins {
        let now = self.facts();
        let late_display = self.registers.delays_display_enable();
        let late_cursor = self.registers.delays_cursor();
        Pins {
            display_enable: if late_display {
                self.left.picture
            } else {
                now.picture
            },
            cursor: if late_cursor {
                self.left.cursor
            } else {
                now.cursor
            },
            hsync: self.sync.hsync(),
            vsync: self.sync.vsync(),
        }
    }

    pub fn registers(&self) -> &Registers {
        &self.registers
    }

    pub fn scan(&self) -> &Scan {
        &self.scan
    }
}
