//! What is true of the character time the scan stands at.

use super::address::memory_address;
use super::registers::Registers;
use super::scan::Scan;

/// The two facts that the display enable and cursor pins show.
#[derive(Clone, Copy, PartialEq, Eq, Debug)]
pub struct Facts {
    pub picture: bool,
    pub cursor: bool,
}

impl Facts {
    pub const NEITHER: Self = Facts {
        picture: false,
        cursor: false,
    };

    pub fn of(registers: &Registers, scan: &Scan) -> Self {
        Facts {
            picture: in_picture(registers, scan),
            cursor: at_cursor(registers, scan),
        }
    }
}

/// Whether the scan is in the picture ("One character time", picture).
pub fn in_picture(registers: &Registers, scan: &Scan) -> bool {
    !scan.adjusting
        && scan.row.is_below(registers.rows_shown())
        && scan.column.is_below(registers.columns_shown())
}

/// Whether the cursor is shown here: in the picture, at its address, on one of
/// its lines, and not blinked away ("One character time", cursor fact).
fn at_cursor(registers: &Registers, scan: &Scan) -> bool {
    in_picture(registers, scan)
        && memory_address(registers, scan) == registers.cursor_address()
        && !scan.line.is_below(registers.cursor_first_line())
        && (scan.line.is_below(registers.cursor_last_line())
            || scan.line.is(registers.cursor_last_line()))
        && blink_allows(registers, scan)
}

/// The four blink modes: always, never, and two speeds taken from the field
/// counter ("One character time", blink).
fn blink_allows(registers: &Registers, scan: &Scan) -> bool {
    match registers.cursor_blink() {
        0b00 => true,
        0b01 => false,
        0b10 => !scan.field.bit(3),
        _ => !scan.field.bit(4),
    }
}
