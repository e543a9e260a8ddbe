//! Where in the memory chips an address lies.

use super::control::MemorySize;

#[derive(Clone, Copy, PartialEq, Eq, Debug)]
pub struct MemoryCell {
    pub bank: u8,
    pub row: u8,
    pub column: u8,
}

impl MemoryCell {
    pub const NONE: Self = MemoryCell {
        bank: 0,
        row: 0,
        column: 0,
    };

    /// Splits an address into bank, row and column by the size of memory ("The
    /// multiplexer", cells). The processor's address and the display's are
    /// split alike.
    pub fn of(address: u16, size: MemorySize) -> Self {
        let lines = |highest, lowest| address_lines(address, highest, lowest);
        match size {
            MemorySize::FourK => MemoryCell {
                bank: lines(12, 12),
                row: lines(5, 0),
                column: lines(11, 6),
            },
            MemorySize::SixteenK => MemoryCell {
                bank: lines(14, 14),
                row: lines(6, 0),
                column: lines(13, 7),
            },
            MemorySize::SixtyFourK => MemoryCell {
                bank: 0,
                row: lines(7, 0),
                column: lines(15, 8),
            },
        }
    }
}

/// Address lines from the highest down to the lowest (at most eight) as a number.
fn address_lines(address: u16, highest: u32, lowest: u32) -> u8 {
    (lowest..=highest).rev().fold(0, |number, line| {
        (number << 1) | ((address >> line) & 1) as u8
    })
}
