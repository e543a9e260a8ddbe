//! The controller's address register and its written registers R0 to R15.

const REGISTERS: usize = 16;

/// How many low bits each of R0 to R15 keeps of a written byte ("Controller
/// registers").
const BITS_KEPT: [u32; REGISTERS] = [
    8, 8, 8, 8, // R0 to R3
    7, // R4
    5, // R5
    7, 7, // R6, R7
    8, // R8
    5, // R9
    7, // R10
    5, // R11
    6, 8, // R12, R13
    6, 8, // R14, R15
];

#[derive(Clone, Copy, PartialEq, Eq, Debug)]
pub struct Registers {
    address: u8,
    held: [u8; REGISTERS],
}

impl Registers {
    pub const ZERO: Self = Registers {
        address: 0,
        held: [0; REGISTERS],
    };

    /// A write with RS 0: five bits name the register meant by RS 1.
    pub fn write_address(&mut self, data: u8) {
        self.address = data & 0b1_1111;
    }

    /// A write with RS 1 to the named register; 16 to 31 take no notice.
    pub fn write_named(&mut self, data: u8) {
        let number = usize::from(self.address);
        if let (Some(held), Some(bits)) = (self.held.get_mut(number), BITS_KEPT.get(number)) {
            *held = data & (0xFF >> (8 - bits));
        }
    }

    pub fn address(&self) -> u8 {
        self.address
    }

    /// What R0 to R15 hold, by number; nothing for any other number.
    pub fn held(&self, number: usize) -> Option<u8> {
        self.held.get(number).copied()
    }

    /// What R0 to R15 hold, in this order.
    pub fn all_held(&self) -> [u8; REGISTERS] {
        self.held
    }

    /// R0: the last column of a line.
    pub fn last_column(&self) -> u8 {
        self.held[0]
    }

    /// R1: columns shown; also how far the base moves from row to row.
    pub fn columns_shown(&self) -> u8 {
        self.held[1]
    }

    /// R2: the column at which HSYNC begins.
    pub fn hsync_column(&self) -> u8 {
        self.held[2]
    }

    /// R3, low four bits: character times of HSYNC.
    pub fn hsync_width(&self) -> u8 {
        self.held[3] & 0x0F
    }

    /// R3, high four bits: lines of VSYNC, where 0 stands for 16.
    pub fn vsync_width(&self) -> u8 {
        match self.held[3] >> 4 {
            0 => 16,
            lines => lines,
        }
    }

    /// R4: the last row of a frame.
    pub fn last_row(&self) -> u8 {
        self.held[4]
    }

    /// R5: lines (not rows) added after the last row.
    pub fn adjust_lines(&self) -> u8 {
        self.held[5]
    }

    /// R6: rows shown.
    pub fn rows_shown(&self) -> u8 {
        self.held[6]
    }

    /// R7: the row at which VSYNC begins.
    pub fn vsync_row(&self) -> u8 {
        self.held[7]
    }

    /// R8 bit 2: memory is addressed by row and column, not straight on.
    pub fn row_column_addressing(&self) -> bool {
        self.held[8] & 0b0000_0100 != 0
    }

    /// R8 bit 4: the display enable pin runs one character time late.
    pub fn delays_display_enable(&self) -> bool {
        self.held[8] & 0b0001_0000 != 0
    }

    /// R8 bit 5: the cursor pin runs one character time late.
    pub fn delays_cursor(&self) -> bool {
        self.held[8] & 0b0010_0000 != 0
    }

    /// R9: the last line of a row.
    pub fn last_line(&self) -> u8 {
        self.held[9]
    }

    /// R10, low five bits: the first line of the cursor.
    pub fn cursor_first_line(&self) -> u8 {
        self.held[10] & 0b1_1111
    }

    /// R10 bits 6 and 5: how the cursor blinks.
    pub fn cursor_blink(&self) -> u8 {
        self.held[10] >> 5
    }

    /// R11: the last line of the cursor.
    pub fn cursor_last_line(&self) -> u8 {
        self.held[11]
    }

    /// R12 and R13: the start address.
    pub fn start(&self) -> u16 {
        u16::from_be_bytes([self.held[12], self.held[13]])
    }

    /// R14 and R15: the cursor's address.
    pub fn cursor_address(&self) -> u16 {
        u16::from_be_bytes([self.held[14], self.held[15]])
    }
}
