//! What a setup is made of.

use crate::setting::{Setting, SETTING_BYTES};

/// The kinds of bodies, as numbered in the file.
pub const REGISTERS: u8 = 1;
pub const CONTROL: u8 = 2;
pub const BATCH: u8 = 3;

pub const REGISTERS_BYTES: usize = SETTING_BYTES;
pub const CONTROL_BYTES: usize = 2;
pub const MOST_BATCH_BYTES: usize = 4_096;

/// The parts that are there, each lent by whoever has the bytes. A setup without
/// a part, with a batch too long or with bits that no register has can be put
/// together, but the writer refuses it and the reader never gives it.
#[derive(Clone, Copy, Default, PartialEq, Eq, Debug)]
pub struct Setup<'a> {
    /// R0 to R15.
    pub registers: Option<&'a [u8; REGISTERS_BYTES]>,
    /// TY is the highest bit of the first byte, V0 the lowest of the second.
    pub control: Option<&'a [u8; CONTROL_BYTES]>,
    /// Whole records or not; nobody looks into it.
    pub batch: Option<&'a [u8]>,
}

impl<'a> Setup<'a> {
    /// Kind and body of every part that is there, in the file's order.
    pub fn bodies(&self) -> Vec<(u8, &'a [u8])> {
        let mut bodies: Vec<(u8, &'a [u8])> = Vec::new();
        if let Some(registers) = self.registers {
            bodies.push((REGISTERS, registers));
        }
        if let Some(control) = self.control {
            bodies.push((CONTROL, control));
        }
        if let Some(batch) = self.batch {
            bodies.push((BATCH, batch));
        }
        bodies
    }

    /// Whether a register's byte would be cut by writing it to the register. The
    /// other parts have no bit that is forbidden.
    pub fn has_forbidden_bit(&self) -> bool {
        match self.registers {
            Some(registers) => Setting::of(*registers).held() != *registers,
            None => false,
        }
    }
}
