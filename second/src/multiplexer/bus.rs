//! One processor bus cycle, judged by the control bits as they stand.

use super::cell::MemoryCell;
use super::control::ControlBits;

#[derive(Clone, Copy, PartialEq, Eq, Debug)]
pub struct BusCycle {
    pub select: u8,
    pub ticks: u8,
    pub ram: bool,
    pub barred_pair: bool,
    pub control_write: bool,
    pub cell: MemoryCell,
}

const SLOW: u8 = 16;
const FAST: u8 = 8;

/// Selects of the eight 32-byte parts of the $FF00 block, the same in both map
/// types ("The multiplexer", selects).
const HIGH_BLOCK_SELECTS: [u8; 8] = [4, 5, 6, 7, 7, 7, 7, 2];

impl BusCycle {
    pub fn judge(control: &ControlBits, address: u16, read: bool) -> Self {
        let ram = is_ram(control, address);
        let rated = control.rate_1() || control.rate_0();
        BusCycle {
            select: select(control, address, read),
            ticks: ticks(control, address),
            ram,
            barred_pair: control.map_type_1() && rated,
            control_write: !read && ControlBits::has_address(address),
            cell: if ram {
                processor_cell(control, address)
            } else {
                MemoryCell::NONE
            },
        }
    }
}

/// RAM is the lower half, and in map type 1 all below the $FF00 block.
fn is_ram(control: &ControlBits, address: u16) -> bool {
    match address {
        0x0000..=0x7FFF => true,
        0x8000..=0xFEFF => control.map_type_1(),
        0xFF00..=0xFFFF => false,
    }
}

/// The device select number ("The multiplexer", selects).
fn select(control: &ControlBits, address: u16, read: bool) -> u8 {
    if is_ram(control, address) {
        return if read { 0 } else { 7 };
    }
    match address {
        0x0000..=0x9FFF => 1,
        0xA000..=0xBFFF => 2,
        0xC000..=0xFEFF => 3,
        0xFF00..=0xFFFF => HIGH_BLOCK_SELECTS[usize::from((address - 0xFF00) / 32)],
    }
}

/// The cycle's length in crystal ticks: always fast, always slow, or slow only
/// for the lower half and the first 32 bytes of the $FF00 block ("The
/// multiplexer", ticks).
fn ticks(control: &ControlBits, address: u16) -> u8 {
    match (control.rate_1(), control.rate_0()) {
        (true, _) => FAST,
        (false, false) => SLOW,
        (false, true) => match address {
            0x0000..=0x7FFF | 0xFF00..=0xFF1F => SLOW,
            _ => FAST,
        },
    }
}

/// The processor's memory cell; in map type 0, P takes the place of A15 ("The
/// multiplexer", cells).
fn processor_cell(control: &ControlBits, address: u16) -> MemoryCell {
    let line_15 = if control.map_type_1() {
        address >= 0x8000
    } else {
        control.page()
    };
    let routed = (address & 0x7FFF) | if line_15 { 0x8000 } else { 0 };
    MemoryCell::of(routed, control.memory_size())
}
