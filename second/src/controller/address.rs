//! The memory address (MA) that the scan shows.

use super::registers::Registers;
use super::scan::Scan;

/// Addresses have 14 bits.
const ADDRESSES: u16 = 16_384;

/// MA, in the picture or out of it: straight on from the base, or, in
/// row/column addressing, the row added to the start's high part and the column
/// to its low byte, with no carry between the two ("One character time", MA with
/// R8 bit 2).
pub fn memory_address(registers: &Registers, scan: &Scan) -> u16 {
    if !registers.row_column_addressing() {
        return (scan.base.value() + scan.column.value()) % ADDRESSES;
    }
    let [start_high, start_low] = scan.start.to_be_bytes();
    let high = (u16::from(start_high) + scan.row.value()) % 64;
    let low = (u16::from(start_low) + scan.column.value()) % 256;
    256 * high + low
}
