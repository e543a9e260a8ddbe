//! Finding the screen cell that a pen strike hit.

use crate::controller::counter::Counter;
use crate::controller::{latched, Controller, Registers, Scan};
use crate::refusal::Refusal;

#[derive(Clone, Copy, PartialEq, Eq, Debug)]
pub struct ScreenCell {
    pub row: u8,
    pub column: u8,
}

/// Looks through the whole list of cells for the one that fits the latch, and
/// says why there is no answer otherwise ("The locator"; refusals 5 to 8).
pub fn locate(controller: &Controller) -> Result<ScreenCell, Refusal> {
    let strike = controller.last_strike().ok_or(Refusal::NoStrike)?;
    if !strike.in_picture {
        return Err(Refusal::StrikeOutsidePicture);
    }
    let registers = controller.registers();
    let mut fitting = cells(registers).filter(|cell| fits(registers, *cell, strike.latch));
    let found = fitting.next().ok_or(Refusal::NoCellFits)?;
    match fitting.next() {
        None => Ok(found),
        Some(_) => Err(Refusal::SeveralCellsFit),
    }
}

/// The list of cells: rows and columns that are both shown and reached by the
/// counters ("The locator", first sentence).
fn cells(registers: &Registers) -> impl Iterator<Item = ScreenCell> + '_ {
    let rows =
        (0..=u8::MAX).filter(|row| *row < registers.rows_shown() && *row <= registers.last_row());
    rows.flat_map(move |row| {
        let columns = (0..=u8::MAX).filter(|column| {
            *column < registers.columns_shown() && *column <= registers.last_column()
        });
        columns.map(move |column| ScreenCell { row, column })
    })
}

/// Whether a strike in the cell leaves this latch, tried on each of its lines 0
/// to R9. On the last of them another row, the adjust lines or a new frame may
/// follow within the two character times (request W5).
fn fits(registers: &Registers, cell: ScreenCell, latch: u16) -> bool {
    (0..=registers.last_line())
        .any(|line| latched(registers, &scan_in(registers, cell, line)) == latch)
}

/// The scan standing in a cell on one of its lines, by the registers as they are
/// now and not as some frame sampled them ("The locator", second sentence).
fn scan_in(registers: &Registers, cell: ScreenCell, line: u8) -> Scan {
    // Rows shown end at 126, so neither this product nor the sum below overflows.
    let rows_above = u16::from(cell.row) * u16::from(registers.columns_shown());
    Scan {
        column: Counter::holding(u16::from(cell.column)),
        line: Counter::holding(u16::from(line)),
        row: Counter::holding(u16::from(cell.row)),
        base: Counter::holding(registers.start() + rows_above),
        ..Scan::fresh(registers)
    }
}
