//! The counters of the scan, moved on by one character time at a time.

use super::counter::Counter;
use super::registers::Registers;

#[derive(Clone, Copy, PartialEq, Eq, Debug)]
pub struct Scan {
    pub column: Counter<8>,
    pub line: Counter<5>,
    pub row: Counter<7>,
    pub base: Counter<14>,
    pub field: Counter<5>,
    pub adjusting: bool,
    /// The start address as sampled when the frame began.
    pub start: u16,
}

impl Scan {
    /// All counters at zero and the start address sampled, as power-on and
    /// reset leave them ("Controller registers", last paragraph).
    pub fn fresh(registers: &Registers) -> Self {
        Scan {
            column: Counter::ZERO,
            line: Counter::ZERO,
            row: Counter::ZERO,
            base: Counter::holding(registers.start()),
            field: Counter::ZERO,
            adjusting: false,
            start: registers.start(),
        }
    }

    /// One step of the counters: the column runs on until it equals R0, and
    /// only then is a line over ("One character time", list of cases).
    pub fn step(&mut self, registers: &Registers) {
        if !self.column.is(registers.last_column()) {
            self.column = self.column.next();
            return;
        }
        self.column = Counter::ZERO;
        if self.adjusting {
            self.end_adjust_line(registers);
        } else {
            self.end_line(registers);
        }
    }

    /// The end of an ordinary line: another line, another row, the adjust
    /// lines, or at once a new frame ("One character time", not adjusting).
    fn end_line(&mut self, registers: &Registers) {
        if !self.line.is(registers.last_line()) {
            self.line = self.line.next();
        } else if !self.row.is(registers.last_row()) {
            self.begin_row(registers);
        } else if registers.adjust_lines() == 0 {
            self.begin_frame(registers);
        } else {
            self.adjusting = true;
            self.begin_row(registers);
        }
    }

    /// The end of an adjust line: the frame is over once the lines run amount
    /// to R5, counted in five bits ("One character time", adjusting).
    fn end_adjust_line(&mut self, registers: &Registers) {
        let lines_run = self.line.next();
        if lines_run.is(registers.adjust_lines()) {
            self.begin_frame(registers);
        } else {
            self.line = lines_run;
        }
    }

    /// The row below: first line again, base moved on by the columns shown.
    fn begin_row(&mut self, registers: &Registers) {
        self.line = Counter::ZERO;
        self.row = self.row.next();
        self.base = self.base.plus(registers.columns_shown());
    }

    /// A new frame: everything as fresh, except that the field counts on
    /// ("One character time", new frame).
    fn begin_frame(&mut self, registers: &Registers) {
        let field = self.field.next();
        *self = Scan {
            field,
            ..Scan::fresh(registers)
        };
    }
}
