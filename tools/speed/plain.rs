//! The rules of document 01 and request W5 stepped plainly in Rust: a character time, a display fetch, a search over the picture's cells
//! and their lines.
//! It stands on no library, so that it can be compiled for x86-64 on any machine.
#![no_std]

/// R0 to R15.
type Registers = [u8; 16];

#[derive(Clone, Copy)]
#[repr(C)]
pub struct Scan {
    column: u8,
    line: u8,
    row: u8,
    base: u16,
    start: u16,
    field: u8,
    adjusting: bool,
}

#[derive(Clone, Copy)]
#[repr(C)]
pub struct Sync {
    hsync: u8,
    vsync: u8,
}

#[derive(Clone, Copy)]
#[repr(C)]
pub struct Place {
    scan: Scan,
    sync: Sync,
}

#[repr(C)]
pub struct Found {
    refusal: u8,
    row: u8,
    column: u8,
}

#[derive(Clone, Copy)]
#[repr(C)]
pub struct Counted {
    b: u16,
    x: u8,
    y: u8,
}

#[derive(Clone, Copy)]
#[repr(C)]
pub struct Mode {
    x: u8,
    y: u8,
}

impl Scan {
    fn next_row(&mut self, r: &Registers) {
        self.line = 0;
        self.row = (self.row + 1) % 128;
        self.base = (self.base + u16::from(r[1])) % 16384;
    }

    fn next_frame(&mut self, r: &Registers) {
        self.line = 0;
        self.row = 0;
        self.adjusting = false;
        self.start = 256 * u16::from(r[12]) + u16::from(r[13]);
        self.base = self.start;
        self.field = (self.field + 1) % 32;
    }

    fn next_line(&mut self, r: &Registers) {
        if self.adjusting {
            if (self.line + 1) % 32 == r[5] {
                self.next_frame(r);
            } else {
                self.line = (self.line + 1) % 32;
            }
        } else if self.line != r[9] {
            self.line = (self.line + 1) % 32;
        } else if self.row != r[4] {
            self.next_row(r);
        } else if r[5] == 0 {
            self.next_frame(r);
        } else {
            self.next_row(r);
            self.adjusting = true;
        }
    }

    fn step(&mut self, r: &Registers) {
        if self.column != r[0] {
            self.column = self.column.wrapping_add(1);
        } else {
            self.column = 0;
            self.next_line(r);
        }
    }

    /// MA.
    fn address(&self, r: &Registers) -> u32 {
        let column = u32::from(self.column);
        if r[8] / 4 % 2 == 1 {
            let (high, low) = (u32::from(self.start / 256), u32::from(self.start % 256));
            return 256 * ((high + u32::from(self.row)) % 64) + (low + column) % 256;
        }
        (u32::from(self.base) + column) % 16384
    }

    /// What a strike here latches: MA two character times on.
    fn latch(mut self, r: &Registers) -> u32 {
        self.step(r);
        self.step(r);
        self.address(r)
    }
}

impl Sync {
    fn arrive(&mut self, s: &Scan, r: &Registers) {
        if s.column == r[2] {
            self.hsync = r[3] % 16;
        } else if self.hsync > 0 {
            self.hsync -= 1;
        }
        if s.column != 0 {
            return;
        }
        if s.row == r[7] && s.line == 0 && !s.adjusting {
            self.vsync = if r[3] / 16 == 0 { 16 } else { r[3] / 16 };
        } else if self.vsync > 0 {
            self.vsync -= 1;
        }
    }
}

impl Place {
    fn step(&mut self, r: &Registers) {
        self.scan.step(r);
        self.sync.arrive(&self.scan, r);
    }
}

/// n character times.
#[no_mangle]
pub extern "C" fn rust_clock(at: &mut Place, held: &Registers, n: u32) {
    let mut p = *at;
    let r = *held;
    for _ in 0..n {
        p.step(&r);
    }
    *at = p;
}

fn shown_of(shown: u8, last: u8) -> u32 {
    u32::from(shown).min(u32::from(last) + 1)
}

/// Whether a strike in a cell leaves a latch, on one of its lines. The scan is at the cell's first.
fn fits(r: &Registers, cell: Scan, latch: u32) -> bool {
    (0..=r[9]).any(|line| Scan { line, ..cell }.latch(r) == latch)
}

/// The cells that fit a picture strike's latch, looked for on every line of every cell.
#[no_mangle]
pub extern "C" fn rust_locate(out: &mut Found, held: &Registers, latch: u32) {
    let r = *held;
    let (rows, columns) = (shown_of(r[6], r[4]), shown_of(r[1], r[0]));
    let mut found = Found { refusal: 7, row: 0, column: 0 };
    let mut fitting = 0;
    let start = 256 * u16::from(r[12]) + u16::from(r[13]);
    for row in 0..rows {
        let base = ((u32::from(start) + row * u32::from(r[1])) % 16384) as u16;
        for column in 0..columns {
            let (row, column) = (row as u8, column as u8);
            let cell = Scan { column, line: 0, row, base, start, field: 0, adjusting: false };
            if fits(&r, cell, latch) {
                fitting += 1;
                found = Found { refusal: 0, row, column };
            }
        }
    }
    *out = if fitting > 1 { Found { refusal: 8, row: 0, column: 0 } } else { found };
}

impl Counted {
    fn fetch(&mut self, m: &Mode) {
        if self.b % 16 != 15 {
            self.b += 1;
            return;
        }
        self.b -= 15;
        self.x += 1;
        if self.x < m.x {
            return;
        }
        self.x = 0;
        self.b ^= 16;
        if self.b / 16 % 2 == 1 {
            return;
        }
        self.y += 1;
        if self.y < m.y {
            return;
        }
        self.y = 0;
        self.b = self.b.wrapping_add(32);
    }
}

/// n display fetches.
#[no_mangle]
pub extern "C" fn rust_fetches(at: &mut Counted, mode: &Mode, n: u32) {
    let mut d = *at;
    let m = *mode;
    for _ in 0..n {
        d.fetch(&m);
    }
    *at = d;
}

/// The facts that a delayed pin shows one character late.
#[derive(Clone, Copy)]
struct Facts {
    picture: bool,
    cursor: bool,
}

fn address(r: &Registers, s: &Scan) -> u16 {
    if r[8] / 4 % 2 == 1 {
        return 256 * ((s.start / 256 + u16::from(s.row)) % 64) + (s.start % 256 + u16::from(s.column)) % 256;
    }
    (s.base + u16::from(s.column)) % 16384
}

fn blink_allows(r: &Registers, s: &Scan) -> bool {
    match r[10] / 32 % 4 {
        0 => true,
        1 => false,
        2 => s.field / 8 % 2 == 0,
        _ => s.field / 16 % 2 == 0,
    }
}

fn facts(r: &Registers, s: &Scan) -> Facts {
    let picture = !s.adjusting && s.row < r[6] && s.column < r[1];
    let at_cursor = address(r, s) == 256 * u16::from(r[14]) + u16::from(r[15]);
    let on_line = r[10] % 32 <= s.line && s.line <= r[11];
    Facts { picture, cursor: picture && at_cursor && on_line && blink_allows(r, s) }
}

/// The place at the first character after a reset.
fn reset(r: &Registers) -> Place {
    let start = 256 * u16::from(r[12]) + u16::from(r[13]);
    let scan = Scan { column: 0, line: 0, row: 0, base: start, start, field: 0, adjusting: false };
    let mut place = Place { scan, sync: Sync { hsync: 0, vsync: 0 } };
    place.sync.arrive(&scan, r);
    place
}

const MASKS: Registers = [255, 255, 255, 255, 127, 31, 127, 127, 255, 31, 127, 31, 63, 255, 63, 255];

/// The seven numbers of a setting's first frame.
fn counted(r: &Registers) -> [u64; 7] {
    let lines = (u32::from(r[4]) + 1) * (u32::from(r[9]) + 1) + u32::from(r[5]);
    let (display_late, cursor_late) = (r[8] / 16 % 2 == 1, r[8] / 32 % 2 == 1);
    let mut place = reset(r);
    let mut left = Facts { picture: false, cursor: false };
    let mut sums = [0; 7];
    for _ in 0..(u32::from(r[0]) + 1) * lines {
        let (here, from) = (facts(r, &place.scan), address(r, &place.scan));
        sums[0] += u64::from(here.picture);
        sums[1] += u64::from(if display_late { left.picture } else { here.picture });
        sums[2] += u64::from(if cursor_late { left.cursor } else { here.cursor });
        sums[3] += u64::from(place.sync.hsync > 0);
        sums[4] += u64::from(place.sync.vsync > 0);
        left = here;
        place.step(r);
        let changed = u64::from((from ^ address(r, &place.scan)).count_ones());
        sums[5] += changed;
        sums[6] = sums[6].max(changed);
    }
    sums
}

/// The report on so many settings: a row for each, and the totals.
#[no_mangle]
pub extern "C" fn rust_report(out: &mut [[u64; 7]; 65], settings: &[Registers; 64], n: u32) {
    let mut totals = [0; 7];
    for (row, setting) in out.iter_mut().zip(settings).take(n as usize) {
        let mut r = *setting;
        for (held, mask) in r.iter_mut().zip(MASKS) {
            *held &= mask;
        }
        *row = counted(&r);
        for (total, number) in totals.iter_mut().zip(*row).take(6) {
            *total += number;
        }
        totals[6] = totals[6].max(row[6]);
    }
    out[(n as usize).min(64)] = totals;
}
