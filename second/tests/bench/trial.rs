//! A bench to try things on: each call is one record and looks at its answer.

use second::{replay, Bench, Ending};

pub const PICTURE: u8 = 1;
pub const DISPLAY_ENABLE: u8 = 2;
pub const CURSOR: u8 = 4;
pub const HSYNC: u8 = 8;
pub const VSYNC: u8 = 16;

/// Setting A of the settled cases.
pub const SETTING_A: [(u8, u8); 6] = [(0, 3), (1, 2), (4, 1), (5, 1), (6, 2), (9, 1)];

/// The frame of setting A: memory address, line and flags of each of its 20
/// character times.
#[rustfmt::skip]
pub const SETTING_A_TIMES: [(u16, u8, u8); 20] = {
    const OFF: u8 = VSYNC;
    const ON: u8 = PICTURE | DISPLAY_ENABLE | VSYNC;
    [
        (0, 0, ON | CURSOR), (1, 0, ON), (2, 0, OFF), (3, 0, OFF),
        (0, 1, ON), (1, 1, ON), (2, 1, OFF), (3, 1, OFF),
        (2, 0, ON), (3, 0, ON), (4, 0, OFF), (5, 0, OFF),
        (2, 1, ON), (3, 1, ON), (4, 1, OFF), (5, 1, OFF),
        (4, 0, OFF), (5, 0, OFF), (6, 0, OFF), (7, 0, OFF),
    ]
};

/// The answer to character clocks.
#[derive(Clone, Copy, PartialEq, Eq, Debug)]
pub struct Character {
    pub ma: u16,
    pub ra: u8,
    pub flags: u8,
}

impl Character {
    pub fn shows(&self, flag: u8) -> bool {
        self.flags & flag != 0
    }
}

/// The answer to new levels of HS and DA0.
#[derive(Clone, Copy, PartialEq, Eq, Debug)]
pub struct Edge {
    pub edge: u8,
    pub first: u8,
    pub count: u8,
}

impl Edge {
    /// An edge at which `count` rows from `first` on are refreshed.
    pub fn refreshing(edge: u8, first: u8, count: u8) -> Edge {
        Edge { edge, first, count }
    }

    /// An edge at which nothing is refreshed.
    pub fn idle(edge: u8) -> Edge {
        Edge::refreshing(edge, 0, 0)
    }
}

/// The multiplexer's control bits by their place from $FFC0.
pub mod bit {
    pub const V0: u16 = 0;
    pub const F0: u16 = 3;
    pub const P: u16 = 10;
    pub const R0: u16 = 11;
    pub const R1: u16 = 12;
    pub const M0: u16 = 13;
    pub const M1: u16 = 14;
    pub const TY: u16 = 15;
}

#[derive(Clone, Copy)]
pub struct Trial {
    pub bench: Bench,
}

impl Trial {
    pub fn fresh() -> Self {
        Trial {
            bench: Bench::fresh(),
        }
    }

    /// Registers written as listed, then a controller reset.
    pub fn with(settings: &[(u8, u8)]) -> Self {
        let mut trial = Trial::fresh();
        trial.set_all(settings);
        trial.reset_controller();
        trial
    }

    pub fn record(&mut self, record: [u8; 4]) -> [u8; 8] {
        let mut answer = [0xEE; 8];
        let replayed = replay(self.bench, &record, &mut answer);
        assert_eq!(replayed.ending, Ending::BatchEmpty);
        assert_eq!((replayed.bytes_taken, replayed.answers_written), (4, 1));
        self.bench = replayed.bench;
        answer
    }

    /// The body of an answer that must not be refused.
    pub fn body(&mut self, record: [u8; 4]) -> [u8; 6] {
        let [kind, refusal, body @ ..] = self.record(record);
        assert_eq!((kind, refusal), (record[0], 0), "record {record:?}");
        body
    }

    pub fn set(&mut self, register: u8, value: u8) {
        assert_eq!(self.body([1, 0, 0, register]), [0; 6]);
        assert_eq!(self.body([1, 0, 1, value]), [0; 6]);
    }

    pub fn set_all(&mut self, settings: &[(u8, u8)]) {
        for (register, value) in settings {
            self.set(*register, *value);
        }
    }

    /// Names a register and reads it: (driven, value).
    pub fn read(&mut self, register: u8) -> (u8, u8) {
        self.body([1, 0, 0, register]);
        let [driven, value, rest @ ..] = self.body([2, 0, 1, 0]);
        assert_eq!(rest, [0; 4]);
        (driven, value)
    }

    pub fn status(&mut self) -> u8 {
        let [driven, value, ..] = self.body([2, 0, 0, 0]);
        assert_eq!(driven, 1);
        value
    }

    pub fn clocks(&mut self, n: u16) -> Character {
        let [hi, lo] = n.to_be_bytes();
        let [high, low, ra, flags, rest @ ..] = self.body([3, hi, lo, 0]);
        assert_eq!(rest, [0; 2]);
        Character {
            ma: u16::from_be_bytes([high, low]),
            ra,
            flags,
        }
    }

    /// The character time the scan stands at.
    pub fn now(&mut self) -> Character {
        self.clocks(0)
    }

    /// (latch, 1 if in the picture)
    pub fn strike(&mut self) -> (u16, u8) {
        let [high, low, in_picture, rest @ ..] = self.body([4, 0, 0, 0]);
        assert_eq!(rest, [0; 3]);
        (u16::from_be_bytes([high, low]), in_picture)
    }

    pub fn reset_controller(&mut self) {
        assert_eq!(self.body([5, 0, 0, 0]), [0; 6]);
    }

    pub fn reset_multiplexer(&mut self) {
        assert_eq!(self.body([5, 0, 1, 0]), [0; 6]);
    }

    /// (row, column) or the refusal number.
    pub fn locate(&mut self) -> Result<(u8, u8), u8> {
        let [kind, refusal, row, column, rest @ ..] = self.record([9, 0, 0, 0]);
        assert_eq!((kind, rest), (9, [0; 4]));
        if refusal == 0 {
            return Ok((row, column));
        }
        assert_eq!((row, column), (0, 0));
        Err(refusal)
    }

    /// The same with registers written before it, in a trial of its own.
    pub fn located_with(&self, settings: &[(u8, u8)]) -> Result<(u8, u8), u8> {
        let mut changed = *self;
        changed.set_all(settings);
        changed.locate()
    }

    pub fn bus_read(&mut self, address: u16) -> [u8; 6] {
        let [hi, lo] = address.to_be_bytes();
        self.body([6, hi, lo, 1])
    }

    pub fn bus_write(&mut self, address: u16) -> [u8; 6] {
        let [hi, lo] = address.to_be_bytes();
        self.body([6, hi, lo, 0])
    }

    pub fn set_bit(&mut self, bit: u16) -> [u8; 6] {
        self.bus_write(0xFFC0 + 2 * bit + 1)
    }

    pub fn clear_bit(&mut self, bit: u16) -> [u8; 6] {
        self.bus_write(0xFFC0 + 2 * bit)
    }

    /// Sets V2 V1 V0 to a mode number.
    pub fn display_mode(&mut self, mode: u16) {
        for place in 0..3 {
            if (mode >> place) & 1 == 1 {
                self.set_bit(bit::V0 + place);
            } else {
                self.clear_bit(bit::V0 + place);
            }
        }
    }

    pub fn fetch(&mut self, n: u16) -> [u8; 6] {
        let [hi, lo] = n.to_be_bytes();
        self.body([7, hi, lo, 0])
    }

    /// The display address after n fetches.
    pub fn fetched(&mut self, n: u16) -> u16 {
        let [high, low, ..] = self.fetch(n);
        u16::from_be_bytes([high, low])
    }

    pub fn hs(&mut self, level: u8, da0: u8) -> Edge {
        let [edge, first, count, rest @ ..] = self.body([8, 0, level, da0]);
        assert_eq!(rest, [0; 3]);
        Edge { edge, first, count }
    }

    /// HS down and up again, with DA0 low throughout.
    pub fn hs_pulse(&mut self) {
        assert_eq!(self.hs(0, 0).edge, 1);
        assert_eq!(self.hs(1, 0).edge, 2);
    }

    pub fn column(&self) -> u16 {
        self.bench.controller.scan().column.value()
    }

    pub fn line(&self) -> u16 {
        self.bench.controller.scan().line.value()
    }

    pub fn row(&self) -> u16 {
        self.bench.controller.scan().row.value()
    }

    pub fn field(&self) -> u16 {
        self.bench.controller.scan().field.value()
    }

    pub fn adjusting(&self) -> bool {
        self.bench.controller.scan().adjusting
    }

    /// Character times until a new frame begins.
    pub fn measure_frame(&mut self) -> u32 {
        let field = self.field();
        let mut times = 0;
        while self.field() == field {
            self.bench.controller.clock();
            times += 1;
            assert!(times <= 2_000_000, "no frame is this long");
        }
        assert_eq!((self.column(), self.line(), self.row()), (0, 0, 0));
        assert!(!self.adjusting());
        times
    }
}
