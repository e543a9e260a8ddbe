//! The display address counter B0 to B15 and its two dividers.

/// What a display mode says of the counter.
#[derive(Clone, Copy, PartialEq, Eq, Debug)]
pub struct DisplayMode {
    /// Falls of B3 for one flip of B4.
    x: u8,
    /// Falls of B4 for one count of B5 to B15.
    y: u8,
    /// The highest bit that a fall of HS clears, if it clears any.
    top: Option<usize>,
}

const fn mode(x: u8, y: u8, top: Option<usize>) -> DisplayMode {
    DisplayMode { x, y, top }
}

/// The eight modes by V2 V1 V0 ("The multiplexer", display modes).
pub const DISPLAY_MODES: [DisplayMode; 8] = [
    mode(1, 12, Some(4)),
    mode(3, 1, Some(3)),
    mode(1, 3, Some(4)),
    mode(2, 1, Some(3)),
    mode(1, 2, Some(4)),
    mode(1, 1, Some(3)),
    mode(1, 1, Some(4)),
    mode(1, 1, None),
];

#[derive(Clone, Copy, PartialEq, Eq, Debug)]
pub struct DisplayCounter {
    /// B0 first.
    b: [bool; 16],
    x_count: u8,
    y_count: u8,
}

impl DisplayCounter {
    pub const ZERO: Self = DisplayCounter {
        b: [false; 16],
        x_count: 0,
        y_count: 0,
    };

    /// B15 to B0 as one number.
    pub fn address(&self) -> u16 {
        self.b
            .iter()
            .rev()
            .fold(0, |number, bit| (number << 1) | u16::from(*bit))
    }

    /// A display fetch: one more in B0 to B3, and whatever a fall of B3 then
    /// brings about ("The multiplexer", display modes).
    pub fn fetch(&mut self, mode: DisplayMode) {
        let b3_fell = self.ripple(0, 3);
        if b3_fell {
            self.count_b3_fall(mode);
        }
    }

    /// A fall of HS clears B1 up to the mode's top bit. Of the bits cleared
    /// only the top one, if it was set, counts as a fall further up.
    pub fn hs_fall(&mut self, mode: DisplayMode) {
        let Some(top) = mode.top else {
            return;
        };
        let top_fell = self.b[top];
        for bit in 1..=top {
            self.b[bit] = false;
        }
        match (top, top_fell) {
            (3, true) => self.count_b3_fall(mode),
            (4, true) => self.count_b4_fall(mode),
            _ => {}
        }
    }

    /// The preload at a rise of HS: F0 to F6 into B9 to B15, B1 to B8 and both
    /// dividers cleared.
    pub fn preload(&mut self, offset: &[bool]) {
        for bit in 1..=8 {
            self.b[bit] = false;
        }
        for (bit, f) in self.b.iter_mut().skip(9).zip(offset) {
            *bit = *f;
        }
        self.x_count = 0;
        self.y_count = 0;
    }

    /// B0 follows DA0 and nothing is counted by it.
    pub fn set_b0(&mut self, level: bool) {
        self.b[0] = level;
    }

    /// One fall of B3 into the X divider. A divider left at or past its limit
    /// by a change of mode gives out at this count too.
    fn count_b3_fall(&mut self, mode: DisplayMode) {
        self.x_count += 1;
        if self.x_count >= mode.x {
            self.x_count = 0;
            let b4_fell = self.ripple(4, 4);
            if b4_fell {
                self.count_b4_fall(mode);
            }
        }
    }

    /// One fall of B4 into the Y divider, and from there into B5 to B15.
    fn count_b4_fall(&mut self, mode: DisplayMode) {
        self.y_count += 1;
        if self.y_count >= mode.y {
            self.y_count = 0;
            self.ripple(5, 15);
        }
    }

    /// Adds one to the bits from lowest to highest, each flipping the next by
    /// falling. Tells whether the highest fell, that is, whether they wrapped.
    fn ripple(&mut self, lowest: usize, highest: usize) -> bool {
        for bit in lowest..=highest {
            self.b[bit] = !self.b[bit];
            let rose = self.b[bit];
            if rose {
                return false;
            }
        }
        true
    }
}
