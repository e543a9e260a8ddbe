//! The MC6883 synchronous address multiplexer.

mod bus;
mod cell;
mod control;
mod display;

pub use bus::BusCycle;
pub use cell::MemoryCell;
pub use control::{ControlBits, MemorySize};
pub use display::DisplayCounter;

use display::{DisplayMode, DISPLAY_MODES};

const REFRESH_ROWS: u8 = 128;
const ROWS_PER_REFRESH: u8 = 8;

#[derive(Clone, Copy, PartialEq, Eq, Debug)]
pub struct Multiplexer {
    control: ControlBits,
    display: DisplayCounter,
    refresh_row: u8,
    hs_high: bool,
}

/// What the display would fetch next.
#[derive(Clone, Copy, PartialEq, Eq, Debug)]
pub struct DisplayFetch {
    pub address: u16,
    pub cell: MemoryCell,
    pub ram_access: bool,
}

#[derive(Clone, Copy, PartialEq, Eq, Debug)]
pub enum Edge {
    None,
    Fall,
    Rise,
    RiseWithPreload,
}

/// What new levels of HS and DA0 brought about.
#[derive(Clone, Copy, PartialEq, Eq, Debug)]
pub struct SyncAnswer {
    pub edge: Edge,
    pub first_refreshed: u8,
    pub refreshed: u8,
}

impl Multiplexer {
    /// Power-on and reset alike: all zero, HS high ("The multiplexer").
    pub fn fresh() -> Self {
        Multiplexer {
            control: ControlBits::CLEAR,
            display: DisplayCounter::ZERO,
            refresh_row: 0,
            hs_high: true,
        }
    }

    pub fn reset(&mut self) {
        *self = Self::fresh();
    }

    /// A bus cycle is judged first; only then may it write a control bit.
    pub fn bus_cycle(&mut self, address: u16, read: bool) -> BusCycle {
        let judged = BusCycle::judge(&self.control, address, read);
        if judged.control_write {
            self.control.write(address);
        }
        judged
    }

    fn display_mode(&self) -> DisplayMode {
        DISPLAY_MODES[self.control.display_mode()]
    }

    /// One display fetch; it counts whether or not it has the memory.
    pub fn fetch(&mut self) {
        self.display.fetch(self.display_mode());
    }

    /// Where the display counter stands. With R1 set the display does not get
    /// at the memory, but its cell is told all the same.
    pub fn display(&self) -> DisplayFetch {
        let address = self.display.address();
        DisplayFetch {
            address,
            cell: MemoryCell::of(address, self.control.memory_size()),
            ram_access: !self.control.rate_1(),
        }
    }

    /// New levels of HS and DA0: first what the edge does, then the refresh a
    /// fall brings, and B0 last of all ("The multiplexer", display modes).
    pub fn horizontal_sync(&mut self, hs_high: bool, da0: bool) -> SyncAnswer {
        let edge = match (self.hs_high, hs_high) {
            (true, false) => Edge::Fall,
            (false, true) if da0 => Edge::RiseWithPreload,
            (false, true) => Edge::Rise,
            _ => Edge::None,
        };
        self.hs_high = hs_high;
        let mut answer = SyncAnswer {
            edge,
            first_refreshed: 0,
            refreshed: 0,
        };
        match edge {
            Edge::Fall => {
                self.display.hs_fall(self.display_mode());
                if !self.control.rate_1() {
                    answer.first_refreshed = self.refresh();
                    answer.refreshed = ROWS_PER_REFRESH;
                }
            }
            Edge::RiseWithPreload => self.display.preload(self.control.display_offset()),
            Edge::Rise | Edge::None => {}
        }
        self.display.set_b0(da0);
        answer
    }

    /// Refreshes eight rows, gives the first, and leaves the counter at the row
    /// after the last.
    fn refresh(&mut self) -> u8 {
        let first = self.refresh_row;
        self.refresh_row = (first + ROWS_PER_REFRESH) % REFRESH_ROWS;
        first
    }
}
