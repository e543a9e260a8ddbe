//! The two chips side by side, and what each event gets for an answer.

use crate::controller::{Controller, Strike};
use crate::locator::locate;
use crate::multiplexer::{BusCycle, DisplayFetch, Edge, Multiplexer, SyncAnswer};
use crate::record::Event;
use crate::refusal::Refusal;

pub const BODY_BYTES: usize = 6;

/// The six bytes of an answer after its kind and refusal number.
pub type Body = [u8; BODY_BYTES];

#[derive(Clone, Copy, PartialEq, Eq, Debug)]
pub struct Bench {
    pub controller: Controller,
    pub multiplexer: Multiplexer,
}

impl Bench {
    pub fn fresh() -> Self {
        Bench {
            controller: Controller::fresh(),
            multiplexer: Multiplexer::fresh(),
        }
    }

    /// Lets one chip live through an event and gives the body of the answer.
    /// Only locating can still be refused here, and it moves neither chip.
    pub fn perform(&mut self, event: Event) -> Result<Body, Refusal> {
        match event {
            Event::ControllerWrite { rs, data } => {
                self.controller.write(rs, data);
                Ok([0; BODY_BYTES])
            }
            Event::ControllerRead { rs } => Ok(read_body(self.controller.read(rs))),
            Event::CharacterClocks { count } => {
                (0..count).for_each(|_| self.controller.clock());
                Ok(character_body(&self.controller))
            }
            Event::PenStrike => Ok(strike_body(self.controller.strike())),
            Event::ResetController => {
                self.controller.reset();
                Ok([0; BODY_BYTES])
            }
            Event::ResetMultiplexer => {
                self.multiplexer.reset();
                Ok([0; BODY_BYTES])
            }
            Event::BusCycle { address, read } => {
                Ok(bus_body(self.multiplexer.bus_cycle(address, read)))
            }
            Event::DisplayFetches { count } => {
                (0..count).for_each(|_| self.multiplexer.fetch());
                Ok(display_body(self.multiplexer.display()))
            }
            Event::HorizontalSync { hs_high, da0 } => {
                Ok(sync_body(self.multiplexer.horizontal_sync(hs_high, da0)))
            }
            Event::Locate => {
                locate(&self.controller).map(|cell| [cell.row, cell.column, 0, 0, 0, 0])
            }
        }
    }
}

/// Adds up the flags that hold, the first being worth 1, the next 2, and so on.
fn flags(facts: &[bool]) -> u8 {
    facts
        .iter()
        .rev()
        .fold(0, |sum, fact| 2 * sum + u8::from(*fact))
}

fn read_body(value: Option<u8>) -> Body {
    [u8::from(value.is_some()), value.unwrap_or(0), 0, 0, 0, 0]
}

/// Kind 3: the character time reached.
fn character_body(controller: &Controller) -> Body {
    let [high, low] = controller.memory_address().to_be_bytes();
    let [_, line] = controller.scan().line.value().to_be_bytes();
    let picture = controller.facts().picture;
    let pins = controller.pins();
    let told = flags(&[
        picture,
        pins.display_enable,
        pins.cursor,
        pins.hsync,
        pins.vsync,
    ]);
    [high, low, line, told, 0, 0]
}

fn strike_body(strike: Strike) -> Body {
    let [high, low] = strike.latch.to_be_bytes();
    [high, low, u8::from(strike.in_picture), 0, 0, 0]
}

fn bus_body(cycle: BusCycle) -> Body {
    let told = flags(&[cycle.ram, cycle.barred_pair, cycle.control_write]);
    let cell = cycle.cell;
    [
        cycle.select,
        cycle.ticks,
        told,
        cell.bank,
        cell.row,
        cell.column,
    ]
}

fn display_body(fetch: DisplayFetch) -> Body {
    let [high, low] = fetch.address.to_be_bytes();
    let cell = fetch.cell;
    [
        high,
        low,
        cell.bank,
        cell.row,
        cell.column,
        u8::from(fetch.ram_access),
    ]
}

fn sync_body(answer: SyncAnswer) -> Body {
    let edge = match answer.edge {
        Edge::None => 0,
        Edge::Fall => 1,
        Edge::Rise => 2,
        Edge::RiseWithPreload => 3,
    };
    [edge, answer.first_refreshed, answer.refreshed, 0, 0, 0]
}
