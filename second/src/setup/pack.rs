//! The file made of a setup that is named part by part, in a chosen room.

use super::parts::Setup;
use super::writer::write_setup;

/// All that is said of an input that is no setup.
pub const NO_SETUP: &str = "no setup\n";

/// What the byte of parts is the sum of.
const WITH_REGISTERS: u8 = 1;
const WITH_CONTROL: u8 = 2;
const WITH_BATCH: u8 = 4;
const WITH_ALL: u8 = WITH_REGISTERS + WITH_CONTROL + WITH_BATCH;

/// The file, or the line that says why there is none.
pub fn packed(input: &[u8]) -> Result<Vec<u8>, String> {
    let Some((room, setup)) = room_and_setup(input) else {
        return Err(String::from(NO_SETUP));
    };
    let mut output = vec![0; room];
    match write_setup(&setup, &mut output) {
        Ok(length) => {
            output.truncate(length);
            Ok(output)
        }
        Err(refusal) => Err(refusal.line()),
    }
}

/// The byte of parts and the room, then the parts one after the other. A batch
/// takes all that is left; without one there must be nothing left.
fn room_and_setup(input: &[u8]) -> Option<(usize, Setup<'_>)> {
    let [parts, room_high, room_low, after_room @ ..] = input else {
        return None;
    };
    if *parts > WITH_ALL {
        return None;
    }
    let room = usize::from(u16::from_be_bytes([*room_high, *room_low]));
    let mut setup = Setup::default();
    let mut rest = after_room;
    if parts & WITH_REGISTERS != 0 {
        let (registers, later) = rest.split_first_chunk()?;
        setup.registers = Some(registers);
        rest = later;
    }
    if parts & WITH_CONTROL != 0 {
        let (control, later) = rest.split_first_chunk()?;
        setup.control = Some(control);
        rest = later;
    }
    if parts & WITH_BATCH != 0 {
        setup.batch = Some(rest);
    } else if !rest.is_empty() {
        return None;
    }
    Some((room, setup))
}
