//! The writer: from a setup to its file.

use super::contents::{contents_end, Entry};
use super::parts::{Setup, MOST_BATCH_BYTES};
use super::refusal::SetupRefusal;
use crate::two_bytes::two_bytes;

/// Writes the setup's file at the beginning of the output and tells how long it
/// is. The setup is judged before the room is (request W6, the writer's
/// refusals). A refused setup leaves the whole output as it was, a written one
/// all that is past the file.
pub fn write_setup(setup: &Setup, output: &mut [u8]) -> Result<usize, SetupRefusal> {
    check(setup)?;
    let file = file_of(setup);
    let Some(room) = output.get_mut(..file.len()) else {
        return Err(SetupRefusal::TooLittleRoom);
    };
    room.copy_from_slice(&file);
    Ok(file.len())
}

fn check(setup: &Setup) -> Result<(), SetupRefusal> {
    if setup.bodies().is_empty() {
        return Err(SetupRefusal::Contents);
    }
    if setup
        .batch
        .is_some_and(|batch| batch.len() > MOST_BATCH_BYTES)
    {
        return Err(SetupRefusal::Places);
    }
    if setup.has_forbidden_bit() {
        return Err(SetupRefusal::ForbiddenBit);
    }
    Ok(())
}

/// The count, the entries and the bodies.
fn file_of(setup: &Setup) -> Vec<u8> {
    let bodies = setup.bodies();
    let [_, count] = two_bytes(bodies.len());
    let mut file = vec![count];
    let mut offset = contents_end(bodies.len());
    for (kind, body) in &bodies {
        let entry = Entry {
            kind: *kind,
            offset,
            length: body.len(),
        };
        file.extend(entry.bytes());
        offset += body.len();
    }
    for (_, body) in &bodies {
        file.extend(*body);
    }
    file
}
