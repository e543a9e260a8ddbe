//! The reader: from a file to the setup in it.

use super::contents::{contents_end, entries_of, Entry};
use super::parts::{
    Setup, BATCH, CONTROL, CONTROL_BYTES, MOST_BATCH_BYTES, REGISTERS, REGISTERS_BYTES,
};
use super::refusal::SetupRefusal;

/// The setup of a file, its bodies being parts of the file. All entries are gone
/// through for one refusal, then all for the next (request W6, refusals).
pub fn read_setup(file: &[u8]) -> Result<Setup<'_>, SetupRefusal> {
    let entries = entries_of(file)?;
    check_kinds(&entries)?;
    check_places(&entries, file.len())?;
    let setup = setup_of(file, &entries);
    if setup.has_forbidden_bit() {
        return Err(SetupRefusal::ForbiddenBit);
    }
    Ok(setup)
}

/// Known and rising (refusal 14).
fn check_kinds(entries: &[Entry]) -> Result<(), SetupRefusal> {
    let mut kind_before = 0;
    for entry in entries {
        let known = [REGISTERS, CONTROL, BATCH].contains(&entry.kind);
        if !known || entry.kind <= kind_before {
            return Err(SetupRefusal::Kinds);
        }
        kind_before = entry.kind;
    }
    Ok(())
}

/// One body after the other from the end of the contents to the end of the file,
/// each of a length that its kind may have (refusal 15).
fn check_places(entries: &[Entry], file_end: usize) -> Result<(), SetupRefusal> {
    let mut end = contents_end(entries.len());
    for entry in entries {
        if entry.offset != end || !may_have_length(entry.kind, entry.length) {
            return Err(SetupRefusal::Places);
        }
        end += entry.length;
    }
    if end != file_end {
        return Err(SetupRefusal::Places);
    }
    Ok(())
}

fn may_have_length(kind: u8, length: usize) -> bool {
    match kind {
        REGISTERS => length == REGISTERS_BYTES,
        CONTROL => length == CONTROL_BYTES,
        _ => length <= MOST_BATCH_BYTES,
    }
}

/// The bodies of entries that have been checked.
fn setup_of<'a>(file: &'a [u8], entries: &[Entry]) -> Setup<'a> {
    let mut setup = Setup::default();
    for entry in entries {
        let body = &file[entry.offset..entry.offset + entry.length];
        match entry.kind {
            REGISTERS => setup.registers = body.first_chunk(),
            CONTROL => setup.control = body.first_chunk(),
            _ => setup.batch = Some(body),
        }
    }
    setup
}
