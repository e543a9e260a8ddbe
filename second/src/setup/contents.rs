//! The contents at the head of a setup file: a count, and an entry for each body.

use super::refusal::SetupRefusal;
use crate::two_bytes::two_bytes;

const COUNT_BYTES: usize = 1;
const ENTRY_BYTES: usize = 5;
const MOST_ENTRIES: u8 = 3;

/// What an entry says, whether it is true or not.
pub struct Entry {
    pub kind: u8,
    pub offset: usize,
    pub length: usize,
}

impl Entry {
    fn of(bytes: [u8; ENTRY_BYTES]) -> Self {
        let [kind, offset_high, offset_low, length_high, length_low] = bytes;
        Entry {
            kind,
            offset: usize::from(u16::from_be_bytes([offset_high, offset_low])),
            length: usize::from(u16::from_be_bytes([length_high, length_low])),
        }
    }

    pub fn bytes(&self) -> [u8; ENTRY_BYTES] {
        let [offset_high, offset_low] = two_bytes(self.offset);
        let [length_high, length_low] = two_bytes(self.length);
        [self.kind, offset_high, offset_low, length_high, length_low]
    }
}

/// Where the contents end and the first body begins.
pub fn contents_end(entries: usize) -> usize {
    COUNT_BYTES + entries * ENTRY_BYTES
}

/// As many entries as the count says, which must be 1 to 3 (request W6, refusal 13).
pub fn entries_of(file: &[u8]) -> Result<Vec<Entry>, SetupRefusal> {
    let [count, after_count @ ..] = file else {
        return Err(SetupRefusal::Contents);
    };
    if !(1..=MOST_ENTRIES).contains(count) {
        return Err(SetupRefusal::Contents);
    }
    let mut entries = Vec::new();
    let mut rest = after_count;
    for _ in 0..*count {
        let Some((entry, later)) = rest.split_first_chunk::<ENTRY_BYTES>() else {
            return Err(SetupRefusal::Contents);
        };
        entries.push(Entry::of(*entry));
        rest = later;
    }
    Ok(entries)
}
