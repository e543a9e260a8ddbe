//! A setting: what the controller's R0 to R15 are to hold, in sixteen bytes.

use crate::controller::{Controller, Registers};

pub const SETTING_BYTES: usize = 16;

/// The longest batch of settings.
pub const MOST_SETTINGS: usize = 64;

/// Sixteen bytes as the registers keep them: two lots of bytes that differ only
/// in bits no register has are one and the same setting.
#[derive(Clone, Copy, PartialEq, Eq, Debug)]
pub struct Setting {
    held: [u8; SETTING_BYTES],
}

impl Setting {
    /// Each byte is cut by really being written to its register (request W1,
    /// what a setting is).
    pub fn of(bytes: [u8; SETTING_BYTES]) -> Self {
        let mut registers = Registers::ZERO;
        for (number, byte) in (0..).zip(bytes) {
            registers.write_address(number);
            registers.write_named(byte);
        }
        Setting {
            held: registers.all_held(),
        }
    }

    /// R0 to R15 after the cut.
    pub fn held(&self) -> [u8; SETTING_BYTES] {
        self.held
    }

    /// The controller a setting starts: a fresh one that is written R0 to R15
    /// and then reset, so it stands at character 0 with field 0.
    pub fn controller(&self) -> Controller {
        let mut controller = Controller::fresh();
        for (number, byte) in (0..).zip(self.held) {
            controller.write(0, number);
            controller.write(1, byte);
        }
        controller.reset();
        controller
    }
}

/// The settings of a batch, or nothing when the bytes are not 1 to 64 whole
/// ones (request W1, what refusal 10 is for).
pub fn whole_settings(bytes: &[u8]) -> Option<Vec<Setting>> {
    let parts = bytes.chunks_exact(SETTING_BYTES);
    if !parts.remainder().is_empty() || !(1..=MOST_SETTINGS).contains(&parts.len()) {
        return None;
    }
    let whole = parts.filter_map(|part| part.first_chunk::<SETTING_BYTES>());
    Some(whole.map(|bytes| Setting::of(*bytes)).collect())
}
