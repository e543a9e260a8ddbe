//! Settings: sixteen bytes, the cut to each register's width, and the start.

use second::setting::whole_settings;
use second::Setting;

use crate::trial::{Trial, SETTING_A, VSYNC};

/// Sixteen bytes with the listed registers set and all others 0.
pub fn bytes_with(registers: &[(u8, u8)]) -> [u8; 16] {
    let mut bytes = [0; 16];
    for (number, value) in registers {
        bytes[usize::from(*number)] = *value;
    }
    bytes
}

/// All the ones that R0 to R15 can hold.
pub const ALL_ONES: [u8; 16] = [
    0xFF, 0xFF, 0xFF, 0xFF, 0x7F, 0x1F, 0x7F, 0x7F, 0xFF, 0x1F, 0x7F, 0x1F, 0x3F, 0xFF, 0x3F, 0xFF,
];

/// Setting A with every bit set that no register has.
pub const SETTING_A_WITH_SPARE_BITS: [u8; 16] = [
    3, 2, 0, 0, 0x81, 0xE1, 0x82, 0x80, 0, 0xE1, 0x80, 0xE0, 0xC0, 0, 0xC0, 0,
];

/// A trial bench on which the registers are written by records.
fn written(bytes: [u8; 16]) -> Trial {
    let registers: Vec<(u8, u8)> = (0..).zip(bytes).collect();
    Trial::with(&registers)
}

#[test]
fn each_register_keeps_its_own_width() {
    assert_eq!(Setting::of([0xFF; 16]).held(), ALL_ONES);
    assert_eq!(Setting::of([0; 16]).held(), [0; 16]);
}

#[test]
fn every_byte_is_cut_alone_and_to_its_low_bits() {
    for (number, mask) in ALL_ONES.into_iter().enumerate() {
        for value in 0..=255 {
            let mut bytes = [0; 16];
            bytes[number] = value;
            let mut held = [0; 16];
            held[number] = value & mask;
            assert_eq!(Setting::of(bytes).held(), held, "R{number}, {value}");
        }
    }
}

#[test]
fn bits_that_no_register_has_make_no_other_setting() {
    let plain = Setting::of(bytes_with(&SETTING_A));
    assert_eq!(Setting::of(SETTING_A_WITH_SPARE_BITS), plain);
    assert_ne!(Setting::of(bytes_with(&[(0, 3)])), plain);
}

#[test]
fn a_setting_starts_the_controller_that_writes_and_a_reset_give() {
    let many = [
        [0; 16],
        [0xFF; 16],
        [0x5A; 16],
        bytes_with(&SETTING_A),
        SETTING_A_WITH_SPARE_BITS,
    ];
    for bytes in many {
        let started = Setting::of(bytes).controller();
        assert_eq!(started, written(bytes).bench.controller, "{bytes:?}");
    }
}

#[test]
fn a_setting_starts_at_character_0_of_field_0_with_the_start_sampled() {
    let mut trial = Trial::fresh();
    let bytes = bytes_with(&[(0, 9), (4, 9), (12, 0x12), (13, 0x34)]);
    trial.bench.controller = Setting::of(bytes).controller();
    assert_eq!((trial.column(), trial.line(), trial.row()), (0, 0, 0));
    assert_eq!((trial.field(), trial.adjusting()), (0, false));
    assert_eq!((trial.now().ma, trial.now().flags), (0x1234, VSYNC));
    assert_eq!(trial.locate(), Err(5));
}

#[test]
fn whole_settings_come_in_the_order_of_the_bytes() {
    let first = bytes_with(&SETTING_A);
    let second = [0xFF; 16];
    let settings = whole_settings(&[first, second].concat()).expect("two settings");
    assert_eq!(settings, [Setting::of(first), Setting::of(second)]);
}

#[test]
fn only_1_to_64_whole_settings_are_settings() {
    for length in 0..=80 * 16 {
        let settings = whole_settings(&vec![7; length]);
        let allowed = length % 16 == 0 && (1..=64).contains(&(length / 16));
        assert_eq!(
            settings.map(|settings| settings.len()),
            allowed.then_some(length / 16),
            "{length} bytes"
        );
    }
}
