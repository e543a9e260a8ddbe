//! Writing and reading the controller's registers, and its status.

use crate::trial::{Trial, SETTING_A};

const L: u8 = 0x40;
const V: u8 = 0x20;

#[test]
fn each_register_keeps_only_its_own_low_bits() {
    let kept = [
        0xFF, 0xFF, 0xFF, 0xFF, 0x7F, 0x1F, 0x7F, 0x7F, 0xFF, 0x1F, 0x7F, 0x1F, 0x3F, 0xFF, 0x3F,
        0xFF,
    ];
    let mut trial = Trial::fresh();
    for (number, mask) in kept.iter().enumerate() {
        trial.set(number as u8, 0xFF);
        assert_eq!(
            trial.bench.controller.registers().held(number),
            Some(*mask),
            "R{number}"
        );
    }
    for (number, mask) in kept.iter().enumerate() {
        trial.set(number as u8, 0xA5);
        assert_eq!(
            trial.bench.controller.registers().held(number),
            Some(0xA5 & mask)
        );
    }
}

#[test]
fn the_address_register_keeps_five_bits() {
    let mut trial = Trial::fresh();
    trial.set(0xE0 | 15, 0x77);
    assert_eq!(trial.read(15), (1, 0x77));
}

#[test]
fn writes_to_16_and_above_do_nothing() {
    let mut trial = Trial::with(&SETTING_A);
    trial.clocks(1);
    trial.strike();
    for register in 16..32 {
        trial.body([1, 0, 0, register]);
        let before = trial.bench;
        trial.body([1, 0, 1, 0xFF]);
        assert_eq!(trial.bench, before, "R{register}");
    }
}

/// R0 to R15 all written and none of them 0, then a strike that nobody has read.
fn written_and_struck() -> Trial {
    let mut trial = Trial::fresh();
    for register in 0..16 {
        trial.set(register, 0xFF);
    }
    trial.set_all(&[(12, 0x12), (13, 0x34)]);
    trial.reset_controller();
    assert_eq!(trial.strike(), (0x1236, 1));
    let held = trial.bench.controller.registers().all_held();
    assert!(held.iter().all(|value| *value != 0), "{held:?}");
    trial
}

/// What a read of each name is to give there: (driven, value).
fn due_when_written_and_struck(name: u8) -> (u8, u8) {
    match name {
        14 => (1, 0x3F),
        15 => (1, 0xFF),
        16 => (1, 0x12),
        17 => (1, 0x36),
        _ => (0, 0),
    }
}

fn names_the_latch(name: u8) -> bool {
    name == 16 || name == 17
}

#[test]
fn of_the_32_names_only_r14_to_r17_are_driven_and_the_others_read_0() {
    for name in 0..32 {
        let due = due_when_written_and_struck(name);
        let mut trial = written_and_struck();
        assert_eq!(trial.read(name), due, "R{name}");
        assert_eq!(trial.read(name), due, "R{name} once more");
    }
}

#[test]
fn r14_to_r17_are_driven_even_when_they_hold_0() {
    let mut trial = Trial::fresh();
    for name in 0..32 {
        let driven = u8::from((14..=17).contains(&name));
        assert_eq!(trial.read(name), (driven, 0), "R{name}");
    }
}

#[test]
fn the_top_bits_of_a_name_have_no_say_in_what_is_driven() {
    let mut trial = written_and_struck();
    for byte in 0..=255 {
        let due = due_when_written_and_struck(byte % 32);
        assert_eq!(trial.read(byte), due, "name {byte:#04x}");
    }
}

#[test]
fn a_read_changes_nothing_but_l_and_that_only_at_r16_and_r17() {
    for name in 0..32 {
        let mut trial = written_and_struck();
        trial.body([1, 0, 0, name]);
        let before = trial.bench;
        trial.body([2, 0, 1, 0]);
        if names_the_latch(name) {
            assert_eq!(trial.status(), 0, "R{name}");
            trial.strike();
        }
        assert_eq!(trial.bench, before, "R{name}");
        assert_eq!(trial.status(), L, "R{name}");
    }
}

#[test]
fn status_is_driven_whatever_register_is_named() {
    for name in 0..32 {
        let mut trial = written_and_struck();
        trial.body([1, 0, 0, name]);
        assert_eq!(trial.body([2, 0, 0, 0]), [1, L, 0, 0, 0, 0], "R{name}");
        trial.body([2, 0, 1, 0]);
        let left = if names_the_latch(name) { 0 } else { L };
        let status = trial.body([2, 0, 0, 0]);
        assert_eq!(status, [1, left, 0, 0, 0, 0], "R{name} was read");
    }
}

#[test]
fn a_strike_sets_l_and_only_reading_the_latch_clears_it() {
    for latch_register in [16, 17] {
        let mut trial = Trial::with(&SETTING_A);
        assert_eq!(trial.status(), 0);
        trial.strike();
        assert_eq!(trial.status(), L);
        for register in (0..32).filter(|number| !names_the_latch(*number)) {
            trial.read(register);
        }
        trial.locate().expect("a cell is found");
        trial.clocks(1);
        assert_eq!(trial.status(), L);
        trial.read(latch_register);
        assert_eq!(trial.status(), 0);
        trial.strike();
        assert_eq!(trial.status(), L);
    }
}

#[test]
fn naming_the_latch_or_writing_it_does_not_clear_l() {
    let mut trial = Trial::with(&SETTING_A);
    trial.strike();
    trial.set(16, 0);
    trial.set(17, 0);
    assert_eq!(trial.status(), L);
}

#[test]
fn v_holds_below_the_rows_shown_and_in_the_adjust_lines() {
    let mut trial = Trial::with(&[(0, 1), (1, 1), (4, 3), (5, 2), (6, 2)]);
    let expected = [0, 0, V, V, V, V, 0, 0];
    for (line, status) in expected.iter().enumerate() {
        assert_eq!(trial.status(), *status, "line {line}, column 0");
        trial.clocks(1);
        assert_eq!(trial.status(), *status, "line {line}, column 1");
        trial.clocks(1);
    }
}

#[test]
fn v_holds_in_adjust_lines_even_when_the_row_has_wrapped_to_0() {
    let mut trial = Trial::with(&[(4, 127), (5, 3), (6, 127)]);
    trial.clocks(126);
    assert_eq!((trial.row(), trial.status()), (126, 0));
    trial.clocks(1);
    assert_eq!((trial.row(), trial.status()), (127, V));
    trial.clocks(1);
    assert!(trial.adjusting());
    assert_eq!((trial.row(), trial.status()), (0, V));
}

#[test]
fn l_and_v_stand_together_in_one_status() {
    let mut trial = Trial::fresh();
    assert_eq!(trial.status(), V);
    trial.strike();
    assert_eq!(trial.status(), L | V);
}

#[test]
fn reset_keeps_the_registers_and_the_named_register() {
    let mut trial = Trial::fresh();
    for register in 0..16 {
        trial.set(register, 0x10 + register);
    }
    let written = *trial.bench.controller.registers();
    trial.reset_controller();
    assert_eq!(*trial.bench.controller.registers(), written);
    assert_eq!(trial.body([2, 0, 1, 0])[..2], [1, 0x1F]);
}

#[test]
fn reset_makes_all_the_rest_fresh() {
    let mut trial = Trial::with(&SETTING_A);
    let just_reset = trial.bench;
    for _ in 0..3 {
        trial.measure_frame();
    }
    trial.clocks(9);
    trial.strike();
    assert_ne!(trial.bench, just_reset);
    trial.reset_controller();
    assert_eq!(trial.bench, just_reset);
    assert_eq!(trial.status(), 0);
    assert_eq!((trial.read(16), trial.read(17)), ((1, 0), (1, 0)));
    assert_eq!(trial.locate(), Err(5));
}

#[test]
fn reset_of_one_chip_leaves_the_other_alone() {
    let mut trial = Trial::with(&SETTING_A);
    trial.clocks(7);
    trial.set_bit(15);
    trial.fetch(99);
    trial.hs(0, 1);
    let before = trial.bench;
    trial.reset_controller();
    assert_eq!(trial.bench.multiplexer, before.multiplexer);
    assert_ne!(trial.bench.controller, before.controller);
    trial.bench = before;
    trial.reset_multiplexer();
    assert_eq!(trial.bench.controller, before.controller);
    assert_eq!(trial.bench.multiplexer, second::Multiplexer::fresh());
}
