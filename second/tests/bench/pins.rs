//! The cursor, its blinking, and the two pins that may run late.

use crate::trial::{Character, Trial, CURSOR, DISPLAY_ENABLE, PICTURE};

const LATE_DISPLAY: u8 = 0b0001_0000;
const LATE_CURSOR: u8 = 0b0010_0000;

/// One character a frame, in the picture, with the cursor on it.
fn one_character(blink: u8) -> Trial {
    Trial::with(&[(1, 1), (6, 1), (10, blink << 5)])
}

fn shown(trial: &mut Trial, flag: u8, times: usize) -> Vec<bool> {
    let mut seen = Vec::new();
    for _ in 0..times {
        seen.push(trial.now().shows(flag));
        trial.clocks(1);
    }
    seen
}

#[test]
fn blink_00_always_and_01_never_show_the_cursor() {
    assert_eq!(shown(&mut one_character(0b00), CURSOR, 70), vec![true; 70]);
    assert_eq!(shown(&mut one_character(0b01), CURSOR, 70), vec![false; 70]);
}

#[test]
fn blink_10_shows_eight_fields_and_hides_eight() {
    let expected: Vec<bool> = (0..70).map(|field| (field / 8) % 2 == 0).collect();
    assert_eq!(shown(&mut one_character(0b10), CURSOR, 70), expected);
}

#[test]
fn blink_11_shows_sixteen_fields_and_hides_sixteen() {
    let expected: Vec<bool> = (0..70).map(|field| (field / 16) % 2 == 0).collect();
    assert_eq!(shown(&mut one_character(0b11), CURSOR, 70), expected);
}

#[test]
fn the_cursor_stands_on_its_address_only() {
    let mut trial = Trial::with(&[(0, 5), (1, 4), (4, 1), (6, 2), (15, 2)]);
    let times: Vec<usize> = (0..12)
        .filter(|_| {
            let seen = trial.now().shows(CURSOR);
            trial.clocks(1);
            seen
        })
        .collect();
    assert_eq!(times, [2]);
    // Address $0102 is another one, though its low byte is the same.
    trial.set(14, 1);
    assert_eq!(shown(&mut trial, CURSOR, 12), vec![false; 12]);
    trial.set(12, 1);
    trial.reset_controller();
    assert!(trial.clocks(2).shows(CURSOR));
}

#[test]
fn the_cursor_needs_the_picture() {
    let mut trial = Trial::with(&[(0, 5), (1, 4), (4, 1), (6, 1), (15, 4)]);
    assert_eq!(trial.clocks(4).ma, 4);
    assert!(!trial.now().shows(CURSOR));
    trial.set(1, 5);
    assert!(trial.now().shows(CURSOR));
    trial.set(6, 0);
    assert!(!trial.now().shows(CURSOR));
}

#[test]
fn the_cursor_lines_run_from_r10_to_r11_both_included() {
    let mut trial = Trial::with(&[(1, 1), (6, 1), (9, 7), (10, 2), (11, 5)]);
    let expected = [false, false, true, true, true, true, false, false];
    assert_eq!(shown(&mut trial, CURSOR, 8), expected);
    trial.set(11, 2);
    assert_eq!(trial.clocks(2).flags & CURSOR, CURSOR);
    trial.set(11, 1);
    assert_eq!(shown(&mut trial, CURSOR, 8), [false; 8]);
}

#[test]
fn a_first_cursor_line_of_16_or_more_shows_the_cursor_from_that_line_on() {
    for first in 15..32u8 {
        for last in first..32 {
            let settings = [(1, 1), (6, 1), (9, 31), (10, first), (11, last)];
            let expected: Vec<bool> = (0..32).map(|line| first <= line && line <= last).collect();
            assert_eq!(
                shown(&mut Trial::with(&settings), CURSOR, 32),
                expected,
                "lines {first} to {last}"
            );
        }
    }
}

#[test]
fn a_first_cursor_line_of_16_is_not_reached_in_rows_of_16_lines() {
    let mut trial = Trial::with(&[(1, 1), (4, 1), (6, 2), (9, 15), (10, 16), (11, 31)]);
    assert_eq!(shown(&mut trial, CURSOR, 32), [false; 32]);
}

#[test]
fn a_first_cursor_line_of_16_leaves_the_blink_bits_alone() {
    for (blink, fields_shown) in [(0b00, 32), (0b01, 0), (0b10, 8), (0b11, 16)] {
        let r10 = blink << 5 | 16;
        let mut trial = Trial::with(&[(1, 1), (6, 1), (9, 16), (10, r10), (11, 16)]);
        for field in 0..16 {
            let mut expected = [false; 17];
            expected[16] = field < fields_shown;
            assert_eq!(
                shown(&mut trial, CURSOR, 17),
                expected,
                "blink {blink:02b}, field {field}"
            );
        }
    }
}

#[test]
fn the_display_enable_pin_may_run_one_character_late() {
    let mut trial = Trial::with(&[(0, 3), (1, 2), (4, 1), (6, 2), (8, LATE_DISPLAY)]);
    let picture = [true, true, false, false, true, true, false, false, true];
    let pin = [false, true, true, false, false, true, true, false, false];
    for time in 0..9 {
        let seen = trial.now();
        assert_eq!(seen.shows(PICTURE), picture[time], "picture at {time}");
        assert_eq!(seen.shows(DISPLAY_ENABLE), pin[time], "pin at {time}");
        trial.clocks(1);
    }
}

#[test]
fn the_cursor_pin_may_run_one_character_late() {
    let mut trial = Trial::with(&[(0, 3), (1, 4), (4, 1), (6, 2), (8, LATE_CURSOR), (15, 1)]);
    let pin = [false, false, true, false, false, false, false, false, false];
    assert_eq!(shown(&mut trial, CURSOR, 9), pin);
    trial.reset_controller();
    assert!(trial.clocks(1).shows(DISPLAY_ENABLE));
}

#[test]
fn each_delay_works_on_its_own_pin_only() {
    let settings = [(0, 3), (1, 2), (4, 1), (6, 2)];
    let seen = |r8: u8| -> Character {
        let mut trial = Trial::with(&settings);
        trial.set(8, r8);
        trial.now()
    };
    let both = DISPLAY_ENABLE | CURSOR;
    assert_eq!(seen(0).flags & both, both);
    assert_eq!(seen(LATE_DISPLAY).flags & both, CURSOR);
    assert_eq!(seen(LATE_CURSOR).flags & both, DISPLAY_ENABLE);
    assert_eq!(seen(LATE_DISPLAY | LATE_CURSOR).flags & both, 0);
    assert_eq!(seen(!(LATE_DISPLAY | LATE_CURSOR | 4)).flags & both, both);
}

#[test]
fn a_late_pin_shows_the_character_as_it_was_judged_on_leaving() {
    let late = LATE_DISPLAY | LATE_CURSOR;
    let both = DISPLAY_ENABLE | CURSOR;
    let mut trial = Trial::with(&[(0, 3), (1, 2), (6, 1), (8, late)]);
    trial.clocks(1);
    trial.set_all(&[(1, 0), (15, 9)]);
    assert_eq!(trial.now().flags & (both | PICTURE), both);

    let mut trial = Trial::with(&[(0, 3), (1, 0), (6, 1), (8, late)]);
    trial.clocks(1);
    trial.set(1, 2);
    assert_eq!(trial.now().flags & (both | PICTURE), PICTURE);
}

#[test]
fn no_write_after_a_character_is_left_changes_a_late_pin() {
    let both = DISPLAY_ENABLE | CURSOR;
    let delays = [
        (LATE_DISPLAY, DISPLAY_ENABLE),
        (LATE_CURSOR, CURSOR),
        (LATE_DISPLAY | LATE_CURSOR, both),
    ];
    // The cursor is on the first of two characters in the picture.
    let left = [(0, 0), (1, both), (2, DISPLAY_ENABLE), (3, 0)];
    for (late, pins) in delays {
        for (clocks, facts) in left {
            let mut start = Trial::with(&[(0, 3), (1, 2), (6, 1), (8, late)]);
            start.clocks(clocks);
            for (register, value) in (0..16).flat_map(|r| [0, 1, 2, 0x5A, 0xFF].map(|v| (r, v))) {
                let mut trial = start;
                let value = if register == 8 { value | late } else { value };
                trial.set(register, value);
                assert_eq!(
                    trial.now().flags & pins,
                    facts & pins,
                    "R{register} made {value} after {clocks} clocks, R8 {late}"
                );
            }
        }
    }
}

#[test]
fn a_late_pin_goes_by_the_last_write_before_a_character_is_left() {
    let late = LATE_DISPLAY | LATE_CURSOR;
    let both = DISPLAY_ENABLE | CURSOR;
    for (arrived, left, pins) in [(2, 0, 0), (0, 2, both)] {
        let mut trial = Trial::with(&[(0, 3), (1, arrived), (6, 1), (8, late)]);
        assert_eq!(trial.now().flags & both, 0);
        trial.set(1, left);
        assert_eq!(trial.now().flags & both, 0);
        assert_eq!(trial.clocks(1).flags & both, pins);
        trial.set(1, arrived);
        assert_eq!(trial.now().flags & both, pins);
    }
}

#[test]
fn no_clocks_change_nothing_whatever_was_written_before_them() {
    let late = LATE_DISPLAY | LATE_CURSOR;
    let settings = [(0, 3), (1, 2), (3, 0x12), (4, 1), (5, 2), (6, 2), (8, late)];
    let mut plain = Trial::with(&settings);
    let mut interrupted = plain;
    for time in 0..50 {
        // The cursor moves through the picture and beyond it.
        plain.set(15, time % 7);
        interrupted.set(15, time % 7);
        let written = interrupted.bench;
        let seen = interrupted.now();
        assert_eq!(interrupted.now(), seen, "time {time}");
        assert_eq!(interrupted.bench, written, "time {time}");
        assert_eq!(interrupted.clocks(1), plain.clocks(1), "time {time}");
        assert_eq!(interrupted.bench, plain.bench, "time {time}");
    }
}

#[test]
fn a_delay_switched_on_later_knows_the_character_just_left() {
    let mut trial = Trial::with(&[(0, 3), (1, 2), (6, 1)]);
    assert!(!trial.clocks(2).shows(DISPLAY_ENABLE));
    trial.set(8, LATE_DISPLAY);
    assert!(trial.now().shows(DISPLAY_ENABLE));
}

#[test]
fn the_late_pins_are_low_after_every_reset() {
    let late = LATE_DISPLAY | LATE_CURSOR;
    let mut trial = Trial::with(&[(0, 3), (1, 4), (6, 1), (8, late)]);
    assert!(trial.clocks(1).shows(DISPLAY_ENABLE));
    trial.reset_controller();
    assert_eq!(
        trial.now().flags & (PICTURE | DISPLAY_ENABLE | CURSOR),
        PICTURE
    );
}

#[test]
fn a_strike_is_judged_by_the_picture_and_not_by_the_late_pin() {
    let mut trial = Trial::with(&[(0, 3), (1, 2), (6, 1), (8, LATE_DISPLAY)]);
    assert!(!trial.now().shows(DISPLAY_ENABLE));
    assert_eq!(trial.strike(), (2, 1));
    assert!(trial.clocks(2).shows(DISPLAY_ENABLE));
    // The frame begins anew two character times later.
    assert_eq!(trial.strike(), (0, 0));
}
