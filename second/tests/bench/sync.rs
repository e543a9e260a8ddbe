//! Widths, places and reloading of the two sync pulses.

use crate::trial::{Trial, HSYNC, VSYNC};

/// Which of the coming character times show a pulse.
fn times_shown(trial: &mut Trial, flag: u8, times: usize) -> Vec<usize> {
    let mut seen = Vec::new();
    for time in 0..times {
        if trial.now().shows(flag) {
            seen.push(time);
        }
        trial.clocks(1);
    }
    seen
}

#[test]
fn hsync_begins_at_r2_and_lasts_the_low_four_bits_of_r3() {
    for width in 0..16 {
        let mut trial = Trial::with(&[(0, 31), (2, 3), (3, 0xA0 | width), (4, 3)]);
        let expected: Vec<usize> = (3..3 + usize::from(width)).collect();
        assert_eq!(
            times_shown(&mut trial, HSYNC, 32),
            expected,
            "first line, width {width}"
        );
        assert_eq!(
            times_shown(&mut trial, HSYNC, 32),
            expected,
            "second line, width {width}"
        );
    }
}

#[test]
fn hsync_at_column_0_begins_with_the_reset() {
    let mut trial = Trial::with(&[(0, 9), (2, 0), (3, 2)]);
    assert_eq!(times_shown(&mut trial, HSYNC, 20), [0, 1, 10, 11]);
}

#[test]
fn hsync_runs_on_into_the_next_line() {
    let mut trial = Trial::with(&[(0, 9), (2, 8), (3, 4)]);
    assert_eq!(
        times_shown(&mut trial, HSYNC, 22),
        [8, 9, 10, 11, 18, 19, 20, 21]
    );
}

#[test]
fn hsync_is_reloaded_by_a_match_while_it_runs() {
    let mut trial = Trial::with(&[(0, 31), (2, 2), (3, 4)]);
    assert!(trial.clocks(3).shows(HSYNC));
    trial.set(2, 5);
    // Columns 3 to 8: the first pulse would have ended after column 5.
    assert_eq!(times_shown(&mut trial, HSYNC, 20), [0, 1, 2, 3, 4, 5]);
}

#[test]
fn an_hsync_match_with_width_0_ends_a_running_pulse() {
    let mut trial = Trial::with(&[(0, 31), (2, 2), (3, 9)]);
    assert!(trial.clocks(3).shows(HSYNC));
    trial.set_all(&[(2, 5), (3, 0)]);
    assert_eq!(times_shown(&mut trial, HSYNC, 20), [0, 1]);
}

#[test]
fn an_hsync_match_with_width_0_ends_whatever_is_left_of_a_pulse() {
    // The pulse begun at column 2 would run to column 16.
    for column in 4..=16 {
        let mut trial = Trial::with(&[(0, 31), (2, 2), (3, 15)]);
        assert!(trial.clocks(3).shows(HSYNC));
        // Only VSYNC's half of R3 is left with a width.
        trial.set_all(&[(2, column), (3, 0xF0)]);
        let expected: Vec<usize> = (0..usize::from(column) - 3).collect();
        assert_eq!(
            times_shown(&mut trial, HSYNC, 60),
            expected,
            "match at column {column}"
        );
    }
}

#[test]
fn hsync_width_0_ends_a_pulse_at_the_match_and_not_when_written() {
    // A pulse of six in lines of four, and width 0 written at column 2.
    let mut trial = Trial::with(&[(0, 3), (2, 1), (3, 6)]);
    assert!(trial.clocks(6).shows(HSYNC));
    trial.set(3, 0);
    let mut without_match = trial;
    without_match.set(2, 4);
    assert_eq!(times_shown(&mut trial, HSYNC, 20), [0, 1, 2]);
    assert_eq!(times_shown(&mut without_match, HSYNC, 20), [0, 1, 2, 3, 4]);
}

#[test]
fn hsync_longer_than_a_line_never_falls() {
    let mut trial = Trial::with(&[(0, 3), (2, 1), (3, 6)]);
    let expected: Vec<usize> = (1..40).collect();
    assert_eq!(times_shown(&mut trial, HSYNC, 40), expected);
}

/// Two characters to a line, one line to a row, 41 rows.
const TALL: [(u8, u8); 2] = [(0, 1), (4, 40)];

fn tall(more: &[(u8, u8)]) -> Trial {
    let mut settings = TALL.to_vec();
    settings.extend_from_slice(more);
    Trial::with(&settings)
}

#[test]
fn vsync_begins_at_r7_and_lasts_lines_with_0_standing_for_16() {
    for width in 0..16 {
        let mut trial = tall(&[(3, width << 4 | 5), (7, 2)]);
        let lines = if width == 0 { 16 } else { usize::from(width) };
        let expected: Vec<usize> = (4..4 + 2 * lines).collect();
        assert_eq!(
            times_shown(&mut trial, VSYNC, 82),
            expected,
            "first frame, width {width}"
        );
        assert_eq!(
            times_shown(&mut trial, VSYNC, 82),
            expected,
            "second frame, width {width}"
        );
    }
}

#[test]
fn vsync_at_row_0_begins_with_the_reset_and_with_the_fresh_chip() {
    let mut trial = tall(&[(3, 0x20), (7, 0)]);
    assert_eq!(times_shown(&mut trial, VSYNC, 20), [0, 1, 2, 3]);
    assert_eq!(Trial::fresh().now().flags, VSYNC);
}

#[test]
fn vsync_is_reloaded_by_a_match_while_it_runs() {
    let mut trial = tall(&[(3, 0x30), (7, 1)]);
    assert!(trial.clocks(4).shows(VSYNC));
    assert_eq!(trial.row(), 2);
    trial.set(7, 3);
    // Rows 2 to 5: the first pulse would have ended after row 3.
    assert_eq!(times_shown(&mut trial, VSYNC, 40), [0, 1, 2, 3, 4, 5, 6, 7]);
}

#[test]
fn vsync_begins_on_line_0_of_its_row_only() {
    let mut trial = Trial::with(&[(3, 0x10), (4, 3), (7, 1), (9, 3)]);
    assert_eq!(times_shown(&mut trial, VSYNC, 32), [4, 20]);
    // Named in the middle of the row, the row is too late.
    let mut trial = Trial::with(&[(3, 0x10), (4, 3), (7, 9), (9, 3)]);
    trial.clocks(1);
    trial.set(7, 0);
    assert_eq!(times_shown(&mut trial, VSYNC, 15), Vec::<usize>::new());
}

#[test]
fn vsync_does_not_begin_in_the_adjust_lines_but_counts_down_in_them() {
    let mut trial = Trial::with(&[(3, 0x10), (4, 1), (5, 3), (7, 2)]);
    assert_eq!(times_shown(&mut trial, VSYNC, 10), Vec::<usize>::new());
    let mut trial = Trial::with(&[(3, 0x30), (5, 6), (7, 0)]);
    assert_eq!(times_shown(&mut trial, VSYNC, 14), [0, 1, 2, 7, 8, 9]);
}

#[test]
fn a_wrapped_adjust_row_0_does_not_begin_vsync() {
    let mut trial = Trial::with(&[(3, 0x10), (4, 127), (5, 2), (7, 0)]);
    assert_eq!(times_shown(&mut trial, VSYNC, 131), [0, 130]);
}

#[test]
fn column_0_reached_by_wrapping_counts_for_vsync_too() {
    let mut trial = Trial::with(&[(0, 10), (3, 0x20), (4, 5), (9, 5)]);
    trial.clocks(11);
    assert_eq!((trial.column(), trial.line()), (0, 1));
    trial.clocks(8);
    trial.set(0, 5);
    assert!(trial.clocks(247).shows(VSYNC));
    assert!(!trial.clocks(1).shows(VSYNC));
    assert_eq!((trial.column(), trial.line()), (0, 1));
}
