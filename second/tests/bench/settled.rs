//! The settled cases a to j.

use crate::trial::{Trial, DISPLAY_ENABLE, PICTURE, SETTING_A};

const WIDE: [(u8, u8); 3] = [(0, 255), (4, 127), (6, 127)];

fn wide_with_columns(columns_shown: u8) -> Trial {
    let mut settings = WIDE.to_vec();
    settings.push((1, columns_shown));
    Trial::with(&settings)
}

#[test]
fn case_a_setting_a_has_a_frame_of_20() {
    let mut trial = Trial::with(&SETTING_A);
    for _ in 0..40 {
        assert_eq!(trial.measure_frame(), 20);
    }
}

#[test]
fn case_b_all_zero_has_a_frame_of_1_and_no_picture() {
    let mut trial = Trial::fresh();
    for _ in 0..100 {
        assert_eq!(trial.measure_frame(), 1);
        assert!(!trial.now().shows(PICTURE) && !trial.now().shows(DISPLAY_ENABLE));
    }
}

#[test]
fn case_c_the_largest_frame_is_stepped_through() {
    let mut trial = Trial::with(&[(0, 255), (4, 255), (5, 255), (9, 255)]);
    assert_eq!(trial.measure_frame(), 1_056_512);
    assert_eq!(trial.measure_frame(), 1_056_512);
}

#[test]
fn case_d_one_clock_and_a_strike() {
    let mut trial = Trial::with(&SETTING_A);
    trial.clocks(1);
    assert_eq!(trial.strike(), (3, 1));
    assert_eq!(trial.locate(), Ok((0, 1)));
}

#[test]
fn case_e_two_clocks_and_a_strike_outside_the_picture() {
    let mut trial = Trial::with(&SETTING_A);
    trial.clocks(2);
    assert_eq!(trial.strike(), (0, 0));
    assert_eq!(trial.locate(), Err(6));
}

#[test]
fn case_f_eight_clocks_and_a_strike() {
    let mut trial = Trial::with(&SETTING_A);
    trial.clocks(8);
    assert_eq!(trial.strike(), (4, 1));
    assert_eq!(trial.locate(), Ok((1, 0)));
}

#[test]
fn case_g_sixteen_clocks_reach_the_adjust_line() {
    let mut trial = Trial::with(&SETTING_A);
    assert_eq!(trial.clocks(16).ma, 4);
    assert!(trial.adjusting());
}

#[test]
fn case_h_cell_0_0_is_located_with_129_columns() {
    let mut trial = wide_with_columns(129);
    assert_eq!(trial.strike(), (2, 1));
    assert_eq!(trial.locate(), Ok((0, 0)));
}

#[test]
fn case_i_cell_0_0_is_refused_with_130_columns() {
    let mut trial = wide_with_columns(130);
    assert_eq!(trial.strike(), (2, 1));
    assert_eq!(trial.locate(), Err(8));
}

#[test]
fn case_j_cell_0_126_is_located_with_130_columns() {
    let mut trial = wide_with_columns(130);
    trial.clocks(126);
    assert_eq!(trial.strike(), (128, 1));
    assert_eq!(trial.locate(), Ok((0, 126)));
}
