//! The lines of a report as decimal numbers, without the program around them.

use second::counts::counts_text;

use crate::setting::bytes_with;
use crate::trial::SETTING_A;

/// What is printed for sixteen bytes ff.
pub const LINE_OF_ALL_ONES: &str = "1036320 1036320 2 61891 3840 2105022 8\n";

/// Setting A, a setting of zeros and one that wraps, and what is printed.
pub fn three_settings() -> (Vec<u8>, &'static str) {
    let wrapping = bytes_with(&[(0, 1), (12, 0x3F), (13, 0xFF)]);
    let bytes = [bytes_with(&SETTING_A), [0; 16], wrapping].concat();
    let lines = "\
8 8 1 0 20 32 3
0 0 0 0 1 0 0
0 0 0 0 2 28 14
total 8 8 1 0 23 60 14
";
    (bytes, lines)
}

#[test]
fn one_setting_has_a_line_and_the_line_of_totals() {
    let expected = "8 8 1 0 20 32 3\ntotal 8 8 1 0 20 32 3\n";
    assert_eq!(counts_text(&bytes_with(&SETTING_A)), expected);
    let expected = "0 0 0 0 1 0 0\ntotal 0 0 0 0 1 0 0\n";
    assert_eq!(counts_text(&[0; 16]), expected);
}

#[test]
fn all_ones_have_the_line_reckoned_by_hand() {
    let expected = format!("{LINE_OF_ALL_ONES}total {LINE_OF_ALL_ONES}");
    assert_eq!(counts_text(&[0xFF; 16]), expected);
}

#[test]
fn several_settings_have_a_line_each() {
    let (bytes, lines) = three_settings();
    assert_eq!(counts_text(&bytes), lines);
}

#[test]
fn sixty_four_settings_have_65_lines() {
    let expected = "0 0 0 0 1 0 0\n".repeat(64) + "total 0 0 0 0 64 0 0\n";
    assert_eq!(counts_text(&[0; 1_024]), expected);
}

#[test]
fn anything_but_1_to_64_whole_settings_has_only_the_refusal() {
    for length in [0, 1, 15, 17, 1_023, 1_025, 1_040, 5_000] {
        assert_eq!(counts_text(&vec![0; length]), "refused 10\n", "{length}");
    }
}
