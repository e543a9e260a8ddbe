//! The built program counting frames, with a real standard input and output.

use crate::counts::{three_settings, LINE_OF_ALL_ONES};
use crate::places::{PLACES_OF_A, UNTOUCHED};
use crate::program::prints_with;
use crate::room::input;
use crate::setting::bytes_with;
use crate::trial::SETTING_A;

fn prints_counts(settings: &[u8], expected: &str) {
    prints_with(&["--counts"], settings, expected);
}

fn prints_places(count: u16, settings: &[u8], expected: &str) {
    prints_with(&["--places"], &input(count, settings), expected);
}

#[test]
fn the_program_counts_setting_a() {
    let expected = "8 8 1 0 20 32 3\ntotal 8 8 1 0 20 32 3\n";
    prints_counts(&bytes_with(&SETTING_A), expected);
}

#[test]
fn the_program_counts_several_settings() {
    let (settings, expected) = three_settings();
    prints_counts(&settings, expected);
}

#[test]
fn the_program_counts_64_of_the_largest_frames() {
    let totals = "total 66324480 66324480 128 3961024 245760 134721408 8\n";
    let expected = LINE_OF_ALL_ONES.repeat(64) + totals;
    prints_counts(&[0xFF; 1_024], &expected);
}

#[test]
fn the_program_refuses_to_count_what_is_not_whole_settings() {
    for length in [0, 1, 15, 17, 1_023, 1_025, 1_040, 1_000_000] {
        prints_counts(&vec![0; length], "refused 10\n");
    }
}

#[test]
fn the_program_shows_every_place_of_a_report() {
    let settings = bytes_with(&SETTING_A);
    let whole = format!("0\n{PLACES_OF_A}{PLACES_OF_A}");
    prints_places(14, &settings, &whole);
    prints_places(15, &settings, &(whole + UNTOUCHED));
}

#[test]
fn the_program_shows_untouched_places_when_it_refuses() {
    let settings = bytes_with(&SETTING_A);
    let short = String::from("11\n") + &UNTOUCHED.repeat(13);
    prints_places(13, &settings, &short);
    prints_places(0, &settings, "11\n");
    let broken = String::from("10\n") + &UNTOUCHED.repeat(13);
    prints_places(13, &settings[..15], &broken);
    prints_places(0, &[], "10\n");
}

#[test]
fn the_program_takes_1024_bytes_of_settings_with_places_and_no_more() {
    let short = String::from("11\n") + &UNTOUCHED.repeat(454);
    prints_places(454, &[0xFF; 1_024], &short);
    let refused = String::from("10\n") + &UNTOUCHED.repeat(454);
    for length in [1_025, 1_026, 1_040, 1_000_000] {
        prints_places(454, &vec![0xFF; length], &refused);
    }
}

#[test]
fn the_program_asks_for_the_number_of_places_and_takes_1024_at_most() {
    prints_with(&["--places"], &[], "no room\n");
    prints_with(&["--places"], &[14], "no room\n");
    let expected = String::from("10\n") + &UNTOUCHED.repeat(1_024);
    for count in [1_024, 1_025, u16::MAX] {
        prints_places(count, &[], &expected);
    }
}
