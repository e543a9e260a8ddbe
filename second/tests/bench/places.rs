//! A report put in a chosen number of places, as text.

use second::counts::places_text;

use crate::room::input;
use crate::setting::bytes_with;
use crate::trial::SETTING_A;

pub const UNTOUCHED: &str = "a5a5a5a5a5a5a5a5\n";

/// The seven numbers of setting A in their places.
pub const PLACES_OF_A: &str = "\
0000000000000008
0000000000000008
0000000000000001
0000000000000000
0000000000000014
0000000000000020
0000000000000003
";

/// Those of sixteen bytes ff.
const PLACES_OF_ALL_ONES: &str = "\
00000000000fd020
00000000000fd020
0000000000000002
000000000000f1c3
0000000000000f00
0000000000201ebe
0000000000000008
";

fn gives(count: u16, settings: &[u8], expected: &str) {
    let text = places_text(&input(count, settings));
    assert_eq!(text, expected, "{count} places");
}

/// A refusal and as many places as there are, all untouched.
fn refuses(count: u16, settings: &[u8], number: u8) {
    let expected = format!("{number}\n") + &UNTOUCHED.repeat(usize::from(count));
    gives(count, settings, &expected);
}

#[test]
fn the_exact_places_take_the_whole_report() {
    let expected = format!("0\n{PLACES_OF_A}{PLACES_OF_A}");
    gives(14, &bytes_with(&SETTING_A), &expected);
    let expected = format!("0\n{PLACES_OF_ALL_ONES}{PLACES_OF_ALL_ONES}");
    gives(14, &[0xFF; 16], &expected);
}

#[test]
fn more_places_than_needed_are_left_untouched() {
    for more in [1, 7, 50] {
        let expected = format!("0\n{PLACES_OF_A}{PLACES_OF_A}") + &UNTOUCHED.repeat(more);
        gives(14 + more as u16, &bytes_with(&SETTING_A), &expected);
    }
}

#[test]
fn fewer_places_than_needed_are_refused_by_11_and_untouched() {
    for count in 0..14 {
        refuses(count, &bytes_with(&SETTING_A), 11);
    }
    refuses(20, &[0; 32], 11);
    refuses(454, &[0; 1_024], 11);
}

#[test]
fn sixty_four_settings_fit_in_455_places() {
    let row = |times: u8| {
        let zero = "0000000000000000\n";
        zero.repeat(4) + &format!("{times:016x}\n") + &zero.repeat(2)
    };
    let expected = String::from("0\n") + &row(1).repeat(64) + &row(64);
    gives(455, &[0; 1_024], &expected);
}

#[test]
fn bytes_that_are_not_whole_settings_are_refused_by_10_first() {
    for length in [0, 1, 15, 17, 1_023, 1_025, 1_040] {
        for count in [0, 1, 13, 14, 455, 1_024] {
            refuses(count, &vec![0; length], 10);
        }
    }
}

#[test]
fn more_than_1024_places_count_as_1024() {
    let taken = format!("0\n{PLACES_OF_A}{PLACES_OF_A}") + &UNTOUCHED.repeat(1_010);
    let refused = String::from("10\n") + &UNTOUCHED.repeat(1_024);
    for count in [1_024, 1_025, 2_048, u16::MAX] {
        gives(count, &bytes_with(&SETTING_A), &taken);
        gives(count, &[], &refused);
    }
    refuses(1_023, &[], 10);
}

#[test]
fn the_high_byte_of_the_number_comes_first() {
    assert_eq!(places_text(&[0, 1]), format!("10\n{UNTOUCHED}"));
    let many = String::from("10\n") + &UNTOUCHED.repeat(256);
    assert_eq!(places_text(&[1, 0]), many);
}

#[test]
fn fewer_than_two_bytes_tell_of_no_places() {
    assert_eq!(places_text(&[]), "no room\n");
    for byte in [0, 14, 255] {
        assert_eq!(places_text(&[byte]), "no room\n");
    }
    assert_eq!(places_text(&[0, 0]), "10\n");
}
