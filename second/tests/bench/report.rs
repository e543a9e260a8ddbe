//! The report on a batch of settings: its rows, its refusals, and the places
//! it leaves alone.

use second::{report, CountRefusal};

use crate::lots::{small_setting, Lots};
use crate::setting::bytes_with;
use crate::totals::row;
use crate::trial::SETTING_A;

const BEFORE: u64 = 0x0123_4567_89AB_CDEF;

const ROW_A: [u64; 7] = [8, 8, 1, 0, 20, 32, 3];
const ROW_0: [u64; 7] = [0, 0, 0, 0, 1, 0, 0];

/// Two characters whose address changes in all lines and back.
const WRAPPING: [(u8, u8); 5] = [(0, 1), (2, 1), (3, 0x11), (12, 0x3F), (13, 0xFF)];
const ROW_WRAPPING: [u64; 7] = [0, 0, 0, 1, 2, 28, 14];

/// Asks for a report in so many places and hands back all of them.
fn asked(bytes: &[u8], count: usize) -> (Result<usize, CountRefusal>, Vec<u64>) {
    let mut places = vec![BEFORE; count];
    let answer = report(bytes, &mut places);
    (answer, places)
}

fn refused(bytes: &[u8], count: usize, refusal: CountRefusal) {
    let expected = (Err(refusal), vec![BEFORE; count]);
    assert_eq!(asked(bytes, count), expected, "{} bytes", bytes.len());
}

#[test]
fn the_refusals_have_the_numbers_of_the_request() {
    assert_eq!(CountRefusal::NotWholeSettings.number(), 10);
    assert_eq!(CountRefusal::TooFewPlaces.number(), 11);
}

#[test]
fn one_setting_has_its_row_and_the_same_totals() {
    let places = [ROW_A, ROW_A].concat();
    assert_eq!(asked(&bytes_with(&SETTING_A), 14), (Ok(14), places));
}

#[test]
fn rows_come_in_the_order_of_the_settings_and_the_totals_last() {
    let bytes = [bytes_with(&SETTING_A), [0; 16], bytes_with(&WRAPPING)].concat();
    let totals = [8, 8, 1, 1, 23, 60, 14];
    let places = [ROW_A, ROW_0, ROW_WRAPPING, totals].concat();
    assert_eq!(asked(&bytes, 28), (Ok(28), places));
}

#[test]
fn the_greatest_of_the_largest_changes_is_found_wherever_it_stands() {
    let small = bytes_with(&SETTING_A);
    let great = bytes_with(&WRAPPING);
    for bytes in [
        [great, small, small],
        [small, great, small],
        [small, small, great],
    ] {
        let (_, places) = asked(&bytes.concat(), 28);
        assert_eq!(places[21..], [16, 16, 2, 1, 42, 92, 14]);
    }
}

#[test]
fn each_setting_is_counted_on_a_controller_of_its_own() {
    // A pulse still running at the end of one frame would show in the next row.
    let running = bytes_with(&[(0, 3), (2, 3), (3, 0x0F)]);
    let after = bytes_with(&[(0, 3), (2, 9), (3, 0x0F), (7, 9)]);
    let (_, alone) = asked(&after, 14);
    let (_, together) = asked(&[running, after].concat(), 21);
    assert_eq!(alone[..7], [0, 0, 0, 0, 0, 6, 2]);
    assert_eq!(together[7..14], alone[..7]);
}

#[test]
fn settings_that_are_equal_after_the_cut_have_equal_rows() {
    let spare = crate::setting::SETTING_A_WITH_SPARE_BITS;
    let (_, places) = asked(&[bytes_with(&SETTING_A), spare].concat(), 21);
    let totals = [16, 16, 2, 0, 40, 64, 3];
    assert_eq!(places, [ROW_A, ROW_A, totals].concat());
}

#[test]
fn every_number_of_settings_needs_seven_places_each_and_seven_more() {
    for settings in 1..=64usize {
        let bytes = vec![0; 16 * settings];
        let needed = 7 * settings + 7;
        refused(&bytes, needed - 1, CountRefusal::TooFewPlaces);
        let n = settings as u64;
        let totals = [0, 0, 0, 0, n, 0, 0];
        let places = [vec![ROW_0; settings], vec![totals]].concat().concat();
        assert_eq!(asked(&bytes, needed), (Ok(needed), places));
    }
}

#[test]
fn sixty_four_different_settings_are_summed_place_by_place() {
    let mut lots = Lots::new(6);
    let settings: Vec<[u8; 16]> = (0..64).map(|_| small_setting(&mut lots)).collect();
    let (answer, places) = asked(&settings.concat(), 455);
    assert_eq!(answer, Ok(455));
    let mut totals = [0; 7];
    for (number, setting) in settings.iter().enumerate() {
        let expected = row(*setting);
        assert_eq!(places[7 * number..][..7], expected, "setting {number}");
        for place in 0..6 {
            totals[place] += expected[place];
        }
        totals[6] = totals[6].max(expected[6]);
    }
    assert_eq!(places[448..], totals);
}

#[test]
fn places_past_the_report_stay_as_they_were() {
    for more in [1, 6, 7, 100] {
        let places = [ROW_A, ROW_A].concat();
        let untouched = vec![BEFORE; more];
        let expected = (Ok(14), [places, untouched].concat());
        assert_eq!(asked(&bytes_with(&SETTING_A), 14 + more), expected);
    }
}

#[test]
fn what_the_places_held_before_makes_no_difference() {
    for before in [0, 1, u64::MAX] {
        let mut places = [before; 15];
        assert_eq!(report(&bytes_with(&SETTING_A), &mut places), Ok(14));
        assert_eq!(places[..14], [ROW_A, ROW_A].concat());
        assert_eq!(places[14], before);
    }
}

#[test]
fn bytes_that_are_not_whole_settings_are_refused_with_places_enough() {
    for length in [0, 1, 15, 17, 31, 33, 1_023, 1_025, 1_040, 2_048, 4_096] {
        refused(&vec![0; length], 455, CountRefusal::NotWholeSettings);
        refused(&vec![0xFF; length], 5_000, CountRefusal::NotWholeSettings);
    }
}

#[test]
fn the_bytes_are_looked_at_before_the_places() {
    for length in [0, 1, 15, 17, 1_023, 1_025, 1_040] {
        for count in [0, 1, 6, 7, 13, 14] {
            refused(&vec![0; length], count, CountRefusal::NotWholeSettings);
        }
    }
}

#[test]
fn too_few_places_are_all_left_alone() {
    for count in 0..14 {
        refused(&bytes_with(&SETTING_A), count, CountRefusal::TooFewPlaces);
    }
    // Not even the rows that would have had their places are written.
    let two = [bytes_with(&SETTING_A), [0; 16]].concat();
    for count in 0..21 {
        refused(&two, count, CountRefusal::TooFewPlaces);
    }
}

#[test]
fn a_report_is_the_same_at_every_call() {
    let bytes = bytes_with(&WRAPPING);
    assert_eq!(asked(&bytes, 14), asked(&bytes, 14));
    let places = [ROW_WRAPPING, ROW_WRAPPING].concat();
    assert_eq!(asked(&bytes, 14), (Ok(14), places));
}
