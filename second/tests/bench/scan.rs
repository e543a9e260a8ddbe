//! The counters, the addresses they make, and the picture.

use crate::trial::{Trial, DISPLAY_ENABLE, PICTURE, SETTING_A, SETTING_A_TIMES, VSYNC};

const SHOWN: u8 = PICTURE | DISPLAY_ENABLE;

/// 256 characters to a line and 32 lines to a row; a frame of 128 such rows.
const LONG: [(u8, u8); 5] = [(0, 255), (1, 100), (4, 127), (6, 127), (9, 31)];

#[test]
fn three_frames_of_setting_a_character_by_character() {
    let mut trial = Trial::with(&SETTING_A);
    for number in 0..3 {
        for (time, expected) in SETTING_A_TIMES.iter().enumerate() {
            let seen = trial.now();
            assert_eq!(
                (seen.ma, seen.ra, seen.flags),
                *expected,
                "frame {number}, time {time}"
            );
            trial.clocks(1);
        }
    }
}

#[test]
fn many_clocks_in_one_record_are_as_many_single_clocks() {
    let mut at_once = Trial::with(&SETTING_A);
    let mut singly = at_once;
    at_once.clocks(1_013);
    for _ in 0..1_013 {
        singly.clocks(1);
    }
    assert_eq!(at_once.bench, singly.bench);
}

#[test]
fn a_record_of_65535_clocks_reaches_the_place_reckoned_by_hand() {
    // 255 lines and 255 characters; the lines are seven rows and 31 lines more.
    let mut trial = Trial::with(&LONG);
    let seen = trial.clocks(65_535);
    assert_eq!((seen.ma, seen.ra, seen.flags), (7 * 100 + 255, 31, 0));
    assert_eq!((trial.column(), trial.line(), trial.row()), (255, 31, 7));
    let next = trial.clocks(1);
    assert_eq!((next.ma, next.ra, next.flags), (8 * 100, 0, SHOWN));
    assert_eq!((trial.column(), trial.line(), trial.row()), (0, 0, 8));

    // 3,276 frames of 20, which is 12 beyond whole rounds of 32, and 15 more.
    let mut trial = Trial::with(&SETTING_A);
    let seen = trial.clocks(65_535);
    assert_eq!((seen.ma, seen.ra, seen.flags), (5, 1, VSYNC));
    assert_eq!((trial.column(), trial.line(), trial.row()), (3, 1, 1));
    assert_eq!(trial.field(), 12);
}

#[test]
fn a_record_of_65535_clocks_is_one_of_65534_and_one_clock() {
    for settings in [&LONG[..], &SETTING_A[..]] {
        let mut at_once = Trial::with(settings);
        let mut in_two = at_once;
        let seen = at_once.clocks(65_535);
        in_two.clocks(65_534);
        assert_ne!(in_two.bench, at_once.bench);
        assert_eq!(in_two.clocks(1), seen);
        assert_eq!(in_two.bench, at_once.bench);
    }
}

#[test]
fn a_lowered_r0_lets_the_column_run_through_255() {
    let mut trial = Trial::with(&[(0, 10), (4, 5)]);
    trial.clocks(8);
    trial.set(0, 5);
    assert_eq!(trial.clocks(247).ma, 255);
    assert_eq!((trial.column(), trial.row()), (255, 0));
    trial.clocks(1);
    assert_eq!((trial.column(), trial.row()), (0, 0));
    trial.clocks(5);
    assert_eq!((trial.column(), trial.row()), (5, 0));
    trial.clocks(1);
    assert_eq!((trial.column(), trial.row()), (0, 1));
}

#[test]
fn a_lowered_r9_lets_the_line_run_through_31() {
    let mut trial = Trial::with(&[(4, 5), (9, 10)]);
    assert_eq!(trial.clocks(8).ra, 8);
    trial.set(9, 5);
    assert_eq!(trial.clocks(23).ra, 31);
    assert_eq!(trial.clocks(1).ra, 0);
    assert_eq!(trial.row(), 0);
    assert_eq!(trial.clocks(5).ra, 5);
    assert_eq!(trial.row(), 0);
    assert_eq!(trial.clocks(1).ra, 0);
    assert_eq!(trial.row(), 1);
}

#[test]
fn below_the_line_reached_r9_ends_the_row_only_after_the_line_has_wrapped() {
    let start = Trial::with(&[(0, 2), (1, 3), (4, 5), (6, 6), (9, 10)]);
    for lowered in 0..8u8 {
        // Row 1, line 8, column 1.
        let mut trial = start;
        trial.clocks(3 * 11 + 3 * 8 + 1);
        trial.set(9, lowered);
        let lines = (8..32).chain(0..=lowered);
        let places = lines.flat_map(|line| (0..3).map(move |column| (line, column)));
        for (line, column) in places.skip(1) {
            let seen = trial.now();
            let wanted = (3 + column, line, SHOWN);
            assert_eq!((seen.ma, seen.ra, seen.flags & SHOWN), wanted, "{lowered}");
            assert_eq!((trial.row(), trial.column()), (1, column), "{lowered}");
            trial.clocks(1);
        }
        assert_eq!((trial.now().ma, trial.now().ra, trial.row()), (6, 0, 2));
    }
}

#[test]
fn lowered_to_the_very_line_reached_r9_ends_the_row_with_that_line() {
    let mut trial = Trial::with(&[(0, 2), (4, 5), (9, 10)]);
    assert_eq!(trial.clocks(3 * 8).ra, 8);
    trial.set(9, 8);
    trial.clocks(2);
    assert_eq!((trial.line(), trial.row()), (8, 0));
    trial.clocks(1);
    assert_eq!((trial.line(), trial.row()), (0, 1));
}

#[test]
fn below_the_line_reached_r9_puts_off_the_end_of_the_frame() {
    let mut trial = Trial::with(&[(9, 31)]);
    trial.clocks(30);
    trial.set(9, 29);
    // Lines 30 and 31, then the whole row over again.
    assert_eq!(trial.measure_frame(), 2 + 30);
    assert_eq!(trial.measure_frame(), 30);
}

#[test]
fn a_lowered_r4_lets_the_row_run_through_127() {
    let mut trial = Trial::with(&[(4, 10)]);
    trial.clocks(8);
    trial.set(4, 5);
    trial.clocks(119);
    assert_eq!((trial.row(), trial.field()), (127, 0));
    trial.clocks(1);
    assert_eq!((trial.row(), trial.field()), (0, 0));
    trial.clocks(5);
    assert_eq!((trial.row(), trial.field()), (5, 0));
    trial.clocks(1);
    assert_eq!((trial.row(), trial.field()), (0, 1));
}

#[test]
fn adjust_lines_are_lines_and_not_rows() {
    // One row of four lines and two more lines, three characters each.
    let mut trial = Trial::with(&[(0, 2), (5, 2), (9, 3)]);
    for _ in 0..3 {
        assert_eq!(trial.measure_frame(), 3 * (4 + 2));
    }
}

#[test]
fn adjust_lines_count_up_from_line_0_in_a_row_of_their_own() {
    let mut trial = Trial::with(&[(1, 7), (4, 1), (5, 3), (9, 1)]);
    let expected = [
        (0, 0, false, 0),
        (1, 0, false, 0),
        (0, 1, false, 7),
        (1, 1, false, 7),
        (0, 2, true, 14),
        (1, 2, true, 14),
        (2, 2, true, 14),
        (0, 0, false, 0),
    ];
    for (time, wanted) in expected.iter().enumerate() {
        let ma = trial.now().ma;
        let seen = (trial.line(), trial.row(), trial.adjusting(), ma);
        assert_eq!(seen, *wanted, "time {time}");
        trial.clocks(1);
    }
}

#[test]
fn a_lowered_r5_lets_the_adjust_line_run_through_31() {
    let mut trial = Trial::with(&[(5, 10)]);
    trial.clocks(6);
    assert!(trial.adjusting());
    assert_eq!(trial.line(), 5);
    trial.set(5, 3);
    trial.clocks(26);
    assert_eq!((trial.line(), trial.field()), (31, 0));
    trial.clocks(3);
    assert_eq!((trial.line(), trial.field()), (2, 0));
    trial.clocks(1);
    assert_eq!(
        (trial.line(), trial.field(), trial.adjusting()),
        (0, 1, false)
    );
}

#[test]
fn r5_made_zero_in_the_adjust_lines_ends_them_after_line_31() {
    let mut trial = Trial::with(&[(5, 10)]);
    trial.clocks(2);
    assert_eq!((trial.line(), trial.adjusting()), (1, true));
    trial.set(5, 0);
    trial.clocks(30);
    assert_eq!((trial.line(), trial.adjusting()), (31, true));
    trial.clocks(1);
    assert_eq!((trial.field(), trial.adjusting()), (1, false));
}

#[test]
fn the_field_counts_frames_in_five_bits() {
    let mut trial = Trial::fresh();
    assert_eq!(trial.field(), 0);
    trial.clocks(31);
    assert_eq!(trial.field(), 31);
    trial.clocks(1);
    assert_eq!(trial.field(), 0);
}

#[test]
fn the_start_is_sampled_by_reset_and_by_each_new_frame_only() {
    let mut trial = Trial::with(&[(0, 3), (4, 1), (12, 0x12), (13, 0x34)]);
    assert_eq!(trial.now().ma, 0x1234);
    trial.set_all(&[(12, 0x21), (13, 0x43)]);
    assert_eq!(trial.now().ma, 0x1234);
    assert_eq!(trial.clocks(7).ma, 0x1237);
    assert_eq!(trial.clocks(1).ma, 0x2143);
}

#[test]
fn the_address_wraps_at_16384_along_the_line_and_from_row_to_row() {
    let mut trial = Trial::with(&[(0, 3), (1, 2), (4, 3), (12, 0x3F), (13, 0xFF)]);
    assert_eq!(trial.now().ma, 16383);
    assert_eq!(trial.clocks(1).ma, 0);
    assert_eq!(trial.clocks(1).ma, 1);
    assert_eq!(trial.clocks(2).ma, 1);
    assert_eq!(trial.clocks(4).ma, 3);
}

#[test]
fn row_column_addressing_adds_row_and_column_apart() {
    let mut trial = Trial::with(&[(0, 3), (1, 9), (4, 3), (8, 4), (12, 0x3E), (13, 0xFE)]);
    let expected = [
        0x3EFE, 0x3EFF, 0x3E00, 0x3E01, 0x3FFE, 0x3FFF, 0x3F00, 0x3F01, 0x00FE, 0x00FF,
    ];
    for (time, address) in expected.iter().enumerate() {
        assert_eq!(trial.now().ma, *address, "time {time}");
        trial.clocks(1);
    }
}

#[test]
fn row_column_addressing_uses_the_sampled_start_and_r8_as_it_stands() {
    let mut trial = Trial::with(&[(0, 3), (1, 9), (4, 3), (12, 0x10), (13, 0x20)]);
    trial.clocks(5);
    trial.set_all(&[(12, 0x3F), (13, 0xF0)]);
    assert_eq!(trial.now().ma, 0x102A);
    trial.set(8, 0b100);
    assert_eq!(trial.now().ma, 0x1121);
    trial.set(8, 0b1111_1011);
    assert_eq!(trial.now().ma, 0x102A);
}

#[test]
fn the_picture_is_bounded_by_r6_and_r1() {
    let mut trial = Trial::with(&[(0, 4), (1, 3), (4, 4), (6, 2)]);
    for row in 0..5 {
        for column in 0..5 {
            assert_eq!(
                trial.now().shows(PICTURE),
                row < 2 && column < 3,
                "{row},{column}"
            );
            trial.clocks(1);
        }
    }
}

#[test]
fn a_wrapped_row_in_the_adjust_lines_is_not_in_the_picture() {
    let mut trial = Trial::with(&[(1, 1), (4, 127), (5, 1), (6, 127)]);
    trial.clocks(128);
    assert_eq!((trial.row(), trial.adjusting()), (0, true));
    assert!(!trial.now().shows(PICTURE));
    assert_eq!(trial.strike().1, 0);
    trial.clocks(1);
    assert!(trial.now().shows(PICTURE));
}
