//! What a strike latches and what it leaves alone, with registers written just
//! before it and between it and the locating.

use crate::trial::{Trial, SETTING_A};

/// Setting A with every character of the line shown: addresses 0 to 3 twice, 4
/// to 7 twice, and 8 to 11 in the adjust line.
const FULL_WIDTH: [(u8, u8); 6] = [(0, 3), (1, 4), (4, 1), (5, 1), (6, 2), (9, 1)];

/// The last lines of both rows in it.
const LAST_LINE_OF_ROW_0: u16 = 4;
const LAST_LINE_OF_ROW_1: u16 = 12;

fn full_width_after(clocks: u16) -> Trial {
    let mut trial = Trial::with(&FULL_WIDTH);
    trial.clocks(clocks);
    trial
}

#[test]
fn setting_a_latches_the_address_two_times_on() {
    let latches = [
        [2, 3, 0, 1],
        [2, 3, 2, 3],
        [4, 5, 2, 3],
        [4, 5, 4, 5],
        [6, 7, 0, 1],
    ];
    let shown = [[1, 1, 0, 0]; 4].concat();
    let shown = [&shown[..], &[0; 4]].concat();
    let mut trial = Trial::with(&SETTING_A);
    for wanted in latches.concat().into_iter().zip(shown).cycle().take(60) {
        assert_eq!(trial.strike(), wanted);
        trial.clocks(1);
    }
}

#[test]
fn r16_and_r17_read_the_address_past_the_line_s_end() {
    let start = [(12, 0x2A), (13, 0xFC)];
    let mut trial = Trial::with(&[&FULL_WIDTH[..], &start].concat());
    trial.clocks(LAST_LINE_OF_ROW_0 + 3);
    assert_eq!(trial.strike(), (0x2B01, 1));
    assert_eq!(trial.status(), 0x40);
    assert_eq!((trial.read(16), trial.read(17)), ((1, 0x2B), (1, 0x01)));
    assert_eq!(trial.status(), 0);
}

#[test]
fn the_picture_fact_is_that_of_the_character_struck() {
    // From the last column of the picture to outside of it, and back.
    let mut trial = full_width_after(LAST_LINE_OF_ROW_1 + 3);
    assert_eq!(trial.strike(), (9, 1));
    trial.clocks(3);
    assert!(trial.adjusting());
    assert_eq!(trial.strike(), (0, 0));
}

#[test]
fn a_strike_moves_nothing_but_the_pen() {
    for time in 0..40 {
        let late_pins_and_syncs = [(2, 1), (3, 0x13), (8, 0x30), (10, 0x40), (15, 4)];
        let mut trial = Trial::with(&[&FULL_WIDTH[..], &late_pins_and_syncs].concat());
        trial.clocks(time);
        let mut struck = trial;
        struck.strike();
        assert_eq!(
            struck.bench.controller.scan(),
            trial.bench.controller.scan()
        );
        for _ in 0..40 {
            assert_eq!(struck.now(), trial.now(), "struck at {time}");
            assert_eq!(struck.clocks(1), trial.clocks(1), "struck at {time}");
        }
    }
}

#[test]
fn a_second_strike_at_the_same_place_latches_the_same() {
    let mut trial = full_width_after(LAST_LINE_OF_ROW_0 + 2);
    for _ in 0..5 {
        assert_eq!(trial.strike(), (4, 1));
    }
}

#[test]
fn r1_at_the_strike_says_how_far_the_base_moves() {
    let mut trial = full_width_after(LAST_LINE_OF_ROW_0 + 2);
    trial.set(1, 7);
    assert_eq!(trial.strike(), (7, 1));
    // Column 2 of row 1 begins its next line there.
    assert_eq!(trial.locate(), Err(8));
    assert_eq!(trial.located_with(&[(6, 1)]), Ok((0, 2)));
}

#[test]
fn r8_at_the_strike_says_how_the_address_is_made() {
    let mut trial = full_width_after(LAST_LINE_OF_ROW_0 + 3);
    trial.set(8, 4);
    assert_eq!(trial.strike(), (0x0101, 1));
    assert_eq!(trial.locate(), Err(8));
    assert_eq!(trial.located_with(&[(6, 1)]), Ok((0, 3)));
    trial.set(8, 0);
    assert_eq!(trial.strike(), (5, 1));
}

#[test]
fn r4_and_r5_at_the_strike_say_what_follows_the_row() {
    let mut trial = full_width_after(LAST_LINE_OF_ROW_1 + 2);
    assert_eq!(trial.strike(), (8, 1));
    trial.set(5, 0);
    assert_eq!(trial.strike(), (0, 1));
    trial.set(4, 2);
    assert_eq!(trial.strike(), (8, 1));
}

#[test]
fn r0_at_the_strike_says_where_the_line_ends() {
    let mut trial = Trial::with(&[(0, 9), (1, 8), (4, 9), (6, 8)]);
    trial.clocks(2);
    assert_eq!(trial.strike(), (4, 1));
    trial.set(0, 3);
    assert_eq!(trial.strike(), (8, 1));
    assert_eq!(trial.locate(), Ok((0, 2)));
    trial.set(0, 2);
    assert_eq!(trial.strike(), (9, 1));
    assert_eq!(trial.locate(), Ok((0, 2)));
    // Past R0 the line goes on.
    trial.set(0, 1);
    assert_eq!(trial.strike(), (4, 1));
}

#[test]
fn past_a_lowered_r0_the_column_wraps_within_its_line() {
    let mut trial = Trial::with(&[(0, 255), (1, 255), (4, 1), (6, 2)]);
    trial.clocks(253);
    trial.set(0, 5);
    // Columns 4 and 5 of row 0 come to 255 and 256, those of row 1 to 0 and 1.
    assert_eq!(trial.strike(), (255, 1));
    assert_eq!(trial.locate(), Ok((0, 4)));
    trial.clocks(1);
    assert_eq!(trial.strike(), (0, 1));
    assert_eq!(trial.locate(), Ok((1, 4)));
    trial.clocks(1);
    assert_eq!(trial.strike(), (1, 0));
}

#[test]
fn past_a_lowered_r9_the_row_goes_on_and_the_line_is_none_of_the_cell_s() {
    // Four lines to a row; struck in the last column of row 0's line 2.
    let mut start = Trial::with(&[&FULL_WIDTH[..], &[(9, 3)]].concat());
    start.clocks(4 * 2 + 3);
    for (r9, latch, located) in [
        (3, 1, Ok((0, 3))),
        (2, 5, Err(8)),
        (1, 1, Ok((0, 3))),
        (0, 1, Err(7)),
    ] {
        let mut trial = start;
        trial.set(9, r9);
        assert_eq!(trial.strike(), (latch, 1), "R9 made {r9}");
        assert_eq!(trial.locate(), located, "R9 made {r9}");
    }
}

#[test]
fn the_lines_of_a_cell_go_by_r9_as_it_stands_at_the_locating() {
    // Column 2 of row 0 on its first line comes to address 0.
    let mut trial = full_width_after(2);
    assert_eq!(trial.strike(), (0, 1));
    for r9 in 1..32 {
        assert_eq!(trial.located_with(&[(9, r9)]), Ok((0, 2)), "R9 {r9}");
    }
    assert_eq!(trial.located_with(&[(9, 0)]), Err(7));
    // On its last line it comes to 4, and so does row 1 if it has two lines.
    let mut trial = full_width_after(LAST_LINE_OF_ROW_0 + 2);
    assert_eq!(trial.strike(), (4, 1));
    for r9 in 1..32 {
        assert_eq!(trial.located_with(&[(9, r9)]), Err(8), "R9 {r9}");
    }
    assert_eq!(trial.located_with(&[(9, 0)]), Ok((0, 2)));
}

#[test]
fn what_follows_the_last_row_goes_by_r4_and_r5_as_they_stand_at_the_locating() {
    let mut trial = full_width_after(LAST_LINE_OF_ROW_1 + 2);
    assert_eq!(trial.strike(), (8, 1));
    assert_eq!(trial.locate(), Ok((1, 2)));
    assert_eq!(trial.located_with(&[(5, 31)]), Ok((1, 2)));
    assert_eq!(trial.located_with(&[(5, 0)]), Err(7));
    assert_eq!(trial.located_with(&[(4, 2), (5, 0)]), Ok((1, 2)));
    // Row 2 shown as well comes to 8 on its first line.
    assert_eq!(trial.located_with(&[(4, 2), (6, 3)]), Err(8));
}

#[test]
fn a_strike_in_the_adjust_lines_latches_the_start_of_the_frame_to_come() {
    let mut trial = full_width_after(16);
    assert!(trial.adjusting());
    trial.set_all(&[(12, 0x15), (13, 0x77)]);
    for latch in [10, 11, 0x1577, 0x1578] {
        assert_eq!(trial.strike(), (latch, 0));
        assert_eq!(trial.locate(), Err(6));
        trial.clocks(1);
    }
    assert_eq!(trial.strike(), (0x1579, 1));
    assert_eq!(trial.locate(), Ok((0, 0)));
}

#[test]
fn a_strike_counts_the_adjust_lines_in_five_bits_and_by_equality() {
    // One character to a line, at 50 hex in row 0 and 51 hex in adjust lines.
    let mut trial = Trial::with(&[(1, 1), (5, 31), (6, 1), (13, 0x50)]);
    trial.clocks(31);
    assert_eq!((trial.adjusting(), trial.line()), (true, 30));
    // A frame that ends here begins its own adjust lines at once.
    assert_eq!(trial.strike(), (0x51, 0));
    // Lines 31 and then 32, which is 0.
    trial.set(5, 0);
    assert_eq!(trial.strike(), (0x50, 0));
    trial.set(5, 1);
    assert_eq!(trial.strike(), (0x51, 0));
}
