//! The seven numbers of single settings, reckoned by hand. Their order: picture,
//! display enable, cursor, HSYNC, VSYNC, MA lines changed, largest change.

use second::counts::{Row, ROW_PLACES};
use second::report;

use crate::setting::{bytes_with, SETTING_A_WITH_SPARE_BITS};
use crate::trial::SETTING_A;

const PICTURE: usize = 0;
const DISPLAY_ENABLE: usize = 1;
const CURSOR: usize = 2;
const HSYNC: usize = 3;
const VSYNC: usize = 4;

const LATE_DISPLAY: u8 = 0b0001_0000;
const LATE_CURSOR: u8 = 0b0010_0000;
const ROW_COLUMN: u8 = 0b0000_0100;

/// The row of one setting; with no other setting the totals are the same.
pub fn row(bytes: [u8; 16]) -> Row {
    let mut places = [u64::MAX; 2 * ROW_PLACES];
    assert_eq!(report(&bytes, &mut places), Ok(2 * ROW_PLACES));
    let (row, totals) = places.split_at(ROW_PLACES);
    assert_eq!(row, totals);
    row.try_into().expect("seven numbers")
}

fn counted(registers: &[(u8, u8)]) -> Row {
    row(bytes_with(registers))
}

/// Setting A with more registers set, or the same ones anew.
fn counted_a(more: &[(u8, u8)]) -> Row {
    counted(&[&SETTING_A[..], more].concat())
}

#[test]
fn setting_a() {
    // Addresses, a line of the screen to each row, and the lines that change
    // from each to the one after it:
    // 0 1 2 3 | 1 2 1 2
    // 0 1 2 3 | 1 2 1 1
    // 2 3 4 5 | 1 3 1 3
    // 2 3 4 5 | 1 3 1 1
    // 4 5 6 7 | 1 2 1 3, the last from 7 to the next frame's 0.
    let changes = [6, 5, 8, 6, 7].iter().sum();
    assert_eq!(changes, 32);
    // Two lines of two rows, two characters in each; VSYNC of 16 lines.
    assert_eq!(counted_a(&[]), [8, 8, 1, 0, 20, changes, 3]);
}

#[test]
fn all_registers_0() {
    assert_eq!(counted(&[]), [0, 0, 0, 0, 1, 0, 0]);
}

#[test]
fn one_character_in_the_picture_whose_address_never_changes() {
    assert_eq!(counted(&[(1, 1), (6, 1)]), [1, 1, 1, 0, 1, 0, 0]);
    let elsewhere = [(1, 1), (6, 1), (12, 0x2A), (13, 0xAA)];
    assert_eq!(counted(&elsewhere), [1, 1, 0, 0, 1, 0, 0]);
    let many_shown = [(1, 255), (3, 0x11), (6, 127)];
    assert_eq!(counted(&many_shown), [1, 1, 1, 1, 1, 0, 0]);
}

#[test]
fn one_character_with_late_pins_is_over_before_they_show_it() {
    let late = [(1, 1), (6, 1), (8, LATE_DISPLAY | LATE_CURSOR)];
    assert_eq!(counted(&late), [1, 0, 0, 0, 1, 0, 0]);
}

#[test]
fn all_ones() {
    // Columns 0 to 254 of rows 0 to 126, 32 lines each; the pin runs late, but
    // the frame ends in the adjust lines.
    let picture = 255 * 127 * 32;
    // Start and cursor are both 3FFF: column 0 of rows 0 and 64, line 31 only.
    let cursor = 2;
    // 15 characters from column 255 on, of which the last line has but one.
    let lines = 128 * 32 + 31;
    let hsync = (lines - 1) * 15 + 1;
    let vsync = 15 * 256;
    // Along a line the low byte goes 255, 0, 1 to 254 and back to 255: from 255
    // to 0 eight lines, up to 255 again 502. The row's six lines go round twice.
    let changes = lines * (8 + 502) + 2 * (64 + 32 + 16 + 8 + 4 + 2);
    let expected = [picture, picture, cursor, hsync, vsync, changes, 8];
    assert_eq!(
        expected,
        [1_036_320, 1_036_320, 2, 61_891, 3_840, 2_105_022, 8]
    );
    assert_eq!(row([0xFF; 16]), expected);
}

#[test]
fn the_largest_frame_with_all_else_0() {
    // Counting up to 255 changes 502 lines, falling back to 0 eight more.
    let registers = [(0, 255), (4, 127), (5, 31), (9, 31)];
    let changes = 4_127 * (502 + 8);
    assert_eq!(counted(&registers), [0, 0, 0, 0, 16 * 256, changes, 8]);
}

#[test]
fn bytes_are_cut_before_they_are_counted() {
    let expected = counted_a(&[]);
    assert_eq!(row(SETTING_A_WITH_SPARE_BITS), expected);
    assert_eq!(counted_a(&[(4, 0x81), (5, 0x21), (9, 0x41)]), expected);
    // R5 of 32 is no adjust line at all.
    assert_eq!(counted_a(&[(5, 32)]), counted_a(&[(5, 0)]));
}

#[test]
fn the_step_into_the_next_frame_is_counted() {
    // 0 1 2 3, or 0 1 2, and back to 0.
    assert_eq!(counted(&[(0, 3)]), [0, 0, 0, 0, 4, 1 + 2 + 1 + 2, 2]);
    assert_eq!(counted(&[(0, 2)]), [0, 0, 0, 0, 3, 1 + 2 + 1, 2]);
    // One character a row: 0 7 14, or 0 7 14 21, and back to 0.
    assert_eq!(counted(&[(1, 7), (4, 2)]), [0, 0, 0, 0, 3, 3 + 2 + 3, 3]);
    let four_rows = [0, 0, 0, 0, 4, 3 + 2 + 4 + 3, 4];
    assert_eq!(counted(&[(1, 7), (4, 3)]), four_rows);
}

#[test]
fn the_step_into_the_next_frame_may_be_the_largest() {
    // 8 to 15 and 15 to 22 change three lines, 22 back to 8 four.
    let registers = [(1, 7), (4, 2), (13, 8)];
    assert_eq!(counted(&registers), [0, 0, 0, 0, 3, 3 + 3 + 4, 4]);
}

#[test]
fn a_row_that_begins_where_the_line_before_ended_changes_nothing() {
    // 0 1 2 3, 3 4 5 6 and back to 0.
    let changes = (1 + 2 + 1) + (3 + 1 + 2 + 2);
    let registers = [(0, 3), (1, 3), (4, 1)];
    assert_eq!(counted(&registers), [0, 0, 0, 0, 8, changes, 3]);
}

#[test]
fn all_fourteen_lines_change_where_the_address_wraps() {
    let registers = [(0, 1), (12, 0x3F), (13, 0xFF)];
    assert_eq!(counted(&registers), [0, 0, 0, 0, 2, 28, 14]);
}

#[test]
fn the_address_is_counted_outside_the_picture_too() {
    let shown = counted_a(&[(6, 2)]);
    let hidden = counted_a(&[(6, 0)]);
    assert_eq!(shown[5..], hidden[5..]);
    assert_eq!(hidden[..5], [0, 0, 0, 0, 20]);
}

#[test]
fn ra_is_no_part_of_the_address() {
    // 32 lines of one character at one address.
    let registers = [(1, 1), (6, 1), (9, 31), (11, 31)];
    assert_eq!(counted(&registers), [32, 32, 32, 0, 16, 0, 0]);
}

/// Three columns, two rows of two lines, from 3FFE on; the cursor is there too.
const AT_THE_END: [(u8, u8); 10] = [
    (0, 2),
    (1, 1),
    (4, 1),
    (6, 1),
    (9, 1),
    (11, 1),
    (12, 0x3F),
    (13, 0xFE),
    (14, 0x3F),
    (15, 0xFE),
];

#[test]
fn straight_addresses_carry_through_all_fourteen_lines() {
    // 3FFE 3FFF 0000, again, then 3FFF 0000 0001, again, and 3FFE.
    let changes = (1 + 14 + 13) + (1 + 14 + 14) + (14 + 1 + 13) + (14 + 1 + 14);
    assert_eq!(counted(&AT_THE_END), [2, 2, 2, 0, 12, changes, 14]);
}

#[test]
fn row_column_addresses_keep_row_and_column_apart() {
    // 3FFE 3FFF 3F00, again, then 00FE 00FF 0000, again, and 3FFE.
    let changes = (1 + 8 + 7) + (1 + 8 + 13) + (1 + 8 + 7) + (1 + 8 + 13);
    let registers = [&AT_THE_END[..], &[(8, ROW_COLUMN)]].concat();
    assert_eq!(counted(&registers), [2, 2, 2, 0, 12, changes, 13]);
}

#[test]
fn row_column_addresses_take_no_step_of_r1() {
    // 0000 0001 0002 and 0100 0101 0102, then 0.
    let registers = [(0, 2), (1, 200), (4, 1), (6, 9), (8, ROW_COLUMN)];
    let changes = (1 + 2 + 2) + (1 + 2 + 2);
    assert_eq!(counted(&registers), [6, 6, 1, 0, 6, changes, 2]);
}

/// Two rows of four characters, all in the picture: addresses 0 to 7.
fn all_picture(r8: u8, cursor: u8) -> Row {
    counted(&[(0, 3), (1, 4), (4, 1), (6, 2), (8, r8), (15, cursor)])
}

#[test]
fn a_late_pin_loses_the_last_character_of_the_frame() {
    let late = LATE_DISPLAY | LATE_CURSOR;
    assert_eq!(all_picture(0, 7), [8, 8, 1, 0, 8, 14, 3]);
    assert_eq!(all_picture(LATE_DISPLAY, 7), [8, 7, 1, 0, 8, 14, 3]);
    assert_eq!(all_picture(LATE_CURSOR, 7), [8, 8, 0, 0, 8, 14, 3]);
    assert_eq!(all_picture(late, 7), [8, 7, 0, 0, 8, 14, 3]);
    assert_eq!(all_picture(late, 6), [8, 7, 1, 0, 8, 14, 3]);
}

#[test]
fn a_late_pin_loses_nothing_when_the_frame_ends_outside_the_picture() {
    let expected = counted_a(&[]);
    for r8 in [LATE_DISPLAY, LATE_CURSOR, LATE_DISPLAY | LATE_CURSOR] {
        assert_eq!(counted_a(&[(8, r8)]), expected);
    }
}

#[test]
fn the_other_bits_of_r8_do_nothing() {
    let known = LATE_DISPLAY | LATE_CURSOR | ROW_COLUMN;
    assert_eq!(counted_a(&[(8, !known)]), counted_a(&[]));
    assert_eq!(all_picture(!known, 7), all_picture(0, 7));
}

#[test]
fn the_frame_after_reset_has_field_0_for_every_blink() {
    for (blink, shown) in [(0b00, 1), (0b01, 0), (0b10, 1), (0b11, 1)] {
        assert_eq!(counted_a(&[(10, blink << 5)])[CURSOR], shown, "{blink:02b}");
    }
}

#[test]
fn the_cursor_is_counted_on_each_of_its_lines() {
    let lines = |r10, r11| {
        let registers = [(0, 1), (1, 1), (6, 1), (9, 7), (10, r10), (11, r11)];
        counted(&registers)[CURSOR]
    };
    assert_eq!(lines(2, 5), 4);
    assert_eq!(lines(0, 31), 8);
    assert_eq!(lines(7, 7), 1);
    assert_eq!(lines(5, 2), 0);
    assert_eq!(lines(8, 31), 0);
    assert_eq!(lines(0x40 | 2, 5), 4);
    assert_eq!(lines(0x20 | 2, 5), 0);
}

#[test]
fn the_cursor_is_counted_wherever_its_address_comes() {
    // Rows 0 and 64 have one address when rows and columns are apart.
    let registers = [(1, 1), (4, 127), (6, 127)];
    assert_eq!(counted(&registers)[CURSOR], 1);
    let apart = [&registers[..], &[(8, ROW_COLUMN)]].concat();
    assert_eq!(counted(&apart)[CURSOR], 2);
    // Address 2 stands in row 0 outside the picture, in row 1 inside it.
    assert_eq!(counted_a(&[(11, 1), (15, 2)])[CURSOR], 2);
    assert_eq!(counted_a(&[(11, 1), (15, 4)])[CURSOR], 0);
}

#[test]
fn the_picture_is_bounded_by_the_lesser_of_shown_and_scanned() {
    let sizes = |r1, r6| counted(&[(0, 4), (1, r1), (4, 2), (5, 3), (6, r6), (9, 1)])[PICTURE];
    assert_eq!(sizes(0, 2), 0);
    assert_eq!(sizes(2, 0), 0);
    assert_eq!(sizes(2, 2), 2 * 2 * 2);
    assert_eq!(sizes(5, 3), 5 * 3 * 2);
    assert_eq!(sizes(6, 4), 5 * 3 * 2);
    assert_eq!(sizes(255, 127), 5 * 3 * 2);
}

#[test]
fn adjust_lines_are_counted_but_are_no_picture() {
    // 0 1, then three lines of 3 4, and 0.
    let registers = [(0, 1), (1, 3), (3, 0x20), (5, 3), (6, 9)];
    let changes = (1 + 1) + (3 + 3) + (3 + 3) + (3 + 1);
    assert_eq!(counted(&registers), [2, 2, 1, 0, 2 * 2, changes, 3]);
}

#[test]
fn an_adjust_line_at_wrapped_row_0_is_no_picture() {
    // Rows at 0 to 127, the adjust line at 128: counting up to 128 changes 255
    // lines, 128 to 0 one more.
    let registers = [(1, 1), (4, 127), (5, 1), (6, 127)];
    assert_eq!(counted(&registers), [127, 127, 1, 0, 16, 256, 8]);
}

#[test]
fn hsync_runs_over_into_the_next_line_but_not_out_of_the_frame() {
    // Columns 2, 3 and 0: the first of the five lines has two, the others three.
    assert_eq!(counted_a(&[(2, 2), (3, 3)])[HSYNC], 2 + 4 * 3);
    // Within the line nothing is lost.
    assert_eq!(counted_a(&[(2, 1), (3, 3)])[HSYNC], 5 * 3);
    assert_eq!(counted_a(&[(2, 0), (3, 1)])[HSYNC], 5);
}

#[test]
fn hsync_longer_than_a_line_stays_high_from_its_first_column_on() {
    for width in 4..16 {
        assert_eq!(counted_a(&[(2, 0), (3, width)])[HSYNC], 20);
        assert_eq!(counted_a(&[(2, 1), (3, width)])[HSYNC], 19);
        assert_eq!(counted_a(&[(2, 3), (3, width)])[HSYNC], 17);
    }
}

#[test]
fn hsync_of_width_0_or_past_the_line_never_comes() {
    assert_eq!(counted_a(&[(2, 1), (3, 0xF0)])[HSYNC], 0);
    assert_eq!(counted_a(&[(2, 4), (3, 0x0F)])[HSYNC], 0);
}

/// Three rows of two lines and an adjust line, two characters each.
fn vsync_at(row: u8, width: u8) -> u64 {
    let registers = [(0, 1), (3, width << 4), (4, 2), (5, 1), (7, row), (9, 1)];
    counted(&registers)[VSYNC]
}

#[test]
fn vsync_runs_over_into_rows_and_adjust_lines_but_not_out_of_the_frame() {
    assert_eq!(vsync_at(0, 1), 2);
    assert_eq!(vsync_at(0, 3), 3 * 2);
    assert_eq!(vsync_at(0, 0), 7 * 2);
    assert_eq!(vsync_at(1, 3), 3 * 2);
    assert_eq!(vsync_at(2, 2), 2 * 2);
    assert_eq!(vsync_at(2, 3), 3 * 2);
    assert_eq!(vsync_at(2, 15), 3 * 2);
    assert_eq!(vsync_at(2, 0), 3 * 2);
}

#[test]
fn vsync_past_the_last_row_never_comes() {
    // Row 3 is the row of the adjust line.
    assert_eq!(vsync_at(3, 0), 0);
    assert_eq!(vsync_at(127, 5), 0);
}

#[test]
fn display_enable_without_delay_is_the_picture() {
    for r1 in 0..8 {
        let row = counted_a(&[(1, r1)]);
        assert_eq!(row[DISPLAY_ENABLE], row[PICTURE]);
        assert_eq!(row[PICTURE], 4 * u64::from(r1.min(4)));
    }
}
