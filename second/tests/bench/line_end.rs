//! Strikes near the end of a line, worked out by hand: what every character time
//! of a frame latches, and which cell is then located.

use crate::trial::Trial;

/// A latch, and the cell located by it or the refusal.
type Struck = (u16, Result<(u8, u8), u8>);

const fn hit(latch: u16, row: u8, column: u8) -> Struck {
    (latch, Ok((row, column)))
}

const fn outside(latch: u16) -> Struck {
    (latch, Err(6))
}

const fn no_cell(latch: u16) -> Struck {
    (latch, Err(7))
}

const fn shared(latch: u16) -> Struck {
    (latch, Err(8))
}

/// One line of a frame whose cells are four to a row.
type FourTimes = [Struck; 4];

const SHOWN_ROW_0: FourTimes = [hit(2, 0, 0), hit(3, 0, 1), hit(0, 0, 2), hit(1, 0, 3)];

/// Three lines to a row, four characters to a line, all of them shown.
const FULL_WIDTH: [(u8, u8); 3] = [(0, 3), (1, 4), (9, 2)];

fn full_width(more: &[(u8, u8)]) -> Vec<(u8, u8)> {
    [&FULL_WIDTH[..], more].concat()
}

/// Strikes at the coming character times, each on a bench of its own.
fn gives_from(mut trial: Trial, expected: &[Struck]) {
    for (time, wanted) in expected.iter().enumerate() {
        let mut struck = trial;
        let (latch, in_picture) = struck.strike();
        let located = struck.locate();
        assert_eq!((latch, located), *wanted, "time {time}");
        assert_eq!(in_picture == 0, located == Err(6), "time {time}");
        trial.clocks(1);
    }
}

/// The same for a whole frame after a reset, and once more for the next frame.
fn frame_gives(settings: &[(u8, u8)], expected: &[Struck]) {
    let trial = Trial::with(settings);
    let mut measured = trial;
    assert_eq!(measured.measure_frame() as usize, expected.len());
    gives_from(trial, &expected.repeat(2));
}

#[test]
fn adjust_lines_follow_the_last_picture_row() {
    // Addresses: 0 to 3 three times, 4 to 7 three times, 8 to 11.
    let last_of_row_0 = [hit(2, 0, 0), hit(3, 0, 1), shared(4), shared(5)];
    let row_1 = [hit(6, 1, 0), hit(7, 1, 1), shared(4), shared(5)];
    let last_of_row_1 = [hit(6, 1, 0), hit(7, 1, 1), hit(8, 1, 2), hit(9, 1, 3)];
    let adjust_line = [10, 11, 0, 1].map(outside);
    let frame = [
        SHOWN_ROW_0,
        SHOWN_ROW_0,
        last_of_row_0,
        row_1,
        row_1,
        last_of_row_1,
        adjust_line,
    ];
    frame_gives(&full_width(&[(4, 1), (5, 1), (6, 2)]), &frame.concat());
}

#[test]
fn a_new_frame_follows_the_last_picture_row() {
    // The last lines of both rows lead to each other's address.
    let row_0 = [hit(2, 0, 0), hit(3, 0, 1), shared(0), shared(1)];
    let last_of_row_0 = [hit(2, 0, 0), hit(3, 0, 1), shared(4), shared(5)];
    let row_1 = [hit(6, 1, 0), hit(7, 1, 1), shared(4), shared(5)];
    let last_of_row_1 = [hit(6, 1, 0), hit(7, 1, 1), shared(0), shared(1)];
    let frame = [row_0, row_0, last_of_row_0, row_1, row_1, last_of_row_1];
    frame_gives(&full_width(&[(4, 1), (6, 2)]), &frame.concat());
}

#[test]
fn a_new_frame_follows_the_only_row() {
    // Every line leads to the start, one way or the other.
    frame_gives(&full_width(&[(6, 1)]), &SHOWN_ROW_0.repeat(3));
    let at_start = [
        hit(0x142, 0, 0),
        hit(0x143, 0, 1),
        hit(0x140, 0, 2),
        hit(0x141, 0, 3),
    ];
    let settings = full_width(&[(6, 1), (12, 0x01), (13, 0x40)]);
    frame_gives(&settings, &at_start.repeat(3));
}

#[test]
fn a_row_below_the_picture_follows_the_last_picture_row() {
    // Addresses 4 and 5 are latched by one line of a cell and no other.
    let last_of_row_0 = [hit(2, 0, 0), hit(3, 0, 1), hit(4, 0, 2), hit(5, 0, 3)];
    let row_1 = [6, 7, 4, 5].map(outside);
    let last_of_row_1 = [6, 7, 8, 9].map(outside);
    let adjust_line = [10, 11, 0, 1].map(outside);
    let frame = [
        SHOWN_ROW_0,
        SHOWN_ROW_0,
        last_of_row_0,
        row_1,
        row_1,
        last_of_row_1,
        adjust_line,
    ];
    frame_gives(&full_width(&[(4, 1), (5, 1), (6, 1)]), &frame.concat());
}

#[test]
fn the_new_frame_has_its_start_sampled_anew() {
    let mut trial = Trial::with(&full_width(&[(6, 1)]));
    trial.set(13, 0x40);
    // The frame that runs began at 0, the cells begin at 40 hex.
    let line = [2, 3, 0, 1].map(no_cell);
    let last_line = [no_cell(2), no_cell(3), hit(0x40, 0, 2), hit(0x41, 0, 3)];
    gives_from(trial, &[line, line, last_line].concat());

    let mut trial = Trial::with(&full_width(&[(6, 1), (8, 4)]));
    trial.set_all(&[(12, 0x20), (13, 0x40)]);
    let last_line = [no_cell(2), no_cell(3), hit(0x2040, 0, 2), hit(0x2041, 0, 3)];
    gives_from(trial, &[line, line, last_line].concat());
}

#[test]
fn one_line_to_a_row() {
    let settings = [(0, 3), (1, 4), (4, 1), (6, 2)];
    let row_0 = [hit(2, 0, 0), hit(3, 0, 1), hit(4, 0, 2), hit(5, 0, 3)];
    let row_1 = [hit(6, 1, 0), hit(7, 1, 1), hit(0, 1, 2), hit(1, 1, 3)];
    frame_gives(&settings, &[row_0, row_1].concat());
    let row_1 = [hit(6, 1, 0), hit(7, 1, 1), hit(8, 1, 2), hit(9, 1, 3)];
    let adjust_line = [10, 11, 0, 1].map(outside);
    let adjusted = [&settings[..], &[(5, 1)]].concat();
    frame_gives(&adjusted, &[row_0, row_1, adjust_line].concat());
}

#[test]
fn one_column_short_of_the_line_two_cells_share_the_next_row_s_first_address() {
    // Addresses 0 to 4, then 4 to 8: no two cells have the same one, but column
    // 2 comes to the column not shown and column 3 to the row below.
    let row_0 = [hit(2, 0, 0), hit(3, 0, 1), shared(4), shared(4)];
    let row_1 = [hit(6, 1, 0), hit(7, 1, 1), hit(8, 1, 2), hit(0, 1, 3)];
    let frame = [&row_0[..], &[outside(5)], &row_1, &[outside(1)]];
    frame_gives(&[(0, 4), (1, 4), (4, 1), (6, 2)], &frame.concat());
}

#[test]
fn two_columns_short_of_the_line_no_cell_reaches_its_end() {
    let row_0 = [hit(2, 0, 0), hit(3, 0, 1), hit(4, 0, 2), hit(5, 0, 3)];
    let row_1 = [hit(6, 1, 0), hit(7, 1, 1), hit(8, 1, 2), hit(9, 1, 3)];
    let frame = [
        &row_0[..],
        &[outside(4), outside(5)],
        &row_1,
        &[outside(0), outside(1)],
    ];
    frame_gives(&[(0, 5), (1, 4), (4, 1), (6, 2)], &frame.concat());
}

#[test]
fn one_character_to_a_line_passes_two_lines() {
    // Addresses 0 0 0, 1 1 1, 2 2 2, and 3 in each adjust line.
    let settings = [(1, 1), (4, 2), (6, 3), (9, 2)];
    let row_1 = [shared(1), shared(2), shared(2)];
    let frame = [
        [hit(0, 0, 0), shared(1), shared(1)],
        row_1,
        [shared(2), hit(3, 2, 0), hit(3, 2, 0)],
    ];
    let frame = [&frame.concat()[..], &[outside(0), outside(0)]];
    frame_gives(&[&settings[..], &[(5, 2)]].concat(), &frame.concat());
    // With one adjust line, 3 is latched by the middle line of row 2 alone.
    let frame = [
        [shared(0), shared(1), shared(1)],
        row_1,
        [shared(2), hit(3, 2, 0), shared(0)],
    ];
    let frame = [&frame.concat()[..], &[outside(0)]];
    frame_gives(&[&settings[..], &[(5, 1)]].concat(), &frame.concat());
    // With none, each row shares both its latches.
    let frame = [0, 1, 1, 1, 2, 2, 2, 0, 0].map(shared);
    frame_gives(&settings, &frame);
}

#[test]
fn one_character_to_a_row_passes_two_rows() {
    let settings = [(1, 1), (4, 3), (6, 4)];
    let frame = [hit(2, 0, 0), hit(3, 1, 0), hit(0, 2, 0), hit(1, 3, 0)];
    frame_gives(&settings, &frame);
    let frame = [
        hit(2, 0, 0),
        hit(3, 1, 0),
        hit(4, 2, 0),
        hit(0, 3, 0),
        outside(1),
    ];
    frame_gives(&[&settings[..], &[(5, 1)]].concat(), &frame);
    // Rows 2 and 3 both come to an adjust line.
    let frame = [
        hit(2, 0, 0),
        hit(3, 1, 0),
        shared(4),
        shared(4),
        outside(0),
        outside(1),
    ];
    frame_gives(&[&settings[..], &[(5, 2)]].concat(), &frame);
}

#[test]
fn frames_of_one_and_two_characters_are_passed_whole() {
    frame_gives(&[(1, 1), (6, 1)], &[hit(0, 0, 0)]);
    frame_gives(
        &[(1, 255), (6, 127), (12, 0x12), (13, 0x34)],
        &[hit(0x1234, 0, 0)],
    );
    frame_gives(&[(1, 3), (4, 1), (6, 2)], &[hit(0, 0, 0), hit(3, 1, 0)]);
    frame_gives(&[(1, 3), (5, 1), (6, 2)], &[hit(0, 0, 0), outside(3)]);
    frame_gives(
        &[(0, 1), (1, 2), (6, 1), (13, 9)],
        &[hit(9, 0, 0), hit(10, 0, 1)],
    );
}

#[test]
fn two_characters_to_a_line_pass_one_line() {
    // Addresses 0 1, 0 1, 2 3, 2 3, and 4 5 in the adjust line.
    let settings = [(0, 1), (1, 2), (4, 1), (6, 2), (9, 1)];
    let frame = [
        [hit(0, 0, 0), hit(1, 0, 1)],
        [shared(2), shared(3)],
        [shared(2), shared(3)],
        [hit(4, 1, 0), hit(5, 1, 1)],
        [outside(0), outside(1)],
    ];
    frame_gives(&[&settings[..], &[(5, 1)]].concat(), &frame.concat());
    frame_gives(&settings, &[0, 1, 2, 3, 2, 3, 0, 1].map(shared));
    let one_line = [&settings[..], &[(9, 0)]].concat();
    let frame = [hit(2, 0, 0), hit(3, 0, 1), hit(0, 1, 0), hit(1, 1, 1)];
    frame_gives(&one_line, &frame);
}

#[test]
fn only_the_last_of_32_lines_leads_to_the_row_below() {
    let settings = [(0, 1), (1, 2), (4, 1), (6, 1), (9, 31)];
    let frame = [
        [hit(0, 0, 0), hit(1, 0, 1)].repeat(31),
        vec![hit(2, 0, 0), hit(3, 0, 1)],
        [outside(2), outside(3)].repeat(31),
        vec![outside(0), outside(1)],
    ];
    frame_gives(&settings, &frame.concat());
}

#[test]
fn straight_addresses_wrap_at_16384_past_the_line_s_end_too() {
    let settings = [(0, 3), (1, 4), (4, 1), (6, 2), (12, 0x3F), (13, 0xFE)];
    let row_0 = [hit(0, 0, 0), hit(1, 0, 1), hit(2, 0, 2), hit(3, 0, 3)];
    let row_1 = [
        hit(4, 1, 0),
        hit(5, 1, 1),
        hit(0x3FFE, 1, 2),
        hit(0x3FFF, 1, 3),
    ];
    frame_gives(&settings, &[row_0, row_1].concat());
}

#[test]
fn row_column_addresses_wrap_each_part_by_itself() {
    // Rows have high parts 3F, 00 and in the adjust line 01; columns have low
    // bytes FE FF 00 01.
    let settings = [
        (0, 3),
        (1, 4),
        (4, 1),
        (5, 1),
        (6, 2),
        (8, 4),
        (9, 1),
        (12, 0x3F),
        (13, 0xFE),
    ];
    let (row_0, row_1) = (
        [hit(0x3F00, 0, 0), hit(0x3F01, 0, 1)],
        [hit(0x0000, 1, 0), hit(0x0001, 1, 1)],
    );
    let frame = [
        row_0,
        [hit(0x3FFE, 0, 2), hit(0x3FFF, 0, 3)],
        row_0,
        [shared(0x00FE), shared(0x00FF)],
        row_1,
        [shared(0x00FE), shared(0x00FF)],
        row_1,
        [hit(0x01FE, 1, 2), hit(0x01FF, 1, 3)],
        [outside(0x0100), outside(0x0101)],
        [outside(0x3FFE), outside(0x3FFF)],
    ];
    frame_gives(&settings, &frame.concat());
}

#[test]
fn the_low_byte_wraps_within_a_line_without_a_carry() {
    let settings = [(0, 9), (1, 8), (4, 1), (6, 2), (8, 4), (13, 0xFA)];
    let lows = [0xFC, 0xFD, 0xFE, 0xFF, 0x00, 0x01, 0x02, 0x03];
    let row = |row: u8| {
        let columns = (0..).zip(lows);
        columns.map(move |(column, low)| hit(256 * u16::from(row) + low, row, column))
    };
    let frame: Vec<Struck> = row(0)
        .chain([outside(0x01FA), outside(0x01FB)])
        .chain(row(1))
        .chain([outside(0x00FA), outside(0x00FB)])
        .collect();
    frame_gives(&settings, &frame);
}

/// Strikes in row 126, the last that can be shown; row 127 comes after it.
fn struck_in_row_126(more: &[(u8, u8)]) -> Struck {
    let settings = [(1, 1), (4, 127), (6, 127)];
    let mut trial = Trial::with(&[&settings[..], more].concat());
    trial.clocks(126);
    let (latch, in_picture) = trial.strike();
    assert_eq!(in_picture, 1);
    (latch, trial.locate())
}

#[test]
fn the_lowest_row_of_all_passes_row_127() {
    assert_eq!(struck_in_row_126(&[]), hit(0, 126, 0));
    assert_eq!(struck_in_row_126(&[(5, 1)]), hit(128, 126, 0));
    assert_eq!(struck_in_row_126(&[(5, 31)]), hit(128, 126, 0));
    // Row 62 comes to row 64, whose high part is that of row 0.
    assert_eq!(struck_in_row_126(&[(8, 4)]), shared(0));
    assert_eq!(struck_in_row_126(&[(5, 1), (8, 4)]), shared(0));
}
