//! Locating a strike among the cells.

use crate::trial::{Trial, SETTING_A};

/// Ten columns and ten rows run, eight by eight of them shown.
const EIGHT_BY_EIGHT: [(u8, u8); 4] = [(0, 9), (1, 8), (4, 9), (6, 8)];

fn struck_at(row: u16, column: u16) -> Trial {
    let mut trial = Trial::with(&EIGHT_BY_EIGHT);
    trial.clocks(10 * row + column);
    assert_eq!(trial.strike(), (8 * row + column + 2, 1));
    trial
}

#[test]
fn every_cell_of_a_screen_is_located_as_itself() {
    for row in 0..8 {
        for column in 0..8 {
            assert_eq!(
                struck_at(row, column).locate(),
                Ok((row as u8, column as u8))
            );
        }
    }
}

#[test]
fn columns_of_the_list_are_below_r1_and_at_most_r0() {
    let trial = struck_at(0, 5);
    assert_eq!(trial.located_with(&[(6, 1), (1, 6)]), Ok((0, 5)));
    assert_eq!(trial.located_with(&[(6, 1), (1, 5)]), Err(7));
    // The last column leads to column 1 of row 1, which is address 9. So would
    // column 7, two further on in its line, if it were in the list.
    let trial = struck_at(0, 7);
    for last_column in 2..7 {
        let shortened = [(0, last_column)];
        assert_eq!(trial.located_with(&shortened), Ok((0, last_column)));
    }
}

#[test]
fn rows_of_the_list_are_below_r6_and_at_most_r4() {
    let trial = struck_at(5, 0);
    assert_eq!(trial.located_with(&[(4, 5)]), Ok((5, 0)));
    assert_eq!(trial.located_with(&[(4, 4)]), Err(7));
    assert_eq!(trial.located_with(&[(6, 6)]), Ok((5, 0)));
    assert_eq!(trial.located_with(&[(6, 5)]), Err(7));
}

#[test]
fn cells_follow_the_registers_as_they_stand() {
    let trial = struck_at(1, 2);
    assert_eq!(trial.located_with(&[(13, 1)]), Ok((1, 1)));
    assert_eq!(trial.located_with(&[(1, 7)]), Ok((1, 3)));
    assert_eq!(trial.located_with(&[(12, 1)]), Err(7));
    // Row 1, column 2 is now $0102; address 10 lies in no cell.
    assert_eq!(trial.located_with(&[(8, 4)]), Err(7));
}

#[test]
fn row_column_addressing_is_searched_by_rows_and_columns() {
    let mut trial = Trial::with(&[
        (0, 9),
        (1, 8),
        (4, 9),
        (6, 8),
        (8, 4),
        (12, 0x3E),
        (13, 0xFC),
    ]);
    trial.clocks(10 * 3 + 7);
    // Row 3 wraps the high part to 1, column 7 the low part to 3.
    assert_eq!(trial.strike(), (0x0105, 1));
    assert_eq!(trial.locate(), Ok((3, 7)));
}

#[test]
fn rows_64_apart_are_one_address_in_row_column_addressing() {
    let mut trial = Trial::with(&[(1, 1), (4, 100), (6, 65), (8, 4)]);
    trial.strike();
    assert_eq!(trial.locate(), Err(8));
    assert_eq!(trial.located_with(&[(6, 64)]), Ok((0, 0)));
    trial.clocks(1);
    trial.strike();
    assert_eq!(trial.locate(), Ok((1, 0)));
}

#[test]
fn a_base_past_16384_wraps() {
    let mut trial = Trial::with(&[(0, 9), (1, 8), (4, 9), (6, 8), (12, 0x3F), (13, 0xFA)]);
    trial.clocks(10);
    assert_eq!(trial.strike(), (4, 1));
    assert_eq!(trial.locate(), Ok((1, 0)));
    trial.reset_controller();
    trial.clocks(4);
    assert_eq!(trial.strike(), (0, 1));
    assert_eq!(trial.locate(), Ok((0, 4)));
}

#[test]
fn a_later_strike_replaces_an_earlier_one() {
    let mut trial = struck_at(2, 2);
    trial.clocks(3);
    trial.strike();
    assert_eq!(trial.locate(), Ok((2, 5)));
    trial.clocks(3);
    trial.strike();
    assert_eq!(trial.locate(), Err(6));
}

#[test]
fn a_strike_past_a_lowered_r0_is_in_the_picture_but_in_no_cell() {
    let mut trial = Trial::with(&EIGHT_BY_EIGHT);
    trial.clocks(5);
    trial.set_all(&[(0, 3), (6, 1)]);
    // The four cells left have 2 and 3, and 8 and 9 of the row below.
    assert_eq!(trial.strike(), (7, 1));
    assert_eq!(trial.locate(), Err(7));
    trial.clocks(1);
    assert_eq!(trial.strike(), (8, 1));
    assert_eq!(trial.locate(), Ok((0, 2)));
}

#[test]
fn refusals_come_in_the_order_5_6_7_8() {
    // No cells at all, and no strike: 5 before 7.
    let mut trial = Trial::fresh();
    assert_eq!(trial.locate(), Err(5));
    // Still no cells, struck outside the picture: 6 before 7.
    trial.set_all(&[(0, 255), (1, 130), (4, 127)]);
    assert_eq!(trial.strike(), (2, 0));
    assert_eq!(trial.locate(), Err(6));
    // Two cells fit the latch, but the strike was outside: 6 before 8.
    trial.set(6, 127);
    assert_eq!(trial.locate(), Err(6));
    assert_eq!(trial.strike(), (2, 1));
    assert_eq!(trial.locate(), Err(8));
    // A reset forgets the strike.
    trial.reset_controller();
    assert_eq!(trial.locate(), Err(5));
}

#[test]
fn locating_moves_nothing_whether_it_succeeds_or_not() {
    let mut trial = Trial::with(&SETTING_A);
    let before = trial.bench;
    assert_eq!(trial.locate(), Err(5));
    assert_eq!(trial.bench, before);
    trial.clocks(9);
    trial.strike();
    let before = trial.bench;
    assert_eq!(trial.locate(), Ok((1, 1)));
    assert_eq!(trial.bench, before);
}
