//! Totals of many settings drawn by lot, against what can be reckoned without a
//! list, and against the answers of records.

use second::counts::Row;
use second::Setting;

use crate::lots::{random_setting, small_setting, Lots};
use crate::totals::row;
use crate::trial::{Trial, CURSOR, DISPLAY_ENABLE, HSYNC, PICTURE, VSYNC};

/// R0 to R15 after the cut, as numbers to reckon with.
fn registers(bytes: [u8; 16]) -> [u64; 16] {
    Setting::of(bytes).held().map(u64::from)
}

fn frame_lines(r: &[u64; 16]) -> u64 {
    (r[4] + 1) * (r[9] + 1) + r[5]
}

/// Picture columns times picture rows times lines of a row (request W1).
fn picture_total(r: &[u64; 16]) -> u64 {
    r[1].min(r[0] + 1) * r[6].min(r[4] + 1) * (r[9] + 1)
}

/// One less than the picture when the pin is late and the last character of
/// the frame is in the picture.
fn display_enable_total(r: &[u64; 16]) -> u64 {
    let late = r[8] & 0x10 != 0;
    let ends_in_picture = r[5] == 0 && r[4] < r[6] && r[0] < r[1];
    picture_total(r) - u64::from(late && ends_in_picture)
}

/// As many characters of every line as the pulse is wide, less what the last
/// pulse has left when the frame ends.
fn hsync_total(r: &[u64; 16]) -> u64 {
    let (line, width) = (r[0] + 1, r[3] & 15);
    if r[2] >= line || width == 0 {
        return 0;
    }
    if width >= line {
        return line * frame_lines(r) - r[2];
    }
    width * frame_lines(r) - (r[2] + width).saturating_sub(line)
}

/// The lines from row R7 on, as far as the pulse is long.
fn vsync_total(r: &[u64; 16]) -> u64 {
    if r[7] > r[4] {
        return 0;
    }
    let length = if r[3] >> 4 == 0 { 16 } else { r[3] >> 4 };
    let lines = frame_lines(r) - r[7] * (r[9] + 1);
    (r[0] + 1) * lines.min(length)
}

fn agrees_with_the_closed_forms(bytes: [u8; 16]) {
    let r = registers(bytes);
    let expected = [
        picture_total(&r),
        display_enable_total(&r),
        hsync_total(&r),
        vsync_total(&r),
    ];
    let [picture, display_enable, _, hsync, vsync, changes, largest] = row(bytes);
    let counted = [picture, display_enable, hsync, vsync];
    assert_eq!(counted, expected, "{bytes:?}");
    // Every address line ends the frame as it began it.
    assert_eq!(changes & 1, 0, "{bytes:?}");
    let times = (r[0] + 1) * frame_lines(&r);
    assert!(largest <= 14 && largest <= changes, "{bytes:?}");
    assert!(changes <= largest * times, "{bytes:?}");
}

#[test]
fn small_settings_have_the_totals_of_the_closed_forms() {
    let mut lots = Lots::new(1);
    for _ in 0..3_000 {
        agrees_with_the_closed_forms(small_setting(&mut lots));
    }
}

#[test]
fn settings_of_any_size_have_the_totals_of_the_closed_forms() {
    let mut lots = Lots::new(2);
    for _ in 0..20 {
        agrees_with_the_closed_forms(random_setting(&mut lots));
    }
}

#[test]
fn every_small_size_of_screen_and_picture_has_its_picture_total() {
    for case in 0..6_u32.pow(4) {
        let digit = |place: u32| (case / 6_u32.pow(place) % 6) as u8;
        let mut bytes = [0; 16];
        (bytes[0], bytes[1]) = (digit(0), digit(1));
        (bytes[4], bytes[6]) = (digit(2), digit(3));
        bytes[9] = (case % 4) as u8;
        bytes[5] = (case % 3) as u8;
        agrees_with_the_closed_forms(bytes);
    }
}

/// The totals as a user of records would reckon them: one clock at a time, as
/// many as the frame is long.
fn row_by_records(bytes: [u8; 16]) -> Row {
    let r = registers(bytes);
    let written: Vec<(u8, u8)> = (0..).zip(bytes).collect();
    let mut trial = Trial::with(&written);
    let mut row = [0; 7];
    let mut seen = trial.now();
    for _ in 0..(r[0] + 1) * frame_lines(&r) {
        let flags = [PICTURE, DISPLAY_ENABLE, CURSOR, HSYNC, VSYNC];
        for (total, flag) in row.iter_mut().zip(flags) {
            *total += u64::from(seen.shows(flag));
        }
        let next = trial.clocks(1);
        let changed = (0..14).filter(|line| (seen.ma ^ next.ma) >> line & 1 == 1);
        let changed = changed.count() as u64;
        row[5] += changed;
        row[6] = row[6].max(changed);
        seen = next;
    }
    assert_eq!((trial.column(), trial.line(), trial.row()), (0, 0, 0));
    assert_eq!((trial.field(), trial.adjusting()), (1, false));
    row
}

#[test]
fn small_settings_have_the_totals_that_records_tell() {
    let mut lots = Lots::new(3);
    for _ in 0..3_000 {
        let bytes = small_setting(&mut lots);
        assert_eq!(row(bytes), row_by_records(bytes), "{bytes:?}");
    }
}

#[test]
fn settings_of_any_size_have_the_totals_that_records_tell() {
    let mut lots = Lots::new(4);
    for _ in 0..10 {
        let bytes = random_setting(&mut lots);
        assert_eq!(row(bytes), row_by_records(bytes), "{bytes:?}");
    }
}

#[test]
fn the_small_settings_show_every_total() {
    let mut lots = Lots::new(5);
    let rows: Vec<Row> = (0..1_000).map(|_| row(small_setting(&mut lots))).collect();
    for place in 0..7 {
        let above_0 = rows.iter().filter(|row| row[place] > 0).count();
        assert!(above_0 > 100, "place {place} above 0 in {above_0}");
    }
    let late = rows.iter().filter(|row| row[0] != row[1]).count();
    assert!(late > 10, "display enable apart from the picture in {late}");
}
