//! Good files with a single byte changed: most are refused, and those that are
//! still taken are written back as they are.

use second::read_setup;

use crate::setting::ALL_ONES;
use crate::setup::{from_hex, seven_files, written};

/// Sixteen registers at 0: how many other values they have, each by itself.
const REGISTER_CHANGES: usize = 7 * 255 + 4 * 127 + 2 * 63 + 3 * 31;
const CONTROL_CHANGES: usize = 2 * 255;

/// Every file that differs from this one in one byte.
fn changed(file: &[u8]) -> impl Iterator<Item = (usize, Vec<u8>)> + '_ {
    file.iter().enumerate().flat_map(move |(place, before)| {
        let others = (0..=255).filter(move |value| value != before);
        others.map(move |value| {
            let mut changed = file.to_vec();
            changed[place] = value;
            (place, changed)
        })
    })
}

/// How many changed files are taken; all of these come back.
fn still_taken(file: &[u8]) -> usize {
    let mut taken = 0;
    for (place, file) in changed(file) {
        if let Ok(setup) = read_setup(&file) {
            assert_eq!(written(&setup), file, "byte {place}");
            taken += 1;
        }
    }
    taken
}

/// Contents by hand and bodies of zeros.
fn taken_with_zeros(contents: &str, zeros: usize) -> usize {
    let mut file = from_hex(contents);
    file.resize(file.len() + zeros, 0);
    assert!(read_setup(&file).is_ok());
    still_taken(&file)
}

#[test]
fn only_changes_in_the_bodies_of_three_parts_are_taken() {
    let taken = taken_with_zeros("03 0100100010 0200200002 0300220005", 23);
    assert_eq!(taken, REGISTER_CHANGES + CONTROL_CHANGES + 5 * 255);
}

#[test]
fn a_single_body_may_become_a_batch_and_a_batch_another_body() {
    let registers = taken_with_zeros("01 0100060010", 16);
    assert_eq!(registers, REGISTER_CHANGES + 1);
    assert_eq!(taken_with_zeros("01 0200060002", 2), CONTROL_CHANGES + 1);
    assert_eq!(taken_with_zeros("01 0300060010", 16), 16 * 255 + 1);
    assert_eq!(taken_with_zeros("01 0300060002", 2), 2 * 255 + 1);
    assert_eq!(taken_with_zeros("01 0300060003", 3), 3 * 255);
    assert_eq!(taken_with_zeros("01 0300060000", 0), 0);
}

#[test]
fn the_second_of_two_bodies_may_change_its_kind() {
    let both = taken_with_zeros("02 01000b0010 02001b0002", 18);
    assert_eq!(both, REGISTER_CHANGES + CONTROL_CHANGES + 1);
    let two_bytes = taken_with_zeros("02 01000b0010 03001b0002", 18);
    assert_eq!(two_bytes, REGISTER_CHANGES + 2 * 255 + 1);
    let sixteen_bytes = taken_with_zeros("02 01000b0010 03001b0010", 32);
    assert_eq!(sixteen_bytes, REGISTER_CHANGES + 16 * 255);
    let after_control = taken_with_zeros("02 02000b0002 03000d0010", 18);
    assert_eq!(after_control, CONTROL_CHANGES + 16 * 255);
}

#[test]
fn the_seven_files_changed_come_back_when_taken() {
    for (sum, file) in seven_files() {
        assert!(still_taken(&file) > 0, "parts {sum}");
    }
}

/// The number due to a file with three parts when this byte has this value.
fn number_due(place: usize, value: u8) -> Option<u8> {
    match place {
        0 if (1..=3).contains(&value) => Some(15),
        0 => Some(13),
        1 | 6 | 11 => Some(14),
        2..=15 => Some(15),
        16..=31 if value & !ALL_ONES[place - 16] != 0 => Some(16),
        _ => None,
    }
}

#[test]
fn every_change_of_three_parts_has_its_number() {
    let [.., (_, good)] = seven_files();
    for (place, file) in changed(&good) {
        let number = read_setup(&file).err().map(|refusal| refusal.number());
        let due = number_due(place, file[place]);
        assert_eq!(number, due, "byte {place}, {}", file[place]);
    }
}

/// Every length below a good file's own, and one byte more.
#[test]
fn files_cut_short_or_grown_are_never_taken() {
    let mut longest = from_hex("03 0100100010 0200200002 0300221000");
    longest.resize(4_130, 0);
    let mut files: Vec<Vec<u8>> = seven_files().into_iter().map(|(_, file)| file).collect();
    files.push(longest);
    for file in files {
        assert!(read_setup(&file).is_ok());
        for length in 0..file.len() {
            assert!(read_setup(&file[..length]).is_err(), "{length} bytes");
        }
        for byte in 0..=255 {
            assert!(read_setup(&[&file[..], &[byte]].concat()).is_err());
        }
    }
}
