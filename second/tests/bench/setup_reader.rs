//! What the reader takes, and what it turns down for one fault alone.

use second::{read_setup, Setup};

use crate::setup::{
    from_hex, reading_is_refused, seven_files, some_parts, ALL_PARTS, CONTROL, REGISTERS,
};

/// Contents by hand digits, and after them so many zero bytes.
fn file(contents: &str, zeros: usize) -> Vec<u8> {
    let mut file = from_hex(contents);
    file.resize(file.len() + zeros, 0);
    file
}

fn refused(contents: &str, zeros: usize, number: u8) {
    reading_is_refused(&file(contents, zeros), number);
}

#[test]
fn each_of_the_seven_sets_is_taken() {
    for (sum, file) in seven_files() {
        assert_eq!(read_setup(&file), Ok(some_parts(sum)), "parts {sum}");
    }
}

#[test]
fn bodies_are_parts_of_the_file_itself() {
    let [.., (_, file)] = seven_files();
    let setup = read_setup(&file).expect("it is taken");
    let registers = setup.registers.expect("they are there");
    let control = setup.control.expect("they are there");
    let batch = setup.batch.expect("it is there");
    assert_eq!(registers.as_ptr(), file[16..].as_ptr());
    assert_eq!(control.as_ptr(), file[32..].as_ptr());
    assert_eq!(batch.as_ptr_range(), file[34..].as_ptr_range());
}

#[test]
fn an_empty_batch_is_the_empty_part_at_the_end_of_the_file() {
    let file = file("02 02000b0002 03000d0000", 2);
    let batch = read_setup(&file).expect("it is taken").batch;
    let batch = batch.expect("it is there");
    assert_eq!(batch.as_ptr_range(), file[13..].as_ptr_range());
}

#[test]
fn a_batch_has_up_to_4096_bytes() {
    for length in [0, 1, 2, 16, 4_095, 4_096] {
        let file = file(&format!("01 030006{length:04x}"), length);
        let batch = vec![0; length];
        let expected = Setup {
            batch: Some(&batch),
            ..Setup::default()
        };
        assert_eq!(read_setup(&file), Ok(expected), "{length} bytes");
    }
    for length in [4_097, 4_098, 8_192, 65_535] {
        refused(&format!("01 030006{length:04x}"), length, 15);
    }
}

#[test]
fn a_count_outside_1_to_3_is_refused_by_13() {
    reading_is_refused(&[], 13);
    for count in (0..=255).filter(|count| !(1..=3).contains(count)) {
        reading_is_refused(&[count], 13);
        let [.., (_, mut file)] = seven_files();
        file[0] = count;
        reading_is_refused(&file, 13);
        reading_is_refused(&[count; 2_000], 13);
    }
}

#[test]
fn contents_cut_short_are_refused_by_13_and_missing_bodies_by_15() {
    for (_, file) in seven_files() {
        let contents_end = 1 + 5 * usize::from(file[0]);
        for length in 0..file.len() {
            let number = if length < contents_end { 13 } else { 15 };
            reading_is_refused(&file[..length], number);
        }
    }
}

#[test]
fn a_byte_after_the_last_body_is_refused_by_15() {
    for (_, file) in seven_files() {
        for byte in [0, 1, 255] {
            reading_is_refused(&[&file[..], &[byte]].concat(), 15);
        }
    }
}

#[test]
fn kinds_unknown_or_not_rising_are_refused_by_14() {
    for kind in (0..=255).filter(|kind| !(1..=3).contains(kind)) {
        refused(&format!("01 {kind:02x}00060000"), 0, 14);
        refused(&format!("02 02000b0002 {kind:02x}000d0000"), 2, 14);
        refused(&format!("02 {kind:02x}000b0002 03000d0000"), 2, 14);
    }
    refused("02 01000b0010 01001b0010", 32, 14);
    refused("02 02000b0002 02000d0002", 4, 14);
    refused("02 03000b0000 03000b0000", 0, 14);
    refused("02 02000b0002 01000d0010", 18, 14);
    refused("02 03000b0000 02000b0002", 2, 14);
    refused("03 0100100010 0300200000 0200200002", 18, 14);
    refused("03 0200100002 0300120000 0100120010", 18, 14);
    refused("03 0100100010 0300200001 0300210001", 18, 14);
}

#[test]
fn an_offset_off_its_place_is_refused_by_15() {
    for (_, good) in seven_files() {
        for entry in 0..usize::from(good[0]) {
            let place = 1 + 5 * entry + 1;
            let due = u16::from_be_bytes([good[place], good[place + 1]]);
            for offset in (0..=u16::MAX).filter(|offset| *offset != due) {
                let mut file = good.clone();
                file[place..place + 2].copy_from_slice(&offset.to_be_bytes());
                reading_is_refused(&file, 15);
            }
        }
    }
}

#[test]
fn registers_and_control_bits_have_one_length_each() {
    for length in (0..=600).filter(|length| *length != 16) {
        refused(&format!("01 010006{length:04x}"), length, 15);
    }
    for length in (0..=600).filter(|length| *length != 2) {
        refused(&format!("01 020006{length:04x}"), length, 15);
    }
}

#[test]
fn gaps_and_overlaps_are_refused_by_15() {
    // A gap after the contents, between the bodies, and of no visible length.
    refused("01 0300070001", 2, 15);
    refused("02 02000b0002 03000e0001", 4, 15);
    refused("02 02000c0002 03000e0000", 3, 15);
    // A body that shares a byte with the contents or with the body before it.
    refused("01 0300050002", 1, 15);
    refused("02 02000b0002 03000c0002", 3, 15);
    refused("02 02000b0002 03000b0002", 2, 15);
    // The bodies the other way round.
    refused("02 02000c0002 03000b0001", 3, 15);
    // Together as long as the file, yet the first is no such body.
    refused("02 02000b0003 03000e0000", 3, 15);
}

#[test]
fn offset_and_length_have_the_high_byte_first() {
    refused("01 0306000000", 0, 15);
    refused("01 0300060100", 1, 15);
    let file = file("01 0300060100", 256);
    let batch = read_setup(&file).expect("it is taken").batch;
    assert_eq!(batch, Some(&[0; 256][..]));
}

#[test]
fn control_bits_and_batches_have_no_forbidden_bit() {
    for bits in 0..=u16::MAX {
        let file = [from_hex("01 0200060002"), bits.to_be_bytes().to_vec()].concat();
        let setup = read_setup(&file).expect("it is taken");
        assert_eq!(setup.control, Some(&bits.to_be_bytes()));
    }
    for byte in 0..=255 {
        let file = [from_hex("01 0300060001"), vec![byte]].concat();
        let setup = read_setup(&file).expect("it is taken");
        assert_eq!(setup.batch, Some(&[byte][..]));
    }
}

#[test]
fn v0_is_the_lowest_bit_of_the_second_byte_and_bytes_stay_in_order() {
    let [.., (_, file)] = seven_files();
    let setup = read_setup(&file).expect("it is taken");
    assert_eq!(setup, ALL_PARTS);
    let [ty_side, v0_side] = CONTROL;
    assert_eq!((file[32], file[33]), (ty_side, v0_side));
    assert_eq!((file[16], file[31]), (REGISTERS[0], REGISTERS[15]));
}
