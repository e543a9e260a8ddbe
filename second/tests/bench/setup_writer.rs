//! What the writer makes of a setup, and the room it needs for that.

use second::{write_setup, Setup};

use crate::setup::{from_hex, seven_files, some_parts, writing_is_refused, written};

/// A batch and nothing else.
fn only_batch(batch: &[u8]) -> Setup<'_> {
    Setup {
        batch: Some(batch),
        ..Setup::default()
    }
}

#[test]
fn each_of_the_seven_sets_has_its_file() {
    for (sum, file) in seven_files() {
        assert_eq!(written(&some_parts(sum)), file, "parts {sum}");
    }
}

#[test]
fn a_setup_without_a_part_is_refused_by_13() {
    for room in [0, 1, 6, 4_200] {
        writing_is_refused(&Setup::default(), room, 13);
        writing_is_refused(&some_parts(0), room, 13);
    }
}

#[test]
fn a_batch_of_4096_bytes_is_written_and_a_longer_one_refused_by_15() {
    let bytes: Vec<u8> = (0..=255).cycle().take(70_000).collect();
    for length in [0, 1, 4_095, 4_096] {
        let batch = &bytes[..length];
        let contents = from_hex(&format!("01 030006{length:04x}"));
        assert_eq!(written(&only_batch(batch)), [&contents, batch].concat());
        let beside = Setup {
            batch: Some(batch),
            ..some_parts(3)
        };
        let [.., (_, all)] = seven_files();
        let mut expected = [&all[..34], batch].concat();
        expected[14..16].copy_from_slice(&from_hex(&format!("{length:04x}")));
        assert_eq!(written(&beside), expected);
    }
    for length in [4_097, 65_535, 65_536, 70_000] {
        let beside = Setup {
            batch: Some(&bytes[..length]),
            ..some_parts(3)
        };
        for room in [0, 6, 4_102, 4_103, 80_000] {
            writing_is_refused(&only_batch(&bytes[..length]), room, 15);
            writing_is_refused(&beside, room, 15);
        }
    }
}

/// Every room that is too small, the one that is just enough, and larger ones.
fn needs_exactly(setup: &Setup, file: &[u8]) {
    for room in 0..file.len() {
        writing_is_refused(setup, room, 17);
    }
    for more in [0, 1, 2, 300] {
        let mut output = vec![0xA5; file.len() + more];
        assert_eq!(write_setup(setup, &mut output), Ok(file.len()));
        assert_eq!(output, [file, &vec![0xA5; more]].concat());
    }
}

#[test]
fn the_room_of_the_file_is_enough_and_one_byte_less_is_refused_by_17() {
    for (sum, file) in seven_files() {
        needs_exactly(&some_parts(sum), &file);
    }
    needs_exactly(&only_batch(&[]), &from_hex("01 0300060000"));
}

#[test]
fn the_longest_file_has_4130_bytes() {
    let setup = Setup {
        batch: Some(&[0x77; 4_096]),
        ..some_parts(3)
    };
    let mut output = [0xA5; 4_130];
    assert_eq!(write_setup(&setup, &mut output), Ok(4_130));
    assert_eq!(
        output[..16],
        from_hex("03 0100100010 0200200002 0300221000")
    );
    assert_eq!(output[34..], [0x77; 4_096]);
    writing_is_refused(&setup, 4_129, 17);
}
