//! Setup files as text, and through the built program.

use second::setup::setup_text;

use crate::program::prints_with;
use crate::setup::{from_hex, seven_files, BATCH_HEX, CONTROL_HEX, REGISTERS_HEX};

/// Tried as text and in the program.
fn gives(file: &[u8], expected: &str) {
    assert_eq!(setup_text(file), expected);
    prints_with(&["--setup"], file, expected);
}

#[test]
fn each_part_has_its_line_in_the_order_of_the_file() {
    let lines = [
        (1, format!("registers {REGISTERS_HEX}\n")),
        (2, format!("control {CONTROL_HEX}\n")),
        (4, format!("batch {BATCH_HEX}\n")),
    ];
    for (sum, file) in seven_files() {
        let there = lines.iter().filter(|(part, _)| sum & part != 0);
        let expected: String = there.map(|(_, line)| line.as_str()).collect();
        gives(&file, &expected);
    }
}

#[test]
fn an_empty_batch_is_a_word_alone() {
    gives(&from_hex("01 0300060000"), "batch\n");
    let beside = from_hex("02 02000b0002 03000d0000 0abc");
    gives(&beside, "control 0abc\nbatch\n");
}

#[test]
fn a_refused_file_has_the_number_alone() {
    gives(&[], "refused 13\n");
    gives(&[0], "refused 13\n");
    gives(&[4; 100], "refused 13\n");
    gives(&from_hex("01 03000600"), "refused 13\n");
    gives(&from_hex("01 0400060000"), "refused 14\n");
    gives(&from_hex("01 0300070000"), "refused 15\n");
    gives(&from_hex("01 0300060000 00"), "refused 15\n");
    let mut wide = from_hex("01 0100060010");
    wide.extend([0xFF; 16]);
    gives(&wide, "refused 16\n");
}

#[test]
fn the_longest_file_is_printed_whole() {
    let mut file = from_hex("03 0100100010 0200200002 0300221000");
    file.resize(4_130, 0);
    let expected = format!(
        "registers {}\ncontrol 0000\nbatch {}\n",
        "00".repeat(16),
        "00".repeat(4_096)
    );
    gives(&file, &expected);
    file.push(0);
    gives(&file, "refused 15\n");
}

#[test]
fn up_to_4200_bytes_are_judged_and_more_are_too_long() {
    let mut file = from_hex("01 0300061062");
    file.resize(4_200, 0);
    gives(&file, "refused 15\n");
    gives(&[0; 4_200], "refused 13\n");
    gives(&[1; 4_200], "refused 15\n");
    gives(&[2; 4_200], "refused 14\n");
    file.push(0);
    gives(&file, "too long\n");
    for length in [4_201, 4_202, 65_536, 1_000_000] {
        gives(&vec![0; length], "too long\n");
        gives(&vec![1; length], "too long\n");
    }
}
