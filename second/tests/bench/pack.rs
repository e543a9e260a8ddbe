//! Setups packed into files, by the call and through the built program.

#[cfg(target_os = "linux")]
use std::{
    fs::{File, OpenOptions},
    io::Write,
    process::{Child, Command, Stdio},
};

use second::setup::packed;

use crate::program::{prints_with, run};
use crate::setup::{from_hex, seven_files, BATCH, CONTROL, REGISTERS};

/// The byte of parts, the room and the bytes after these.
fn input(parts: u8, room: u16, bytes: &[&[u8]]) -> Vec<u8> {
    let mut input = vec![parts];
    input.extend(room.to_be_bytes());
    input.extend(bytes.concat());
    input
}

/// The bytes of these parts, the usual ones.
fn bytes_of(parts: u8) -> Vec<u8> {
    let bodies: [(u8, &[u8]); 3] = [(1, &REGISTERS), (2, &CONTROL), (4, &BATCH)];
    let there = bodies.iter().filter(|(part, _)| parts & part != 0);
    there.flat_map(|(_, body)| body.iter().copied()).collect()
}

/// The file on standard output and nothing else anywhere.
fn gives_file(input: &[u8], file: &[u8]) {
    assert_eq!(packed(input).as_deref(), Ok(file));
    let output = run(&["--pack"], input);
    assert_eq!(output.stdout, file);
    assert_eq!(String::from_utf8_lossy(&output.stderr), "");
    assert_eq!(output.status.code(), Some(0));
}

/// A line on standard error and nothing else anywhere.
fn gives_line(input: &[u8], line: &str) {
    assert_eq!(packed(input), Err(String::from(line)));
    let output = run(&["--pack"], input);
    assert!(output.stdout.is_empty());
    assert_eq!(String::from_utf8_lossy(&output.stderr), line);
    assert_eq!(output.status.code(), Some(0));
}

#[test]
fn each_of_the_seven_sets_is_packed_in_its_exact_room_and_in_a_larger_one() {
    for (parts, file) in seven_files() {
        let bytes = bytes_of(parts);
        let exact = u16::try_from(file.len()).expect("it is short");
        for room in [exact, exact + 1, 4_130, 8_193, u16::MAX] {
            gives_file(&input(parts, room, &[&bytes]), &file);
        }
        for room in [0, 1, exact - 1] {
            gives_line(&input(parts, room, &[&bytes]), "refused 17\n");
        }
    }
}

#[test]
fn what_is_packed_is_told_by_the_other_mode() {
    let file = packed(&input(6, 18, &[&CONTROL, &BATCH])).expect("it is packed");
    prints_with(&["--setup"], &file, "control 8001\nbatch 0300010007\n");
}

#[test]
fn the_rooms_high_byte_comes_first() {
    gives_file(&[4, 0, 6], &from_hex("01 0300060000"));
    gives_file(&[4, 1, 0], &from_hex("01 0300060000"));
    gives_line(&[4, 0, 5], "refused 17\n");
    let batch = [0x33; 300];
    gives_line(&input(4, 0x0031, &[&batch]), "refused 17\n");
    let file = [&from_hex("01 030006012c")[..], &batch].concat();
    gives_file(&input(4, 0x0132, &[&batch]), &file);
    gives_line(&input(4, 0x0131, &[&batch]), "refused 17\n");
}

#[test]
fn no_part_and_no_byte_after_the_room_is_refused_by_13() {
    for room in [0, 1, 6, u16::MAX] {
        gives_line(&input(0, room, &[]), "refused 13\n");
    }
}

#[test]
fn the_batch_is_all_that_is_left() {
    for length in [0, 1, 4_095, 4_096] {
        let batch = vec![0x5C; length];
        let contents = from_hex(&format!("01 030006{length:04x}"));
        let file = [&contents[..], &batch].concat();
        gives_file(&input(4, u16::MAX, &[&batch]), &file);
        let [.., (_, all)] = seven_files();
        let mut file = [&all[..34], &batch].concat();
        file[14..16].copy_from_slice(&contents[4..6]);
        gives_file(&input(7, 4_130, &[&REGISTERS, &CONTROL, &batch]), &file);
    }
    for length in [4_097, 65_536, 1_000_000] {
        for room in [0, u16::MAX] {
            let batch = vec![0; length];
            gives_line(&input(4, room, &[&batch]), "refused 15\n");
            gives_line(&input(5, room, &[&REGISTERS, &batch]), "refused 15\n");
        }
    }
}

#[test]
fn a_forbidden_bit_is_refused_by_16_after_15_and_before_17() {
    for room in [0, 22, u16::MAX] {
        gives_line(&input(1, room, &[&[0xFF; 16]]), "refused 16\n");
        gives_line(&input(5, room, &[&[0xFF; 16], &BATCH]), "refused 16\n");
        let long = [0; 4_097];
        gives_line(&input(5, room, &[&[0xFF; 16], &long]), "refused 15\n");
    }
    let all_bits = from_hex("01 0200060002 ffff");
    gives_file(&input(2, 8, &[&[0xFF; 2]]), &all_bits);
}

#[test]
fn fewer_than_three_bytes_are_no_setup() {
    gives_line(&[], "no setup\n");
    for parts in [0, 4, 7, 8, 255] {
        gives_line(&[parts], "no setup\n");
        gives_line(&[parts, 255], "no setup\n");
    }
}

#[test]
fn a_byte_of_parts_above_7_is_no_setup() {
    for parts in 8..=255 {
        assert_eq!(packed(&[parts, 255, 255]), Err(String::from("no setup\n")));
    }
    for parts in [8, 9, 15, 16, 128, 255] {
        gives_line(&input(parts, u16::MAX, &[&bytes_of(7)]), "no setup\n");
    }
}

#[test]
fn missing_bytes_of_registers_or_control_bits_are_no_setup() {
    for parts in 1..=7 {
        let needed = 16 * usize::from(parts & 1) + usize::from(parts & 2);
        let bytes = bytes_of(parts);
        for length in 0..needed {
            let short = input(parts, u16::MAX, &[&bytes[..length]]);
            assert_eq!(packed(&short), Err(String::from("no setup\n")));
        }
        let enough = input(parts, u16::MAX, &[&bytes[..needed]]);
        assert!(packed(&enough).is_ok(), "parts {parts}");
    }
    gives_line(&input(1, 100, &[&REGISTERS[..15]]), "no setup\n");
    gives_line(&input(3, 100, &[&REGISTERS, &[1]]), "no setup\n");
    gives_line(&input(6, 0, &[&[1]]), "no setup\n");
}

#[test]
fn bytes_left_over_without_a_batch_are_no_setup() {
    for parts in 0..=3 {
        for more in [1, 5, 5_000] {
            let bytes = [bytes_of(parts), vec![0; more]].concat();
            gives_line(&input(parts, 0, &[&bytes]), "no setup\n");
            gives_line(&input(parts, u16::MAX, &[&bytes]), "no setup\n");
        }
    }
    gives_line(&input(1, 100, &[&[0xFF; 17]]), "no setup\n");
}

/// Starts the program on this input and output, to be waited for.
#[cfg(target_os = "linux")]
fn started(input: Stdio, output: Stdio) -> Child {
    Command::new(env!("CARGO_BIN_EXE_second"))
        .arg("--pack")
        .stdin(input)
        .stdout(output)
        .stderr(Stdio::piped())
        .spawn()
        .expect("the program starts")
}

#[cfg(target_os = "linux")]
#[test]
fn the_program_says_so_when_it_cannot_read_the_setup_or_write_the_file() {
    let folder = File::open("/").expect("the root folder opens");
    let unread = started(Stdio::from(folder), Stdio::piped()).wait_with_output();
    let unread = unread.expect("the program ends");
    assert_eq!(unread.status.code(), Some(1));
    assert!(unread.stdout.is_empty());
    assert!(String::from_utf8_lossy(&unread.stderr).starts_with("second: cannot read"));

    let full = OpenOptions::new().write(true).open("/dev/full");
    let full = full.expect("it opens");
    let mut child = started(Stdio::piped(), Stdio::from(full));
    let mut stdin = child.stdin.take().expect("it is a pipe");
    stdin.write_all(&[4, 0, 6]).expect("the program reads");
    drop(stdin);
    let unwritten = child.wait_with_output().expect("the program ends");
    assert_eq!(unwritten.status.code(), Some(1));
    assert!(String::from_utf8_lossy(&unwritten.stderr).starts_with("second: cannot write"));
}
