//! The built program, with a real standard input and output.

use std::io::Write;
use std::process::{Command, Output, Stdio};

use second::mode::HELP;

use crate::listing::{SETTLED_INPUT, SETTLED_LISTING};
use crate::room::{input, CLOCK, FETCH};

pub fn run(arguments: &[&str], input: &[u8]) -> Output {
    let mut child = Command::new(env!("CARGO_BIN_EXE_second"))
        .args(arguments)
        .stdin(Stdio::piped())
        .stdout(Stdio::piped())
        .stderr(Stdio::piped())
        .spawn()
        .expect("the program starts");
    let mut stdin = child.stdin.take().expect("it has a standard input");
    // A batch too long need not be read to its end, so this may fail.
    let _ = stdin.write_all(input);
    drop(stdin);
    child.wait_with_output().expect("the program ends")
}

pub fn prints_with(arguments: &[&str], input: &[u8], expected: &str) {
    let output = run(arguments, input);
    assert_eq!(String::from_utf8_lossy(&output.stdout), expected);
    assert_eq!(String::from_utf8_lossy(&output.stderr), "");
    assert_eq!(output.status.code(), Some(0));
}

fn prints(input: &[u8], expected: &str) {
    prints_with(&[], input, expected);
}

fn prints_room(input: &[u8], expected: &str) {
    prints_with(&["--room"], input, expected);
}

#[test]
fn the_program_prints_the_settled_listing() {
    prints(&SETTLED_INPUT, SETTLED_LISTING);
}

#[test]
fn the_program_takes_an_empty_batch_and_a_broken_one() {
    prints(&[], "end 0\n");
    prints(&[1, 2, 3], "end 3\n");
}

#[test]
fn the_program_takes_4096_bytes_and_no_more() {
    let mut expected = "ff01000000000000\n".repeat(1_024);
    expected.push_str("end 0\n");
    prints(&[0xFF; 4_096], &expected);
    prints(&[0xFF; 4_097], "too long\n");
    prints(&[0xFF; 1_000_000], "too long\n");
}

#[test]
fn the_program_shows_the_settled_answers_in_their_exact_room_and_one_byte_less() {
    let answers = SETTLED_LISTING.replace("end 0\n", "");
    let whole = String::from("00002c000b000000\n") + &answers;
    prints_room(&input(88, &SETTLED_INPUT), &whole);
    let short = String::from("040028000a000000\n")
        + &answers.replace("0600021000000000\n", "a5a5a5a5a5a5a5\n");
    prints_room(&input(87, &SETTLED_INPUT), &short);
}

#[test]
fn the_program_takes_small_rooms_and_larger_ones() {
    let batch = [CLOCK, FETCH].concat();
    prints_room(&input(0, &batch), "0400000000000000\n");
    prints_room(&input(7, &batch), "0400000000000000\na5a5a5a5a5a5a5\n");
    let one = "0400040001000000\n0300000000100000\n";
    prints_room(&input(8, &batch), one);
    prints_room(&input(9, &batch), &(String::from(one) + "a5\n"));
    let two = "0000080002000000\n0300000000100000\n0700000100010001\na5a5a5a5a5a5a5a5\na5\n";
    prints_room(&input(25, &batch), two);
}

#[test]
fn the_program_ends_with_3_with_room_and_without() {
    prints_room(&input(0, &[4]), "0300000000000000\n");
    prints_room(&input(7, &[4, 0, 0]), "0300000000000000\na5a5a5a5a5a5a5\n");
    let batch = [&FETCH, &CLOCK[..2]].concat();
    let one = "0300040001000000\n0700000100010001\n";
    prints_room(&input(8, &batch), one);
    let untouched = String::from(one) + "a5a5a5a5a5a5a5a5\n";
    prints_room(&input(16, &batch), &untouched);
}

#[test]
fn the_program_asks_for_a_room_and_takes_8192_at_most() {
    prints_room(&[], "no room\n");
    prints_room(&[8], "no room\n");
    let expected = String::from("0000000000000000\n") + &"a5a5a5a5a5a5a5a5\n".repeat(1_024);
    for room in [8_192, 8_193, u16::MAX] {
        prints_room(&input(room, &[]), &expected);
    }
}

#[test]
fn the_program_takes_4098_bytes_with_a_room_and_no_more() {
    let expected = String::from("0010000400000000\n") + &"ff01000000000000\n".repeat(1_024);
    prints_room(&[0xFF; 4_098], &expected);
    prints_room(&[0xFF; 4_099], "too long\n");
    prints_room(&[0xFF; 1_000_000], "too long\n");
    prints_room(&[0; 4_098], "0400000000000000\n");
    prints_room(&[0; 4_099], "too long\n");
}

/// 1,024 records with answers nearly all different: the three V bits set, then
/// single fetches.
fn longest_batch() -> (Vec<u8>, Vec<String>) {
    let mut batch = Vec::new();
    let mut answers = Vec::new();
    for low in [0xC1, 0xC3, 0xC5] {
        batch.extend([6, 0xFF, low, 0]);
        answers.push(String::from("0600071004000000\n"));
    }
    for address in 1..=1_021 {
        batch.extend([7, 0, 1, 0]);
        let (row, column) = (address % 64, address / 64);
        answers.push(format!("0700{address:04x}00{row:02x}{column:02x}01\n"));
    }
    (batch, answers)
}

#[test]
fn the_program_takes_a_batch_of_4096_bytes_whole_into_a_room() {
    let (batch, answers) = longest_batch();
    assert_eq!((batch.len(), answers.len()), (4_096, 1_024));
    let whole = String::from("0010000400000000\n") + &answers.concat();
    for room in [8_192, 8_193, u16::MAX] {
        prints_room(&input(room, &batch), &whole);
    }
    let too_long = [&batch[..], &[7]].concat();
    prints_room(&input(8_192, &too_long), "too long\n");
}

#[test]
fn the_program_leaves_the_last_record_of_4096_bytes_when_it_is_broken_or_has_no_room() {
    let (batch, answers) = longest_batch();
    let all_but_one = answers[..1_023].concat();
    let broken = String::from("030ffc03ff000000\n") + &all_but_one + "a5a5a5a5a5a5a5a5\n";
    prints_room(&input(8_192, &batch[..4_095]), &broken);
    let full = String::from("040ffc03ff000000\n") + &all_but_one;
    prints_room(&input(8_184, &batch), &full);
}

#[test]
fn the_program_tells_of_every_mode() {
    prints_with(&["--help"], &[], HELP);
    for call in [
        "second < batch",
        "second --room < input",
        "second --counts < settings",
        "second --places < input",
        "second --serial < bytes",
        "second --cuts < calls",
        "second --setup < file",
        "second --pack < input",
        "second --help",
    ] {
        assert!(HELP.contains(&format!("\n  {call} ")), "{call}");
    }
}

#[test]
fn the_program_refuses_arguments_it_does_not_know() {
    let refused: [(&[&str], &str); 9] = [
        (&["--rooms"], "second: unknown argument `--rooms`"),
        (&["batch.bin"], "second: unknown argument `batch.bin`"),
        (&["--room", "8"], "second: superfluous argument `8`"),
        (&["--count"], "second: unknown argument `--count`"),
        (&["--places", "8"], "second: superfluous argument `8`"),
        (&["--serials"], "second: unknown argument `--serials`"),
        (&["--cuts", "8"], "second: superfluous argument `8`"),
        (&["--set-up"], "second: unknown argument `--set-up`"),
        (
            &["--pack", "--setup"],
            "second: superfluous argument `--setup`",
        ),
    ];
    for (arguments, message) in refused {
        let output = run(arguments, &[4, 0, 0, 0]);
        assert_eq!(output.status.code(), Some(2));
        assert!(String::from_utf8_lossy(&output.stderr).starts_with(message));
        assert!(output.stdout.is_empty());
    }
}

#[cfg(target_os = "linux")]
#[test]
fn the_program_says_so_when_it_cannot_read_or_write() {
    use std::fs::{File, OpenOptions};

    let folder = File::open("/").expect("the root folder opens");
    let unread = Command::new(env!("CARGO_BIN_EXE_second"))
        .stdin(folder)
        .output()
        .expect("the program starts");
    assert_eq!(unread.status.code(), Some(1));
    assert!(String::from_utf8_lossy(&unread.stderr).starts_with("second: cannot read the batch"));
    assert!(unread.stdout.is_empty());

    let full = OpenOptions::new()
        .write(true)
        .open("/dev/full")
        .expect("it opens");
    let unwritten = Command::new(env!("CARGO_BIN_EXE_second"))
        .stdin(Stdio::null())
        .stdout(full)
        .stderr(Stdio::piped())
        .spawn()
        .and_then(|child| child.wait_with_output())
        .expect("the program starts and ends");
    assert_eq!(unwritten.status.code(), Some(1));
    assert!(String::from_utf8_lossy(&unwritten.stderr).starts_with("second: cannot write"));
}
