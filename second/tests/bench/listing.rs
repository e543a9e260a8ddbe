//! The listing as text, without the program around it.

use second::listing::{answer_line, listing};

pub const SETTLED_INPUT: [u8; 44] = [
    0x01, 0x00, 0x00, 0x01, 0x01, 0x00, 0x01, 0x02, 0x01, 0x00, 0x00, 0x06, 0x01, 0x00, 0x01, 0x01,
    0x01, 0x00, 0x00, 0x00, 0x01, 0x00, 0x01, 0x03, 0x05, 0x00, 0x00, 0x00, 0x03, 0x00, 0x01, 0x00,
    0x04, 0x00, 0x00, 0x00, 0x09, 0x00, 0x00, 0x00, 0x06, 0xa0, 0x00, 0x01,
];

pub const SETTLED_LISTING: &str = "\
0100000000000000
0100000000000000
0100000000000000
0100000000000000
0100000000000000
0100000000000000
0500000000000000
0300000100130000
0400000301000000
0900000100000000
0600021000000000
end 0
";

#[test]
fn the_settled_listing() {
    assert_eq!(listing(&SETTLED_INPUT), SETTLED_LISTING);
}

#[test]
fn an_empty_batch_lists_only_its_end() {
    assert_eq!(listing(&[]), "end 0\n");
}

#[test]
fn left_over_bytes_end_with_3() {
    assert_eq!(listing(&[4]), "end 3\n");
    assert_eq!(
        listing(&[3, 0, 1, 0, 255, 255, 255]),
        "0300000000100000\nend 3\n"
    );
}

#[test]
fn refused_records_are_listed_with_their_numbers() {
    let input = [0xAB, 0, 0, 0, 3, 0, 0, 9, 9, 0, 0, 0];
    assert_eq!(
        listing(&input),
        "ab01000000000000\n0302000000000000\n0905000000000000\nend 0\n"
    );
}

#[test]
fn reads_are_listed_as_driven_or_not() {
    let read = [2, 0, 1, 0];
    for (register, line) in [
        (13, "0200000000000000\n"),
        (15, "0200015500000000\n"),
        (18, "0200000000000000\n"),
    ] {
        let input = [[1, 0, 0, register], [1, 0, 1, 0x55], read].concat();
        let expected = "0100000000000000\n".repeat(2) + line + "end 0\n";
        assert_eq!(listing(&input), expected, "R{register}");
    }
}

#[test]
fn the_longest_batch_is_listed_and_a_longer_one_is_not() {
    let mut expected = "0300000000100000\n".repeat(1_024);
    expected.push_str("end 0\n");
    let longest = [3, 0, 1, 0].repeat(1_024);
    assert_eq!(listing(&longest), expected);
    let longer = [&longest[..], &[0]].concat();
    assert_eq!(listing(&longer), "too long\n");
}

#[test]
fn odd_follows_a_bus_answer_with_ram_and_a_select_of_1_to_6() {
    for select in 0..=255u8 {
        let plain = format!("0600{select:02x}1001000000");
        let odd = format!("{plain} odd");
        let expected = if (1..=6).contains(&select) {
            odd
        } else {
            plain
        };
        assert_eq!(answer_line(&[6, 0, select, 16, 1, 0, 0, 0]), expected);
    }
}

#[test]
fn odd_looks_at_the_ram_flag_alone_among_the_flags() {
    assert_eq!(answer_line(&[6, 0, 3, 8, 6, 0, 0, 0]), "0600030806000000");
    assert_eq!(
        answer_line(&[6, 0, 3, 8, 7, 1, 2, 3]),
        "0600030807010203 odd"
    );
    assert_eq!(answer_line(&[6, 0, 3, 1, 0, 1, 1, 1]), "0600030100010101");
}

#[test]
fn odd_follows_no_other_kind() {
    for kind in (0..=255u8).filter(|kind| *kind != 6) {
        assert!(
            !answer_line(&[kind, 0, 3, 16, 1, 0, 0, 0]).contains("odd"),
            "kind {kind}"
        );
    }
}
