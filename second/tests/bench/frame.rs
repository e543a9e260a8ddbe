//! The list of a frame's character times.

use second::counts::{CharacterTime, Frame};
use second::Setting;

use crate::setting::bytes_with;
use crate::trial::{
    Trial, CURSOR, DISPLAY_ENABLE, HSYNC, PICTURE, SETTING_A, SETTING_A_TIMES, VSYNC,
};

fn frame(registers: &[(u8, u8)]) -> Frame {
    Frame::first_of(&Setting::of(bytes_with(registers)))
}

/// The flags of a kind 3 answer for one entry of the list.
fn flags(time: &CharacterTime) -> u8 {
    let shown = [
        (time.picture, PICTURE),
        (time.pins.display_enable, DISPLAY_ENABLE),
        (time.pins.cursor, CURSOR),
        (time.pins.hsync, HSYNC),
        (time.pins.vsync, VSYNC),
    ];
    shown
        .into_iter()
        .filter_map(|(holds, flag)| holds.then_some(flag))
        .sum()
}

fn seen(time: &CharacterTime) -> (u16, u8) {
    (time.memory_address, flags(time))
}

#[test]
fn the_list_of_setting_a_is_the_one_worked_out_by_hand() {
    let listed: Vec<(u16, u8)> = frame(&SETTING_A).times.iter().map(seen).collect();
    let by_hand = SETTING_A_TIMES.map(|(address, _line, flags)| (address, flags));
    assert_eq!(listed, by_hand);
}

#[test]
fn the_list_is_followed_by_the_first_time_of_the_next_frame() {
    let (address, _line, flags) = SETTING_A_TIMES[0];
    assert_eq!(seen(&frame(&SETTING_A).next_first), (address, flags));
    // Late pins tell the two frames apart: the first one ended in the picture.
    let late = frame(&[(0, 1), (1, 2), (6, 1), (8, 0x30), (15, 1)]);
    let all_shown = PICTURE | DISPLAY_ENABLE | CURSOR | VSYNC;
    assert_eq!(seen(&late.times[0]), (0, PICTURE | VSYNC));
    assert_eq!(seen(&late.next_first), (0, all_shown));
}

#[test]
fn the_settled_lengths_of_frames() {
    assert_eq!(frame(&SETTING_A).times.len(), 20);
    assert_eq!(frame(&[]).times.len(), 1);
    let largest = [(0, 255), (4, 127), (5, 31), (9, 31)];
    assert_eq!(frame(&largest).times.len(), 1_056_512);
}

#[test]
fn a_frame_has_the_lines_of_its_rows_and_the_adjust_lines() {
    let times = |registers: &[(u8, u8)]| frame(registers).times.len();
    assert_eq!(times(&[(0, 6)]), 7);
    assert_eq!(times(&[(4, 5)]), 6);
    assert_eq!(times(&[(9, 31)]), 32);
    assert_eq!(times(&[(5, 1)]), 2);
    assert_eq!(times(&[(5, 31)]), 32);
    assert_eq!(times(&[(0, 4), (4, 2), (9, 3)]), 5 * 3 * 4);
    assert_eq!(times(&[(0, 4), (4, 2), (5, 7), (9, 3)]), 5 * (3 * 4 + 7));
}

#[test]
fn each_time_of_the_list_is_what_the_records_answer() {
    let registers = [
        (0, 6),
        (1, 4),
        (2, 5),
        (3, 0x34),
        (4, 3),
        (5, 2),
        (6, 3),
        (7, 2),
        (8, 0x30),
        (9, 2),
        (10, 0x41),
        (11, 2),
        (12, 0x3F),
        (13, 0xFB),
        (15, 1),
    ];
    let frame = frame(&registers);
    assert_eq!(frame.times.len(), 7 * (4 * 3 + 2));
    let mut trial = Trial::with(&registers);
    for (number, time) in frame.times.iter().chain([&frame.next_first]).enumerate() {
        let answer = trial.now();
        assert_eq!(seen(time), (answer.ma, answer.flags), "time {number}");
        trial.clocks(1);
    }
}
