//! Setups and setup files to try the reader and the writer with.

use second::{read_setup, write_setup, Setup};

/// R0 to R15, all different and none too wide.
pub const REGISTERS: [u8; 16] = [
    0x10, 0x21, 0x32, 0x43, 0x54, 0x05, 0x16, 0x27, 0x38, 0x09, 0x4A, 0x1B, 0x2C, 0x3D, 0x0E, 0xFF,
];

/// TY and V0 set.
pub const CONTROL: [u8; 2] = [0x80, 0x01];

/// A record and a byte of the next one.
pub const BATCH: [u8; 5] = [3, 0, 1, 0, 7];

pub const REGISTERS_HEX: &str = "102132435405162738094a1b2c3d0eff";
pub const CONTROL_HEX: &str = "8001";
pub const BATCH_HEX: &str = "0300010007";

pub const ALL_PARTS: Setup = Setup {
    registers: Some(&REGISTERS),
    control: Some(&CONTROL),
    batch: Some(&BATCH),
};

/// The parts named by 1 registers, 2 control bits and 4 batch, added.
pub fn some_parts(sum: u8) -> Setup<'static> {
    Setup {
        registers: ALL_PARTS.registers.filter(|_| sum & 1 != 0),
        control: ALL_PARTS.control.filter(|_| sum & 2 != 0),
        batch: ALL_PARTS.batch.filter(|_| sum & 4 != 0),
    }
}

/// Each of the seven sets of parts by its sum, and the bytes its file has by hand.
pub fn seven_files() -> [(u8, Vec<u8>); 7] {
    [
        (1, "01 0100060010", REGISTERS_HEX, "", ""),
        (2, "01 0200060002", "", CONTROL_HEX, ""),
        (4, "01 0300060005", "", "", BATCH_HEX),
        (
            3,
            "02 01000b0010 02001b0002",
            REGISTERS_HEX,
            CONTROL_HEX,
            "",
        ),
        (5, "02 01000b0010 03001b0005", REGISTERS_HEX, "", BATCH_HEX),
        (6, "02 02000b0002 03000d0005", "", CONTROL_HEX, BATCH_HEX),
        (
            7,
            "03 0100100010 0200200002 0300220005",
            REGISTERS_HEX,
            CONTROL_HEX,
            BATCH_HEX,
        ),
    ]
    .map(|(sum, contents, registers, control, batch)| {
        let digits = [contents, registers, control, batch].concat();
        (sum, from_hex(&digits))
    })
}

/// Bytes from hex digits, with spaces wherever they please.
pub fn from_hex(text: &str) -> Vec<u8> {
    let digits: Vec<u32> = text
        .chars()
        .filter_map(|digit| digit.to_digit(16))
        .collect();
    let pairs = digits.chunks(2);
    pairs.map(|pair| (16 * pair[0] + pair[1]) as u8).collect()
}

/// What the writer makes of a setup when it has room to spare, whatever the room
/// held; the spare room stays as it was.
pub fn written(setup: &Setup) -> Vec<u8> {
    let [file, same] = [0xA5, 0x5A].map(|before| {
        let mut output = vec![before; 4_200];
        let length = write_setup(setup, &mut output).expect("it is written");
        let past = output.split_off(length);
        assert!(past.iter().all(|byte| *byte == before));
        output
    });
    assert_eq!(file, same);
    file
}

/// The writer's refusal in an output of this room, of which no byte changes.
pub fn writing_is_refused(setup: &Setup, room: usize, number: u8) {
    for before in [0xA5, 0x5A] {
        let mut output = vec![before; room];
        let refusal = write_setup(setup, &mut output).expect_err("it is refused");
        assert_eq!(refusal.number(), number, "room {room}");
        assert!(output.iter().all(|byte| *byte == before));
    }
}

pub fn reading_is_refused(file: &[u8], number: u8) {
    let refusal = read_setup(file).expect_err("it is refused");
    assert_eq!(refusal.number(), number, "{file:02x?}");
}
