//! A file or a setup that is wrong in several ways gets the first number.

use second::Setup;

use crate::setup::{reading_is_refused, some_parts, writing_is_refused, BATCH, CONTROL, REGISTERS};

/// A file taken apart, to be spoilt here and there.
#[derive(Clone)]
struct Draft {
    count: u8,
    entries: [(u8, u16, u16); 3],
    bodies: Vec<u8>,
    /// As many bytes of the file as there are, counted from its start.
    kept: usize,
}

impl Draft {
    fn good() -> Self {
        Draft {
            count: 3,
            entries: [(1, 16, 16), (2, 32, 2), (3, 34, 5)],
            bodies: [&REGISTERS[..], &CONTROL, &BATCH].concat(),
            kept: usize::MAX,
        }
    }

    fn file(&self) -> Vec<u8> {
        let mut file = vec![self.count];
        for (kind, offset, length) in self.entries {
            file.push(kind);
            file.extend(offset.to_be_bytes());
            file.extend(length.to_be_bytes());
        }
        file.extend(&self.bodies);
        file.truncate(self.kept);
        file
    }
}

/// A refusal number and a fault that deserves it.
type Fault = (u8, fn(&mut Draft));

const FAULTS: [Fault; 24] = [
    (13, |draft| draft.count = 0),
    (13, |draft| draft.count = 4),
    (13, |draft| draft.count = 255),
    (13, |draft| draft.kept = 0),
    (13, |draft| draft.kept = 1),
    (13, |draft| draft.kept = 15),
    (14, |draft| draft.entries[0].0 = 0),
    (14, |draft| draft.entries[0].0 = 2),
    (14, |draft| draft.entries[1].0 = 1),
    (14, |draft| draft.entries[1].0 = 3),
    (14, |draft| draft.entries[2].0 = 4),
    (14, |draft| draft.entries[2].0 = 255),
    (15, |draft| draft.entries[0].1 += 1),
    (15, |draft| draft.entries[1].1 -= 1),
    (15, |draft| draft.entries[2].1 = 0),
    (15, |draft| draft.entries[0].2 += 1),
    (15, |draft| draft.entries[1].2 -= 1),
    (15, |draft| draft.entries[2].2 = 4_097),
    (15, |draft| draft.bodies.push(0)),
    (15, |draft| draft.kept = draft.kept.min(38)),
    (16, |draft| draft.bodies[4] |= 0x80),
    (16, |draft| draft.bodies[5] |= 0x20),
    (16, |draft| draft.bodies[11] |= 0x80),
    (16, |draft| draft.bodies[14] |= 0x40),
];

#[test]
fn one_fault_gets_its_own_number() {
    for (number, spoil) in FAULTS {
        let mut draft = Draft::good();
        spoil(&mut draft);
        reading_is_refused(&draft.file(), number);
    }
}

#[test]
fn of_two_or_three_faults_the_lowest_number_counts() {
    for (first, spoil_first) in FAULTS {
        for (second, spoil_second) in FAULTS {
            for (third, spoil_third) in FAULTS {
                if first == second || second == third || first == third {
                    continue;
                }
                let mut draft = Draft::good();
                spoil_first(&mut draft);
                spoil_second(&mut draft);
                reading_is_refused(&draft.file(), first.min(second));
                spoil_third(&mut draft);
                reading_is_refused(&draft.file(), first.min(second).min(third));
            }
        }
    }
}

#[test]
fn a_wrong_last_kind_goes_before_a_wrong_first_offset_or_length() {
    let mut draft = Draft::good();
    draft.entries = [(1, 0, 0), (2, 0, 0), (9, 34, 5)];
    reading_is_refused(&draft.file(), 14);
    draft.entries[2].0 = 3;
    reading_is_refused(&draft.file(), 15);
}

#[test]
fn a_wrong_last_length_goes_before_a_forbidden_bit() {
    let mut draft = Draft::good();
    draft.bodies[5] = 0xFF;
    draft.entries[2].2 = 6;
    reading_is_refused(&draft.file(), 15);
    draft.bodies.push(0);
    reading_is_refused(&draft.file(), 16);
}

#[test]
fn kinds_are_judged_when_no_body_is_there() {
    reading_is_refused(&[1, 0, 0, 0, 0, 0], 14);
    reading_is_refused(&[1, 4, 0, 6, 0, 0], 14);
    reading_is_refused(&[1, 1, 0, 6, 0, 16], 15);
    reading_is_refused(&[2, 2, 0, 11, 0, 2, 1, 0, 13, 0, 16], 14);
}

#[test]
fn the_writer_judges_parts_then_batch_then_bits_then_room() {
    let long = [0; 4_097];
    let wide = [0xFF; 16];
    let too_long = Setup {
        batch: Some(&long),
        ..some_parts(3)
    };
    let too_wide = Setup {
        registers: Some(&wide),
        ..some_parts(6)
    };
    let both = Setup {
        batch: Some(&long),
        ..too_wide
    };
    for room in [0, 1, 38, 39, 4_130, 4_131, 10_000] {
        writing_is_refused(&Setup::default(), room, 13);
        writing_is_refused(&too_long, room, 15);
        writing_is_refused(&both, room, 15);
        writing_is_refused(&too_wide, room, 16);
    }
    writing_is_refused(&some_parts(7), 38, 17);
}
