//! Bits that a register has and bits that it lacks.

use second::{read_setup, Setup};

use crate::setting::ALL_ONES;
use crate::setup::{reading_is_refused, seven_files, some_parts, writing_is_refused, written};

/// Sums of parts with registers among them.
const WITH_REGISTERS: [u8; 4] = [1, 3, 5, 7];

/// Reader and writer both take these registers, with any other parts beside them.
fn taken(registers: [u8; 16]) {
    for sum in WITH_REGISTERS {
        let setup = Setup {
            registers: Some(&registers),
            ..some_parts(sum)
        };
        let file = with_registers(sum, registers);
        assert_eq!(read_setup(&file), Ok(setup), "{registers:02x?}");
        assert_eq!(written(&setup), file);
    }
}

/// Reader and writer both refuse them by 16.
fn refused(registers: [u8; 16]) {
    for sum in WITH_REGISTERS {
        let setup = Setup {
            registers: Some(&registers),
            ..some_parts(sum)
        };
        reading_is_refused(&with_registers(sum, registers), 16);
        writing_is_refused(&setup, 100, 16);
    }
}

/// The good file of a set of parts, with other registers put into it.
fn with_registers(sum: u8, registers: [u8; 16]) -> Vec<u8> {
    let good = seven_files().into_iter().find(|(other, _)| *other == sum);
    let (_, mut file) = good.expect("there is such a set");
    let begin = 1 + 5 * usize::from(file[0]);
    file[begin..begin + 16].copy_from_slice(&registers);
    file
}

/// All zero but one.
fn one(number: usize, value: u8) -> [u8; 16] {
    let mut registers = [0; 16];
    registers[number] = value;
    registers
}

#[test]
fn every_register_has_its_highest_bit_and_lacks_the_next() {
    for (number, mask) in ALL_ONES.into_iter().enumerate() {
        let highest = mask - mask / 2;
        taken(one(number, highest));
        if mask < 0xFF {
            refused(one(number, 2 * highest));
        }
    }
}

#[test]
fn all_the_bits_there_are_may_be_set_and_none_besides() {
    taken(ALL_ONES);
    taken([0; 16]);
    refused([0xFF; 16]);
    for (number, mask) in ALL_ONES.into_iter().enumerate() {
        for bit in (0..8).map(|place| 1 << place) {
            if mask & bit == 0 {
                let mut registers = ALL_ONES;
                registers[number] |= bit;
                refused(registers);
            }
        }
    }
}

#[test]
fn every_value_of_every_register() {
    for (number, mask) in ALL_ONES.into_iter().enumerate() {
        for value in 0..=255 {
            if value & !mask == 0 {
                taken(one(number, value));
            } else {
                refused(one(number, value));
            }
        }
    }
}
