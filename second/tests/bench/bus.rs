//! Processor bus cycles: selects, ticks, control bits and memory cells.

use crate::trial::{bit, Trial};

const RAM: u8 = 1;
const BARRED: u8 = 2;
const CONTROL_WRITE: u8 = 4;

/// First and last address, select on a read, select on a write, RAM or not.
type Region = (u16, u16, u8, u8, bool);

const HIGH_BLOCK: [Region; 5] = [
    (0xFF00, 0xFF1F, 4, 4, false),
    (0xFF20, 0xFF3F, 5, 5, false),
    (0xFF40, 0xFF5F, 6, 6, false),
    (0xFF60, 0xFFDF, 7, 7, false),
    (0xFFE0, 0xFFFF, 2, 2, false),
];

const MAP_TYPE_0: [Region; 4] = [
    (0x0000, 0x7FFF, 0, 7, true),
    (0x8000, 0x9FFF, 1, 1, false),
    (0xA000, 0xBFFF, 2, 2, false),
    (0xC000, 0xFEFF, 3, 3, false),
];

const MAP_TYPE_1: [Region; 1] = [(0x0000, 0xFEFF, 0, 7, true)];

fn check_selects(trial: Trial, regions: &[Region]) {
    let mut seen = 0u32;
    for (first, last, on_read, on_write, ram) in regions.iter().chain(&HIGH_BLOCK) {
        for address in *first..=*last {
            let read = trial.clone().bus_read(address);
            let written = trial.clone().bus_write(address);
            assert_eq!(
                (read[0], written[0]),
                (*on_read, *on_write),
                "${address:04X}"
            );
            assert_eq!(
                (read[2] & RAM == RAM, written[2] & RAM == RAM),
                (*ram, *ram)
            );
            if !ram {
                assert_eq!((&read[3..], &written[3..]), (&[0; 3][..], &[0; 3][..]));
            }
            seen += 1;
        }
    }
    assert_eq!(seen, 65_536);
}

#[test]
fn every_address_has_its_select_in_map_type_0() {
    check_selects(Trial::fresh(), &MAP_TYPE_0);
}

#[test]
fn every_address_has_its_select_in_map_type_1() {
    let mut trial = Trial::fresh();
    trial.set_bit(bit::TY);
    check_selects(trial, &MAP_TYPE_1);
}

#[test]
fn ticks_follow_the_two_rate_bits_and_the_address() {
    let lower_half_or_first_block =
        |address: u16| address <= 0x7FFF || (0xFF00..=0xFF1F).contains(&address);
    for map_type_1 in [false, true] {
        for rate in 0..4 {
            let mut trial = Trial::fresh();
            if map_type_1 {
                trial.set_bit(bit::TY);
            }
            if rate & 1 == 1 {
                trial.set_bit(bit::R0);
            }
            if rate & 2 == 2 {
                trial.set_bit(bit::R1);
            }
            for address in 0..=0xFFFF {
                let expected = match rate {
                    0 => 16,
                    1 if lower_half_or_first_block(address) => 16,
                    _ => 8,
                };
                assert_eq!(
                    trial.clone().bus_read(address)[1],
                    expected,
                    "${address:04X}"
                );
                assert_eq!(
                    trial.clone().bus_write(address)[1],
                    expected,
                    "${address:04X}"
                );
            }
        }
    }
}

#[test]
fn the_barred_pair_is_map_type_1_with_either_rate_bit() {
    for bits in 0..8 {
        let mut trial = Trial::fresh();
        for (place, number) in [bit::R0, bit::R1, bit::TY].iter().enumerate() {
            if (bits >> place) & 1 == 1 {
                trial.set_bit(*number);
            }
        }
        let barred = bits > 4;
        for address in [0x0000, 0x8000, 0xFEFF, 0xFF00, 0xFFFF] {
            assert_eq!(
                trial.bus_read(address)[2] & BARRED == BARRED,
                barred,
                "bits {bits}"
            );
            assert_eq!(
                trial.bus_write(address)[2] & BARRED == BARRED,
                barred,
                "bits {bits}"
            );
        }
    }
}

#[test]
fn control_writes_are_writes_from_ffc0_to_ffdf_and_nothing_else() {
    let trial = Trial::fresh();
    for address in 0xFF00..=0xFFFF {
        let in_range = (0xFFC0..=0xFFDF).contains(&address);
        let written = trial.clone().bus_write(address);
        assert_eq!(
            written[2] & CONTROL_WRITE == CONTROL_WRITE,
            in_range,
            "${address:04X}"
        );
        let read = trial.clone().bus_read(address);
        assert_eq!(read[2] & CONTROL_WRITE, 0, "${address:04X}");
    }
}

#[test]
fn only_control_writes_change_the_multiplexer() {
    let mut trial = Trial::fresh();
    for place in [bit::V0, bit::F0, bit::M1] {
        trial.set_bit(place);
    }
    for address in 0..=0xFFFF {
        let mut reading = trial;
        reading.bus_read(address);
        assert_eq!(reading.bench, trial.bench, "${address:04X}");
        if !(0xFFC0..=0xFFDF).contains(&address) {
            let mut writing = trial;
            writing.bus_write(address);
            assert_eq!(writing.bench, trial.bench, "${address:04X}");
        }
    }
}

#[test]
fn each_bit_is_set_by_its_odd_address_and_cleared_by_its_even_one() {
    let clear = Trial::fresh();
    let mut all_set = clear;
    for place in 0..16 {
        all_set.set_bit(place);
    }
    for place in 0..16 {
        let mut one_set = clear;
        one_set.set_bit(place);
        assert_ne!(one_set.bench, clear.bench);
        one_set.set_bit(place);
        one_set.clear_bit(place);
        assert_eq!(one_set.bench, clear.bench);
        let mut one_clear = all_set;
        one_clear.clear_bit(place);
        assert_ne!(one_clear.bench, all_set.bench);
        one_clear.set_bit(place);
        assert_eq!(one_clear.bench, all_set.bench);
    }
}

#[test]
fn a_cycle_is_judged_by_the_bits_before_its_own_write() {
    let mut trial = Trial::fresh();
    assert_eq!(trial.set_bit(bit::R0), [7, 16, CONTROL_WRITE, 0, 0, 0]);
    assert_eq!(trial.set_bit(bit::TY), [7, 8, CONTROL_WRITE, 0, 0, 0]);
    assert_eq!(
        trial.clear_bit(bit::TY),
        [7, 8, CONTROL_WRITE | BARRED, 0, 0, 0]
    );
    assert_eq!(trial.clear_bit(bit::R0), [7, 8, CONTROL_WRITE, 0, 0, 0]);
    assert_eq!(trial.clear_bit(bit::R0), [7, 16, CONTROL_WRITE, 0, 0, 0]);
}

/// Where each address line goes: bank, row, column. A0 first.
type Routing = [(u8, u8, u8); 16];

#[rustfmt::skip]
const FOUR_K: Routing = [
    (0, 1, 0), (0, 2, 0), (0, 4, 0), (0, 8, 0), (0, 16, 0), (0, 32, 0),
    (0, 0, 1), (0, 0, 2), (0, 0, 4), (0, 0, 8), (0, 0, 16), (0, 0, 32),
    (1, 0, 0), (0, 0, 0), (0, 0, 0), (0, 0, 0),
];

#[rustfmt::skip]
const SIXTEEN_K: Routing = [
    (0, 1, 0), (0, 2, 0), (0, 4, 0), (0, 8, 0), (0, 16, 0), (0, 32, 0), (0, 64, 0),
    (0, 0, 1), (0, 0, 2), (0, 0, 4), (0, 0, 8), (0, 0, 16), (0, 0, 32), (0, 0, 64),
    (1, 0, 0), (0, 0, 0),
];

#[rustfmt::skip]
const SIXTY_FOUR_K: Routing = [
    (0, 1, 0), (0, 2, 0), (0, 4, 0), (0, 8, 0), (0, 16, 0), (0, 32, 0), (0, 64, 0), (0, 128, 0),
    (0, 0, 1), (0, 0, 2), (0, 0, 4), (0, 0, 8), (0, 0, 16), (0, 0, 32), (0, 0, 64), (0, 0, 128),
];

/// M1, M0 and the routing they give.
const SIZES: [(bool, bool, Routing); 4] = [
    (false, false, FOUR_K),
    (false, true, SIXTEEN_K),
    (true, false, SIXTY_FOUR_K),
    (true, true, SIXTY_FOUR_K),
];

fn of_size(m1: bool, m0: bool) -> Trial {
    let mut trial = Trial::fresh();
    if m1 {
        trial.set_bit(bit::M1);
    }
    if m0 {
        trial.set_bit(bit::M0);
    }
    trial
}

fn routed(address: u16, routing: &Routing) -> [u8; 3] {
    let mut cell = [0; 3];
    for (line, (bank, row, column)) in routing.iter().enumerate() {
        if (address >> line) & 1 == 1 {
            cell[0] += bank;
            cell[1] += row;
            cell[2] += column;
        }
    }
    cell
}

#[test]
fn the_processor_reaches_its_cells_in_every_size_with_map_type_1() {
    for (m1, m0, routing) in SIZES {
        let mut trial = of_size(m1, m0);
        trial.set_bit(bit::TY);
        trial.set_bit(bit::P);
        for address in 0..=0xFEFF {
            let expected = routed(address, &routing);
            assert_eq!(trial.bus_read(address)[3..], expected, "${address:04X}");
            assert_eq!(trial.bus_write(address)[3..], expected, "${address:04X}");
        }
    }
}

#[test]
fn p_stands_for_a15_with_map_type_0() {
    for (m1, m0, routing) in SIZES {
        let mut trial = of_size(m1, m0);
        for address in 0..=0x7FFF {
            assert_eq!(trial.bus_read(address)[3..], routed(address, &routing));
        }
        trial.set_bit(bit::P);
        for address in 0..=0x7FFF {
            assert_eq!(
                trial.bus_read(address)[3..],
                routed(address | 0x8000, &routing)
            );
        }
    }
}

#[test]
fn the_display_reaches_its_cells_in_every_size_and_never_by_p() {
    for (m1, m0, routing) in SIZES {
        let mut trial = of_size(m1, m0);
        trial.set_bit(bit::P);
        trial.display_mode(7);
        for address in 0..=0xFFFF {
            let [high, low, cell @ .., access] = trial.fetch(u16::from(address > 0));
            assert_eq!(u16::from_be_bytes([high, low]), address);
            assert_eq!(
                (cell, access),
                (routed(address, &routing), 1),
                "${address:04X}"
            );
        }
    }
}

#[test]
fn a_few_cells_worked_out_by_hand() {
    // $1A5B is 0001 1010 0101 1011.
    assert_eq!(
        of_size(false, false).bus_read(0x1A5B),
        [0, 16, RAM, 1, 0x1B, 0x29]
    );
    assert_eq!(
        of_size(false, true).bus_read(0x5A5B),
        [0, 16, RAM, 1, 0x5B, 0x34]
    );
    assert_eq!(
        of_size(true, false).bus_write(0x1A5B),
        [7, 16, RAM, 0, 0x5B, 0x1A]
    );
}
