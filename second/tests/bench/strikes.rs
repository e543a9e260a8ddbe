//! Strikes with settings drawn by lot, against what clocks show, and the locator
//! against a table of all strikes of a frame.

use second::Controller;

use crate::lots::{random_setting, small_setting, Lots};
use crate::replay::Dice;
use crate::trial::{Trial, PICTURE};

type Located = Result<(u8, u8), u8>;

fn with_setting(bytes: [u8; 16]) -> Trial {
    let registers: Vec<(u8, u8)> = (0..).zip(bytes).collect();
    Trial::with(&registers)
}

/// The latch is the address that two real clocks come to.
fn latches_what_two_clocks_show(trial: &Trial) {
    let mut struck = *trial;
    let mut clocked = *trial;
    let picture = u8::from(clocked.now().shows(PICTURE));
    let address = clocked.clocks(2).ma;
    assert_eq!(struck.strike(), (address, picture));
}

#[test]
fn every_time_of_small_frames_latches_what_two_clocks_show() {
    let mut lots = Lots::new(7);
    for _ in 0..300 {
        let mut trial = with_setting(small_setting(&mut lots));
        while trial.field() < 2 {
            latches_what_two_clocks_show(&trial);
            trial.clocks(1);
        }
    }
}

#[test]
fn with_any_register_written_before_it_a_strike_latches_what_two_clocks_show() {
    let mut lots = Lots::new(8);
    let mut dice = Dice(4);
    for _ in 0..3_000 {
        let mut trial = with_setting(small_setting(&mut lots));
        trial.clocks(dice.below(200) as u16);
        for _ in 0..4 {
            let register = dice.below(16) as u8;
            trial.set(register, dice.below(12) as u8);
            latches_what_two_clocks_show(&trial);
            trial.clocks(dice.below(3) as u16);
        }
    }
}

/// What is to be located for each latch, told by a strike at every character time
/// of the frame that the registers give after a reset: 7 for a latch that no cell
/// leaves, 8 for one that two cells leave.
fn located_by_strikes(controller: &Controller) -> Vec<Located> {
    let mut controller = *controller;
    controller.reset();
    let mut located = vec![Err(7); 16_384];
    while controller.scan().field.value() == 0 {
        let strike = controller.strike();
        if strike.in_picture {
            let scan = controller.scan();
            let cell = (scan.row.value() as u8, scan.column.value() as u8);
            let entry = &mut located[usize::from(strike.latch)];
            *entry = match *entry {
                Err(7) => Ok(cell),
                Ok(found) if found == cell => Ok(cell),
                _ => Err(8),
            };
        }
        controller.clock();
    }
    located
}

/// What a strike is to be located as: by its latch if it was in the picture.
fn due(table: &[Located], (latch, in_picture): (u16, u8)) -> Located {
    if in_picture == 1 {
        table[usize::from(latch)]
    } else {
        Err(6)
    }
}

#[test]
fn every_strike_of_small_frames_is_located_as_the_table_says() {
    let mut lots = Lots::new(9);
    let (mut found, mut shared) = (0, 0);
    for _ in 0..1_000 {
        let mut trial = with_setting(small_setting(&mut lots));
        let table = located_by_strikes(&trial.bench.controller);
        while trial.field() == 0 {
            let due = due(&table, trial.strike());
            assert_eq!(trial.locate(), due, "{:?}", trial.bench.controller);
            assert_ne!(due, Err(7));
            found += u32::from(due.is_ok());
            shared += u32::from(due == Err(8));
            trial.clocks(1);
        }
    }
    assert!(found > 5_000 && shared > 1_000, "{found} and {shared}");
}

#[test]
fn after_any_writes_a_strike_is_located_by_the_registers_as_they_stand() {
    let mut lots = Lots::new(10);
    let mut dice = Dice(5);
    let mut given = [0; 9];
    for _ in 0..5_000 {
        let mut trial = with_setting(small_setting(&mut lots));
        trial.clocks(dice.below(200) as u16);
        let other = small_setting(&mut lots);
        let mut write_some = |trial: &mut Trial| {
            for _ in 0..dice.below(4) {
                let register = dice.below(16) as u8;
                trial.set(register, other[usize::from(register)]);
            }
        };
        write_some(&mut trial);
        let struck = trial.strike();
        write_some(&mut trial);
        let due = due(&located_by_strikes(&trial.bench.controller), struck);
        assert_eq!(trial.locate(), due, "{:?}", trial.bench.controller);
        given[usize::from(due.err().unwrap_or(0))] += 1;
    }
    for refusal in [0, 6, 7, 8] {
        assert!(given[refusal] > 100, "{given:?}");
    }
}

#[test]
fn large_pictures_are_located_as_the_table_says() {
    let mut lots = Lots::new(11);
    let mut dice = Dice(6);
    for _ in 0..12 {
        let mut trial = with_setting(random_setting(&mut lots));
        let table = located_by_strikes(&trial.bench.controller);
        for _ in 0..30 {
            trial.clocks(dice.below(9_000) as u16);
            let due = due(&table, trial.strike());
            assert_eq!(trial.locate(), due, "{:?}", trial.bench.controller);
        }
    }
}

/// Every cell of the frame with its address, each once.
fn cells(controller: &Controller) -> Vec<((u16, u16), u16)> {
    let mut controller = *controller;
    controller.reset();
    let mut cells = Vec::new();
    while controller.scan().field.value() == 0 {
        let scan = *controller.scan();
        if controller.facts().picture && scan.line.is(0) {
            let cell = (scan.row.value(), scan.column.value());
            cells.push((cell, controller.memory_address()));
        }
        controller.clock();
    }
    cells
}

fn all_addresses_differ(controller: &Controller) -> bool {
    let mut addresses: Vec<u16> = cells(controller).iter().map(|cell| cell.1).collect();
    addresses.sort_unstable();
    addresses.windows(2).all(|pair| pair[0] != pair[1])
}

#[test]
fn two_columns_short_and_with_no_address_twice_each_strike_finds_its_own_cell() {
    let mut lots = Lots::new(12);
    let mut seen = 0;
    for _ in 0..2_000 {
        let mut trial = with_setting(small_setting(&mut lots));
        let registers = trial.bench.controller.registers();
        let short = registers.columns_shown() < registers.last_column();
        if !short || !all_addresses_differ(&trial.bench.controller) {
            continue;
        }
        while trial.field() == 0 {
            let (_, in_picture) = trial.strike();
            if in_picture == 1 {
                let cell = (trial.row() as u8, trial.column() as u8);
                assert_eq!(trial.locate(), Ok(cell));
                seen += 1;
            }
            trial.clocks(1);
        }
    }
    assert!(seen > 1_000, "{seen}");
}
