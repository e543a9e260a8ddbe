//! Setups drawn by lot, through the writer and the reader and back again.

use second::{read_setup, Setup};

use crate::lots::{random_setting, Lots};
use crate::setting::ALL_ONES;
use crate::setup::{writing_is_refused, written};

/// A setup that has its bytes itself.
struct Drawn {
    registers: Option<[u8; 16]>,
    control: Option<[u8; 2]>,
    batch: Option<Vec<u8>>,
}

impl Drawn {
    /// One to three parts of any bytes that they may have.
    fn by(lots: &mut Lots) -> Self {
        let sum = 1 + lots.up_to(6);
        let mut registers = random_setting(lots);
        for (register, mask) in registers.iter_mut().zip(ALL_ONES) {
            *register &= mask;
        }
        let control = [lots.byte(), lots.byte()];
        let batch = (0..batch_length(lots)).map(|_| lots.byte()).collect();
        Drawn {
            registers: (sum & 1 != 0).then_some(registers),
            control: (sum & 2 != 0).then_some(control),
            batch: (sum & 4 != 0).then_some(batch),
        }
    }

    fn lent(&self) -> Setup<'_> {
        Setup {
            registers: self.registers.as_ref(),
            control: self.control.as_ref(),
            batch: self.batch.as_deref(),
        }
    }
}

/// Mostly short, at times any length, at times the longest.
fn batch_length(lots: &mut Lots) -> u64 {
    match lots.up_to(15) {
        0 => 4_096,
        1 => lots.next() % 4_097,
        _ => lots.next() % 40,
    }
}

#[test]
fn written_and_read_a_setup_comes_back() {
    let mut lots = Lots::new(61);
    for _ in 0..5_000 {
        let drawn = Drawn::by(&mut lots);
        let file = written(&drawn.lent());
        assert_eq!(read_setup(&file), Ok(drawn.lent()));
    }
}

#[test]
fn read_and_written_a_file_comes_back() {
    let mut lots = Lots::new(62);
    for _ in 0..2_000 {
        let file = written(&Drawn::by(&mut lots).lent());
        let setup = read_setup(&file).expect("it is taken");
        assert_eq!(written(&setup), file);
    }
}

#[test]
fn different_setups_have_different_files() {
    let mut lots = Lots::new(63);
    let drawn: Vec<Drawn> = (0..300).map(|_| Drawn::by(&mut lots)).collect();
    for one in &drawn {
        for other in &drawn {
            let same_file = written(&one.lent()) == written(&other.lent());
            assert_eq!(same_file, one.lent() == other.lent());
        }
    }
}

#[test]
fn any_room_below_the_file_is_too_little() {
    let mut lots = Lots::new(64);
    for _ in 0..1_000 {
        let drawn = Drawn::by(&mut lots);
        let length = written(&drawn.lent()).len();
        let less = lots.next() as usize % length;
        writing_is_refused(&drawn.lent(), length - 1, 17);
        writing_is_refused(&drawn.lent(), less, 17);
    }
}

#[test]
fn spoilt_files_that_are_still_taken_come_back() {
    let mut lots = Lots::new(65);
    let mut came_back = 0;
    for _ in 0..20_000 {
        let mut file = written(&Drawn::by(&mut lots).lent());
        for _ in 0..=lots.up_to(2) {
            let place = lots.next() as usize % file.len();
            file[place] = lots.byte();
        }
        if let Ok(setup) = read_setup(&file) {
            assert_eq!(written(&setup), file);
            came_back += 1;
        }
    }
    assert!(came_back > 1_000, "{came_back}");
}

#[test]
fn small_bytes_by_lot_that_are_taken_come_back() {
    let mut lots = Lots::new(66);
    let mut came_back = 0;
    for _ in 0..200_000 {
        // One entry with its offset, most often right, and up to four bytes more.
        let mut file = vec![1, lots.up_to(4), 0, 6 + lots.up_to(8) / 8, 0, lots.up_to(4)];
        file.extend((0..lots.up_to(4)).map(|_| lots.byte()));
        if let Ok(setup) = read_setup(&file) {
            assert_eq!(written(&setup), file);
            came_back += 1;
        }
    }
    // About 4 in 100 are due to be good files.
    assert!(came_back > 5_000, "{came_back}");
}
