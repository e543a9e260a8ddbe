//! Every refusal in its own case, in its order, with both chips as before.

use second::{replay, Bench, Ending};

use crate::trial::{bit, Trial, SETTING_A};

/// A bench on which every part has been moved.
fn used() -> Trial {
    let mut trial = Trial::with(&SETTING_A);
    trial.set_all(&[(12, 3), (14, 5), (8, 0x30)]);
    trial.clocks(29);
    trial.strike();
    trial.clocks(3);
    trial.set_bit(bit::TY);
    trial.display_mode(1);
    trial.fetch(777);
    trial.hs(0, 1);
    trial
}

/// The refusal that a record's kind and fields call for, written out by hand.
fn called_for([kind, hi, lo, data]: [u8; 4]) -> u8 {
    let allowed = match kind {
        1 => hi == 0 && lo <= 1,
        2 | 5 => hi == 0 && lo <= 1 && data == 0,
        3 | 7 => data == 0,
        4 | 9 => hi == 0 && lo == 0 && data == 0,
        6 => data <= 1,
        8 => hi == 0 && lo <= 1 && data <= 1,
        _ => return 1,
    };
    if allowed {
        0
    } else {
        2
    }
}

#[test]
fn every_kind_with_every_sort_of_field_is_done_or_refused_rightly() {
    let used = used();
    let values = [0, 1, 2, 127, 128, 255];
    for kind in 0..=255 {
        for fields in 0..values.len().pow(3) {
            let record = [
                kind,
                values[fields / 36],
                values[fields / 6 % 6],
                values[fields % 6],
            ];
            let mut trial = used;
            let answer = trial.record(record);
            let refusal = called_for(record);
            assert_eq!(answer[0], kind);
            if refusal != 0 {
                assert_eq!(answer[1..], [refusal, 0, 0, 0, 0, 0, 0], "{record:?}");
                assert_eq!(trial.bench, used.bench, "{record:?}");
            } else if kind != 9 {
                assert_eq!(answer[1], 0, "{record:?}");
            }
        }
    }
}

#[test]
fn an_unknown_kind_is_refused_before_its_fields() {
    for kind in [0, 10, 11, 255] {
        assert_eq!(
            used().record([kind, 255, 255, 255]),
            [kind, 1, 0, 0, 0, 0, 0, 0]
        );
    }
}

#[test]
fn a_bad_field_of_locate_is_refused_before_the_missing_strike() {
    for record in [[9, 1, 0, 0], [9, 0, 1, 0], [9, 0, 0, 1]] {
        assert_eq!(Trial::fresh().record(record), [9, 2, 0, 0, 0, 0, 0, 0]);
    }
    assert_eq!(
        Trial::fresh().record([9, 0, 0, 0]),
        [9, 5, 0, 0, 0, 0, 0, 0]
    );
}

/// Locates with a refusal expected, and sees both chips unchanged.
fn refused(trial: &mut Trial, number: u8) {
    let before = trial.bench;
    assert_eq!(trial.record([9, 0, 0, 0]), [9, number, 0, 0, 0, 0, 0, 0]);
    assert_eq!(trial.bench, before);
}

#[test]
fn locate_refusals_5_to_8_leave_both_chips_as_before() {
    let mut trial = used();
    trial.reset_controller();
    refused(&mut trial, 5);
    trial.clocks(2);
    trial.strike();
    refused(&mut trial, 6);
    trial.reset_controller();
    trial.strike();
    trial.set(12, 9);
    refused(&mut trial, 7);
    trial.set_all(&[(12, 0), (0, 255), (1, 130), (4, 127), (6, 127)]);
    trial.reset_controller();
    trial.strike();
    refused(&mut trial, 8);
}

#[test]
fn the_replay_goes_on_after_each_refusal_of_a_record() {
    let batch = [
        [0, 0, 0, 0],
        [2, 0, 2, 0],
        [9, 0, 0, 0],
        [4, 0, 0, 0],
        [9, 0, 0, 0],
        [3, 0, 1, 0],
    ]
    .concat();
    let mut output = [0xEE; 48];
    let replayed = replay(Bench::fresh(), &batch, &mut output);
    assert_eq!(replayed.ending, Ending::BatchEmpty);
    assert_eq!((replayed.bytes_taken, replayed.answers_written), (24, 6));
    let numbers: Vec<u8> = output.chunks(8).map(|answer| answer[1]).collect();
    assert_eq!(numbers, [1, 2, 5, 0, 6, 0]);
}
