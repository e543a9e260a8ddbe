//! The display counter in all its modes, HS edges, and refresh.

use crate::trial::{bit, Edge, Trial};

/// X, Y and the top bit cleared, by V2 V1 V0; 0 where no bit is cleared.
const MODES: [(u32, u32, u32); 8] = [
    (1, 12, 4),
    (3, 1, 3),
    (1, 3, 4),
    (2, 1, 3),
    (1, 2, 4),
    (1, 1, 3),
    (1, 1, 4),
    (1, 1, 0),
];

fn in_mode(mode: u16) -> Trial {
    let mut trial = Trial::fresh();
    trial.display_mode(mode);
    trial
}

/// The address after so many fetches from a fresh start, by division.
fn address_after(fetches: u32, mode: u16) -> u16 {
    let (x, y, _) = MODES[usize::from(mode)];
    let b4_flips = fetches / 16 / x;
    let upper = b4_flips / 2 / y;
    ((upper % 2048) * 32 + (b4_flips % 2) * 16 + fetches % 16) as u16
}

#[test]
fn every_mode_counts_by_its_two_dividers() {
    for mode in 0..8 {
        let mut trial = in_mode(mode);
        for fetches in 1..=3_000 {
            assert_eq!(
                trial.fetched(1),
                address_after(fetches, mode),
                "mode {mode}"
            );
        }
    }
}

#[test]
fn every_mode_wraps_its_upper_bits() {
    for mode in 0..8 {
        let mut trial = in_mode(mode);
        let (x, y, _) = MODES[usize::from(mode)];
        let around = 65_536 * x * y;
        let mut fetches = 0;
        while fetches < around + 100_000 {
            fetches += 40_009;
            assert_eq!(
                trial.fetched(40_009),
                address_after(fetches, mode),
                "mode {mode}"
            );
        }
    }
}

#[test]
fn a_record_of_65535_fetches_reaches_the_address_reckoned_by_hand() {
    // B3 falls 4,095 times, and a last time with the fetch after.
    let reached = [
        (170 * 32 + 31, 170 * 32),
        (682 * 32 + 31, 682 * 32 + 16),
        (682 * 32 + 31, 682 * 32),
        (1_023 * 32 + 31, 1_024 * 32),
        (1_023 * 32 + 31, 1_024 * 32),
        (65_535, 0),
        (65_535, 0),
        (65_535, 0),
    ];
    for (mode, (longest, one_more)) in (0..8).zip(reached) {
        let mut trial = in_mode(mode);
        assert_eq!(trial.fetched(65_535), longest, "mode {mode}");
        assert_eq!(trial.fetched(1), one_more, "mode {mode}");
    }
    assert_eq!(in_mode(0).fetch(65_535), [0x15, 0x5F, 1, 31, 21, 1]);
    assert_eq!(in_mode(7).fetch(65_535), [0xFF, 0xFF, 1, 63, 63, 1]);
}

#[test]
fn a_record_of_65535_fetches_is_one_of_65534_and_one_fetch() {
    for mode in 0..8 {
        let mut at_once = in_mode(mode);
        let mut in_two = at_once;
        let seen = at_once.fetch(65_535);
        in_two.fetch(65_534);
        assert_ne!(in_two.bench, at_once.bench, "mode {mode}");
        assert_eq!(in_two.fetch(1), seen, "mode {mode}");
        assert_eq!(in_two.bench, at_once.bench, "mode {mode}");
    }
}

#[test]
fn mode_001_divides_by_3_between_b3_and_b4() {
    let mut trial = in_mode(1);
    assert_eq!(trial.fetched(16), 0);
    assert_eq!(trial.fetched(16), 0);
    assert_eq!(trial.fetched(16), 16);
    assert_eq!(trial.fetched(47), 31);
    assert_eq!(trial.fetched(1), 32);
    assert_eq!(trial.fetched(96), 64);
}

#[test]
fn mode_000_divides_by_12_between_b4_and_b5() {
    let mut trial = in_mode(0);
    assert_eq!(trial.fetched(32 * 12 - 1), 31);
    assert_eq!(trial.fetched(1), 32);
}

#[test]
fn no_fetches_leave_the_counter_where_it_is() {
    let mut trial = in_mode(7);
    assert_eq!(trial.fetched(1_234), 1_234);
    let before = trial.bench;
    assert_eq!(trial.fetched(0), 1_234);
    assert_eq!(trial.bench, before);
}

#[test]
fn the_edges_are_told_apart() {
    let mut trial = Trial::fresh();
    assert_eq!(trial.hs(1, 0).edge, 0);
    assert_eq!(trial.hs(1, 1).edge, 0);
    assert_eq!(trial.hs(0, 1).edge, 1);
    assert_eq!(trial.hs(0, 0).edge, 0);
    assert_eq!(trial.hs(0, 1).edge, 0);
    assert_eq!(trial.hs(1, 0).edge, 2);
    assert_eq!(trial.hs(0, 0).edge, 1);
    assert_eq!(trial.hs(1, 1).edge, 3);
}

#[test]
fn a_fall_clears_up_to_b4_and_only_b4_counts_onward() {
    for (mode, y) in [(0, 12), (2, 3), (4, 2), (6, 1)] {
        let mut trial = in_mode(mode);
        // B1 to B3 set and B4 clear: nothing is counted, not even in X.
        assert_eq!(trial.fetched(15), 15);
        trial.hs_pulse();
        assert_eq!(trial.fetched(0), 0, "mode {mode}");
        // B4 set: each fall of HS is one count in Y.
        for count in 1..=y {
            assert_eq!(trial.fetched(31) % 32, 31, "mode {mode}");
            trial.hs_pulse();
            assert_eq!(
                trial.fetched(0),
                if count == y { 32 } else { 0 },
                "mode {mode}"
            );
        }
    }
}

#[test]
fn a_fall_clears_up_to_b3_and_only_b3_counts_onward() {
    for (mode, x) in [(1, 3), (3, 2), (5, 1)] {
        let mut trial = in_mode(mode);
        assert_eq!(trial.fetched(7), 7);
        trial.hs_pulse();
        assert_eq!(trial.fetched(0), 0, "mode {mode}");
        // B3 set: each fall of HS is one count in X.
        for count in 1..=2 * x {
            trial.fetched(15);
            trial.hs_pulse();
            let expected = [0, 16, 32][count / x];
            assert_eq!(trial.fetched(0), expected, "mode {mode}, count {count}");
        }
    }
}

#[test]
fn a_fall_in_mode_111_clears_nothing() {
    let mut trial = in_mode(7);
    assert_eq!(trial.fetched(0x7FFF), 0x7FFF);
    assert_eq!(trial.hs(0, 1).edge, 1);
    assert_eq!(trial.fetched(0), 0x7FFF);
}

#[test]
fn a_rise_without_da0_moves_nothing_but_b0() {
    let mut trial = in_mode(6);
    trial.set_bit(bit::F0);
    trial.hs(0, 0);
    assert_eq!(trial.fetched(0x5DFF), 0x5DFF);
    assert_eq!(trial.hs(1, 0).edge, 2);
    assert_eq!(trial.fetched(0), 0x5DFE);
}

#[test]
fn b0_follows_da0_at_every_kind_8_without_a_count() {
    let mut trial = in_mode(7);
    assert_eq!(trial.fetched(31), 31);
    assert_eq!(trial.hs(1, 0).edge, 0);
    assert_eq!(trial.fetched(0), 30);
    assert_eq!(trial.hs(1, 1).edge, 0);
    assert_eq!(trial.fetched(0), 31);
    assert_eq!(trial.fetched(1), 32);
    // A fall and a plain rise set it too.
    trial.hs(0, 1);
    assert_eq!(trial.fetched(0), 33);
    trial.hs(1, 0);
    assert_eq!(trial.fetched(0), 32);
}

#[test]
fn a_rise_with_da0_puts_each_f_bit_in_its_place() {
    for place in 0..7 {
        let mut trial = in_mode(7);
        trial.fetch(0xFFFF);
        trial.set_bit(bit::F0 + place);
        trial.hs(0, 1);
        assert_eq!(trial.hs(1, 1).edge, 3);
        assert_eq!(trial.fetched(0), (0x0200 << place) | 1, "F{place}");
    }
}

#[test]
fn a_preload_clears_both_dividers() {
    let mut trial = in_mode(0);
    trial.fetch(32 * 5);
    trial.hs(0, 1);
    trial.hs(1, 1);
    assert_eq!(trial.fetched(0), 1);
    assert_eq!(trial.fetched(32 * 12 - 2), 31);
    assert_eq!(trial.fetched(1), 32);

    let mut trial = in_mode(1);
    trial.fetch(16 * 2);
    trial.hs(0, 1);
    trial.hs(1, 1);
    assert_eq!(trial.fetched(16 * 3 - 2), 15);
    assert_eq!(trial.fetched(1), 16);
}

#[test]
fn a_held_level_with_da0_does_not_preload() {
    let mut trial = in_mode(7);
    trial.fetch(0x0300);
    trial.hs(1, 1);
    assert_eq!(trial.fetched(0), 0x0301);
}

#[test]
fn a_divider_past_its_new_limit_carries_at_its_next_count() {
    let mut trial = in_mode(0);
    assert_eq!(trial.fetched(32 * 5), 0);
    trial.display_mode(2);
    assert_eq!(trial.fetched(31), 31);
    assert_eq!(trial.fetched(1), 32);
    // It has begun again: three more are needed.
    assert_eq!(trial.fetched(64), 32);
    assert_eq!(trial.fetched(32), 64);
}

#[test]
fn a_divider_at_its_new_limit_carries_at_its_next_count() {
    let mut trial = in_mode(1);
    assert_eq!(trial.fetched(32), 0);
    trial.display_mode(3);
    assert_eq!(trial.fetched(15), 15);
    assert_eq!(trial.fetched(1), 16);
    assert_eq!(trial.fetched(16), 16);
    assert_eq!(trial.fetched(16), 32);
}

#[test]
fn a_divider_below_its_new_limit_counts_on_from_where_it_was() {
    let mut trial = in_mode(4);
    assert_eq!(trial.fetched(32), 0);
    trial.display_mode(2);
    assert_eq!(trial.fetched(32), 0);
    assert_eq!(trial.fetched(32), 32);
}

#[test]
fn sixteen_falls_refresh_all_128_rows_from_wherever_they_begin() {
    for falls_before in 0..16 {
        let mut trial = Trial::fresh();
        (0..falls_before).for_each(|_| trial.hs_pulse());
        let mut visits = [0; 128];
        for _ in 0..16 {
            let Edge { edge, first, count } = trial.hs(0, 0);
            assert_eq!((edge, count), (1, 8));
            for row in first..first + count {
                visits[usize::from(row)] += 1;
            }
            assert_eq!(trial.hs(1, 0), Edge::idle(2));
        }
        assert_eq!(visits, [1; 128]);
    }
}

#[test]
fn refresh_begins_at_0_moves_by_8_and_wraps() {
    let mut trial = Trial::fresh();
    for fall in 0..20u8 {
        let expected = Edge::refreshing(1, (fall % 16) * 8, 8);
        assert_eq!(trial.hs(0, 1), expected);
        assert_eq!(trial.hs(0, 0), Edge::idle(0));
        assert_eq!(trial.hs(1, 1), Edge::idle(3));
    }
}

#[test]
fn with_r1_set_there_is_no_access_and_no_refresh_but_all_counting() {
    let mut trial = in_mode(6);
    trial.hs_pulse();
    trial.set_bit(bit::R1);
    assert_eq!(trial.fetch(0x1234), [0x12, 0x34, 1, 0x34, 0x08, 0]);
    assert_eq!(trial.hs(0, 0), Edge::idle(1));
    assert_eq!(trial.fetched(0), 0x1240);
    trial.hs(1, 0);
    trial.clear_bit(bit::R1);
    assert_eq!(trial.fetch(0), [0x12, 0x40, 1, 0x00, 0x09, 1]);
    assert_eq!(trial.hs(0, 0), Edge::refreshing(1, 8, 8));
}

#[test]
fn r0_alone_does_not_stop_access_or_refresh() {
    let mut trial = in_mode(6);
    trial.set_bit(bit::R0);
    assert_eq!(trial.fetch(1)[5], 1);
    assert_eq!(trial.hs(0, 0), Edge::refreshing(1, 0, 8));
}

#[test]
fn reset_makes_the_multiplexer_fresh_with_hs_high() {
    let mut trial = in_mode(1);
    trial.set_bit(bit::R1);
    trial.clear_bit(bit::R1);
    trial.fetch(40);
    trial.hs(0, 1);
    trial.reset_multiplexer();
    assert_eq!(trial.bench, Trial::fresh().bench);
    assert_eq!(trial.hs(0, 0), Edge::refreshing(1, 0, 8));
}
