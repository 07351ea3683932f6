//! Load checks 1 to 9, their order and their slots.

mod common;

use common::words;
use model::table::{self, row, LoadRefusal};

/// Number and slot; (0, 0) when the table loads.
fn load(slots: &[(usize, i32)]) -> (u8, usize) {
    match table::load(&words(slots)) {
        Ok(_) => (0, 0),
        Err(LoadRefusal { number, slot }) => (number, slot),
    }
}

#[test]
fn defaults_load() {
    assert!(table::load(&table::defaults()).is_ok());
    for k in 0..4 {
        let number = k as i32 + 1;
        let first = 17 + 8 * k;
        assert_eq!(table::defaults()[first..first + 8], [1_000 * number, 0, 2, 0, number, 0, 0, 0]);
    }
}

/// K1: stored tables keep what they hold.
#[test]
fn stored_hysteresis_is_kept() {
    for h in [0, 1, 2, 9_999] {
        let stored = words(&[(19, h), (27, h), (35, h), (43, h)]);
        let kept = table::load(&stored).unwrap().preselections.map(|p| p.hysteresis);
        assert_eq!(kept, [h.into(); 4]);
    }
}

#[test]
fn other_lengths_are_1() {
    for length in [0, 1, 103, 105] {
        let words = vec![0; length];
        assert_eq!(table::load(&words), Err(LoadRefusal { number: 1, slot: 0 }));
    }
}

#[test]
fn every_slot_has_its_range() {
    for slot in 0..104 {
        let row = row(slot);
        assert_eq!(load(&[(slot, row.low - 1)]), (2, slot));
        assert_eq!(load(&[(slot, row.high + 1)]), (2, slot));
        assert_ne!(load(&[(slot, row.low)]).0, 2);
        assert_ne!(load(&[(slot, row.high)]).0, 2);
    }
}

#[test]
fn lowest_slot_is_named() {
    assert_eq!(load(&[(103, 100_000_000), (40, 7), (60, i32::MIN)]), (2, 40));
}

#[test]
fn field_and_error_bit() {
    assert_eq!(load(&[(3, 5), (4, 6)]), (3, 0));
    assert_eq!(load(&[(3, 26)]), (3, 0));
    assert_eq!(load(&[(3, 5), (4, 5)]), (0, 0));
    assert_eq!(load(&[(8, 26)]), (4, 0));
    assert_eq!(load(&[(8, 25)]), (4, 0));
    assert_eq!(load(&[(3, 20), (4, 10), (8, 10)]), (4, 0));
    assert_eq!(load(&[(3, 20), (4, 10), (8, 20)]), (4, 0));
    assert_eq!(load(&[(3, 20), (4, 10), (8, 9)]), (0, 0));
    assert_eq!(load(&[(3, 20), (4, 10), (8, 21)]), (0, 0));
}

#[test]
fn analog_span_and_points() {
    assert_eq!(load(&[(15, 10_000)]), (5, 0));
    assert_eq!(load(&[(13, 2)]), (6, 0));
    assert_eq!(load(&[(13, 2), (58, 1)]), (0, 0));
    assert_eq!(load(&[(13, 2), (58, 1), (60, -5)]), (0, 0));
    assert_eq!(load(&[(13, 2), (55, 3), (58, 1), (60, -5)]), (6, 0));
    assert_eq!(load(&[(13, 1), (58, 1)]), (0, 0));
    assert_eq!(load(&[(13, 1), (58, 1), (57, 1)]), (7, 0));
    assert_eq!(load(&[(13, 1), (58, 1), (56, -1)]), (7, 0));
    assert_eq!(load(&[(13, 2), (58, 1), (56, -1)]), (0, 0));
}

#[test]
fn freeze_and_polarities() {
    for (config, number) in [(0, 0), (1, 0), (2, 8), (3, 8)] {
        assert_eq!(load(&[(53, 2), (54, config)]), (number, 0));
    }
    assert_eq!(load(&[(29, 1), (30, 1)]), (9, 0));
    assert_eq!(load(&[(29, 1), (30, 1), (22, 1)]), (0, 0));
    assert_eq!(load(&[(29, 0), (30, 1), (21, 0)]), (0, 0));
}

#[test]
fn checks_go_in_order() {
    let faults: [&[(usize, i32)]; 8] = [
        &[(29, 1), (30, 1)],
        &[(53, 2), (54, 3)],
        &[(13, 1), (57, 1)],
        &[(58, 0)],
        &[(15, 10_000)],
        &[(8, 25)],
        &[(3, 26)],
        &[(103, -100_000_000)],
    ];
    let expected = [9, 8, 6, 6, 5, 4, 3, 2];
    let mut slots = Vec::new();
    for (fault, number) in faults.iter().zip(expected) {
        slots.extend_from_slice(fault);
        assert_eq!(load(&slots).0, number);
    }
}
