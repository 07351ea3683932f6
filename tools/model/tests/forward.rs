//! K14: digits never run back while the carriage moves on.

mod common;

use common::*;
use model::coverage::{observe, Coverage};
use model::differ::Counts;
use model::generate;
use model::measure::goes_forward;

/// Two points in a mode of linearization, (0, `left`) and (10, `right`), and some slots more.
fn line(mode: i32, left: i32, right: i32, slots: &[(usize, i32)]) -> model::table::Table {
    table(&[&[(13, mode), (57, left), (58, 10), (59, right)], slots].concat())
}

#[test]
fn each_condition_is_needed() {
    let falling = line(2, 10, 0, &[]);
    assert_eq!(results(&falling, &telegrams(&[0, 4, 10])), [10, 6, 0]);
    let circle = table(&[(7, 360)]);
    assert_eq!(results(&circle, &telegrams(&[359, 360])), [359, 0]);
    let reverse = table(&[(6, 1)]);
    assert_eq!(results(&reverse, &telegrams(&[1, 2])), [33_554_431, 33_554_430]);
    for table in [falling, circle, reverse] {
        assert!(!goes_forward(&table));
    }
    // A reset between two telegrams.
    let resetting = table(&[(49, 1)]);
    assert_eq!(results(&resetting, &[Telegram(1_000), Levels(1), Telegram(1_003)]), [1_000, 0, 3]);
}

#[test]
fn with_linearization_off_no_y_is_asked_for() {
    let off = line(0, 10, 0, &[(5, 2), (10, 150_000)]);
    assert!(goes_forward(&off));
    assert_eq!(results(&off, &telegrams(&[0, 1, 1, 2, 3])), [-3, -2, -2, 0, 2]);
}

#[test]
fn the_mirrored_half_rises_too() {
    let one = line(1, 0, 5, &[(5, 10)]);
    assert!(goes_forward(&one));
    assert_eq!(results(&one, &telegrams(&[0, 7, 10, 13, 30])), [-5, -2, 0, 2, 5]);
}

#[test]
fn a_level_part_stands_still() {
    let points = [(55, 4), (56, -10), (57, -5), (60, 10), (62, 20), (63, 5)];
    let four = table(&[&points[..], &[(5, 10), (13, 2)]].concat());
    assert!(goes_forward(&four));
    assert_eq!(results(&four, &telegrams(&[0, 5, 10, 20, 25, 40])), [-5, -3, 0, 0, 3, 5]);
}

#[test]
fn random_runs_never_run_back() {
    let mut seen = Coverage::default();
    for index in 0..3_000 {
        seen.add(&observe(&generate::case(14, index).input).1);
    }
    assert!(seen.moved_on.iter().all(|&moves| moves > 100), "{:?}", seen.moved_on);
    assert_eq!(seen.ran_back, 0);
    assert!(seen.ran_back_otherwise > 100, "{}", seen.ran_back_otherwise);
}
