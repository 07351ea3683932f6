//! Every item of "Places to check", and the tempting mistakes.

mod common;

use common::*;
use model::analog::{code, Drive};
use model::measure::{directed, distance, linearized, scaled};
use model::table;

#[test]
fn default_gray_telegrams() {
    let table = table::load(&table::defaults()).unwrap();
    assert_eq!(results(&table, &[Telegram(0x3), Telegram(0xD)]), [2, 9]);
    assert_eq!(last(&table, &[Telegram(0x100_0000)]).result, 33_554_431);
    assert_eq!(last(&table, &[Telegram(0x200_0000)]).note, 11);
}

#[test]
fn reverse_direction() {
    let table = table(&[(6, 1)]);
    assert_eq!(table.positions(), 1 << 25);
    assert_eq!(directed(&table, 1), 33_554_431);
    assert_eq!(directed(&table, 0), 0);
    assert_eq!(results(&table, &telegrams(&[1, 0])), [33_554_431, 0]);
}

#[test]
fn round_loop_below_the_offset() {
    let table = table(&[(5, 10), (7, 360)]);
    assert_eq!(distance(&table, 10, 5), 355);
    assert_eq!(last(&table, &[Telegram(5)]).result, 355);
}

#[test]
fn scaling_rounds_halves_away_from_zero() {
    let plain = table(&[(10, 150_000)]);
    assert_eq!([1, -1, 3].map(|d| scaled(&plain, d).value), [2, -2, 5]);
    let additive = table(&[(10, 150_000), (12, -2)]);
    assert_eq!(scaled(&additive, 1).value, 0);
}

/// (−100, −50), (0, 0), (200, 300)
const FOUR_QUADRANTS: [(usize, i32); 8] =
    [(13, 2), (55, 3), (56, -100), (57, -50), (58, 0), (59, 0), (60, 200), (61, 300)];

#[test]
fn four_quadrants() {
    let table = table(&FOUR_QUADRANTS);
    assert_eq!([3, -1, 201, -150].map(|v| linearized(&table, v).value), [5, -1, 300, -50]);
}

#[test]
fn one_quadrant_mirrors() {
    let table = table(&[(13, 1), (55, 3), (58, 10), (59, 5), (60, 20), (61, -7)]);
    let values = [0, 1, 9, 10, 15, 20, 21].map(|v| linearized(&table, v).value);
    assert_eq!(values, [0, 1, 5, 5, -1, -7, -7]);
    assert_eq!([-1, -9, -15, -30].map(|v| linearized(&table, v).value), [-1, -5, 1, 7]);
}

#[test]
fn limit_of_the_shown_value() {
    let table = table(&[(0, 32), (3, 32)]);
    let run = answers(&table, &telegrams(&[99_999_999, 100_000_000]));
    assert_eq!((run[0].result, run[0].error), (99_999_999, 0));
    assert_eq!((run[1].result, run[1].error, run[1].drive), (0, 1, Drive::Off));
}

#[test]
fn mode_3_with_hysteresis() {
    let table = table(&[(18, 3), (19, 10)]);
    let run = condition_1(&table, &telegrams(&[999, 1000, 990, 989]));
    assert_eq!(run, [false, true, true, false]);
}

#[test]
fn mode_5_around_the_preselection() {
    let table = table(&[(17, 100), (18, 5), (19, 5)]);
    let run = condition_1(&table, &telegrams(&[97, 98, 100, 102, 103]));
    assert_eq!(run, [false, true, true, true, false]);
}

#[test]
fn half_of_the_analog_span() {
    let volts = table(&[]);
    assert_eq!(code(&volts, 5_000).value, 16_384);
    assert_eq!(last(&volts, &[Telegram(5_000)]).drive, Drive::Volts(5.0));
    let milliamps = table(&[(14, 2)]);
    assert_eq!(code(&milliamps, 5_000).value, 32_768);
    assert_eq!(last(&milliamps, &[Telegram(5_000)]).drive, Drive::Milliamps(12.0));
}

#[test]
fn codes_are_held_to_their_limits() {
    let codes = |format, results: [i64; 4]| {
        let table = table(&[(14, format)]);
        results.map(|result| code(&table, result).value)
    };
    assert_eq!(codes(0, [-20_000, -10_000, 10_000, 20_000]), [-32_767, -32_767, 32_767, 32_767]);
    assert_eq!(codes(1, [-20_000, -1, 10_000, 20_000]), [0, 0, 65_535, 65_535]);
    let falling = table(&[(15, 10), (16, -10)]);
    assert_eq!([10, 0, -10, 11].map(|r| code(&falling, r).value), [0, 16_384, 32_767, -1_638]);
}

#[test]
fn upper_bits_flip_the_gray_field() {
    // Bits 5 to 12 of 16; bit 16 and bit 13 stand above the field.
    let gray = table(&[(2, 0), (0, 16), (3, 12), (4, 5)]);
    assert_eq!(last(&gray, &[Telegram(0x8000)]).result, 255);
    assert_eq!(last(&gray, &[Telegram(0x9000)]).result, 0);
    assert_eq!(last(&gray, &[Telegram(0x900F)]).result, 0);
    // The error bit is taken as 0 first.
    let error_bit = table(&[(2, 0), (0, 16), (3, 12), (4, 5), (8, 16), (9, 0)]);
    assert_eq!(last(&error_bit, &[Telegram(0x8000)]).result, 0);
    assert_eq!(last(&error_bit, &[Telegram(0x9000)]).result, 255);
}

#[test]
fn drive_is_off_under_error_and_before_the_first_telegram() {
    let table = table(&[(14, 2), (8, 25), (3, 24)]);
    let run = answers(&table, &[Levels(0), Telegram(1 << 24), Telegram(0)]);
    assert_eq!(run[0].drive, Drive::Off);
    assert_eq!((run[1].drive, run[1].error), (Drive::Off, 3));
    assert_eq!(run[2].drive, Drive::Milliamps(4.0));
}
