//! Builder (17, 18), diagnosis, and reading back what is built.

mod common;

use common::{table, words};
use model::rng::Rng;
use model::table::{self, slot, Format};
use model::telegram::{binary_to_gray, build, diagnose, gray_to_binary, read, Diagnosis};

#[test]
fn gray_is_the_parity_from_the_top() {
    let mut rng = Rng::new(7);
    for _ in 0..2_000 {
        let word = rng.draw() as u32;
        let plain = gray_to_binary(word);
        for bit in 0..32 {
            assert_eq!(plain >> bit & 1, (word >> bit).count_ones() & 1);
        }
        assert_eq!(binary_to_gray(plain), word);
    }
}

#[test]
fn builder_refuses_17_before_18() {
    let table = table(&[(3, 8)]);
    assert_eq!(build(&table, 255, false), Ok(255));
    assert_eq!(build(&table, 256, false), Err(17));
    assert_eq!(build(&table, 256, true), Err(17));
    assert_eq!(build(&table, 255, true), Err(18));
}

#[test]
fn builder_sets_the_error_bit() {
    for (level, plain, faulty) in [(1, 0x70, 0x8000_0070), (0, 0x8000_0070, 0x70)] {
        let table = table(&[(0, 32), (3, 12), (4, 5), (8, 32), (9, level)]);
        assert_eq!(build(&table, 7, false), Ok(plain));
        assert_eq!(build(&table, 7, true), Ok(faulty));
    }
}

#[test]
fn built_gray_field_stands_alone() {
    let table = table(&[(2, 0), (3, 12), (4, 5)]);
    assert_eq!(build(&table, 1, false), Ok(0x10));
    assert_eq!(build(&table, 2, false), Ok(0x30));
    assert_eq!(build(&table, 255, false), Ok(0x800));
}

#[test]
fn what_is_built_is_read_back() {
    let mut rng = Rng::new(11);
    for _ in 0..3_000 {
        let table = table::load(&random_field(&mut rng)).unwrap();
        let position = rng.ends(0, table.positions() - 1);
        let faulty = table.error_bit > 0 && rng.chance(50);
        let word = build(&table, position as u64, faulty).unwrap();
        let reading = read(&table, word).unwrap();
        assert_eq!((reading.position, reading.faulty), (position, faulty));
        let field = ((table.positions() - 1) as u32) << (table.low_bit - 1);
        let error_bit = if table.error_bit > 0 { 1 << (table.error_bit - 1) } else { 0 };
        assert_eq!(word & !field & !error_bit, 0);
    }
}

/// A table with a random field, format and error bit.
fn random_field(rng: &mut Rng) -> [i32; 104] {
    let resolution = rng.between(10, 32);
    let low = rng.between(1, resolution);
    let high = rng.between(low, resolution);
    let drawn = rng.between(1, resolution);
    let error_bit = if (low..=high).contains(&drawn) { 0 } else { drawn };
    words(&[
        (slot::RESOLUTION, resolution as i32),
        (slot::FORMAT, rng.between(0, 1) as i32),
        (slot::LOW_BIT, low as i32),
        (slot::HIGH_BIT, high as i32),
        (slot::ERROR_BIT, error_bit as i32),
        (slot::ERROR_LEVEL, rng.between(0, 1) as i32),
    ])
}

#[test]
fn diagnosis_splits_the_position() {
    let plain = table(&[(1, 10), (6, 1), (5, 77)]);
    assert_eq!(diagnose(&plain, 5 * 1024 + 3), Diagnosis { turns: 5, place: 3, note: 0 });
    assert_eq!(diagnose(&plain, 1 << 25), Diagnosis { turns: 0, place: 0, note: 11 });
    let gray = table(&[(1, 10), (2, 0)]);
    assert_eq!(gray.format, Format::Gray);
    let word = binary_to_gray(7 * 1024 + 1023);
    assert_eq!(diagnose(&gray, word), Diagnosis { turns: 7, place: 1023, note: 0 });
}

#[test]
fn diagnosis_takes_the_error_bit_as_0() {
    let table = table(&[(1, 10), (2, 0), (3, 24), (8, 25)]);
    let word = binary_to_gray(3 * 1024 + 9);
    assert_eq!(diagnose(&table, word), diagnose(&table, word | 1 << 24));
}

#[test]
fn turns_may_always_be_0() {
    let table = table(&[(1, 16), (3, 10)]);
    assert_eq!(diagnose(&table, 1023), Diagnosis { turns: 0, place: 1023, note: 0 });
}
