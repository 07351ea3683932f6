//! The log of panelrun: kinds, refusals 14 to 16, and what is printed around them.

mod common;

use common::words;
use model::log;
use model::panel::Event;
use model::panelrun::{input_of, run, HEADER};

const UPPER: u32 = 2 << 30;
const LOWER: u32 = 3 << 30;
const LEVELS: u32 = 1 << 30;

/// The last line of a run of log words and bytes left over.
fn end(log: &[u32], left_over: &[u8]) -> String {
    let mut input = input_of(&words(&[]), log);
    input.extend(left_over);
    run(&input).lines().last().unwrap().to_string()
}

#[test]
fn empty_log() {
    assert_eq!(run(&input_of(&words(&[]), &[])), format!("{HEADER}end 0\n"));
}

#[test]
fn short_tables() {
    let whole = input_of(&words(&[]), &[]);
    for length in [0, 1, 4, 412, 415] {
        assert_eq!(run(&whole[..length]), "load 1 0\n");
    }
}

#[test]
fn refused_table_prints_its_line_alone() {
    assert_eq!(run(&input_of(&words(&[(17, 100_000_000)]), &[0, LOWER])), "load 2 17\n");
    assert_eq!(run(&input_of(&words(&[(3, 1), (4, 2)]), &[u32::MAX])), "load 3 0\n");
}

#[test]
fn reserved_bits_are_14() {
    for bit in 16..30 {
        for kind in [0, UPPER, LOWER] {
            assert_eq!(end(&[kind | 1 << bit], &[]), "end 14");
        }
        assert_eq!(end(&[UPPER, LOWER | 1 << bit], &[]), "end 14");
        assert_eq!(end(&[UPPER, UPPER | 1 << bit], &[]), "end 14");
    }
    for bit in 3..30 {
        assert_eq!(end(&[LEVELS | 1 << bit], &[]), "end 14");
        assert_eq!(end(&[UPPER, LEVELS | 1 << bit], &[]), "end 14");
    }
}

#[test]
fn halves_out_of_order_are_15() {
    for log in [&[LOWER][..], &[UPPER], &[UPPER, UPPER], &[UPPER, 0], &[UPPER, LEVELS]] {
        assert_eq!(end(log, &[]), "end 15");
    }
    assert_eq!(end(&[UPPER, LOWER, LOWER], &[]), "end 15");
    assert_eq!(end(&[UPPER, LOWER], &[]), "end 0");
}

#[test]
fn bytes_left_over_are_16() {
    for bytes in [&[0][..], &[0, 0], &[255, 255, 255]] {
        assert_eq!(end(&[], bytes), "end 16");
        assert_eq!(end(&[UPPER], bytes), "end 16");
        assert_eq!(end(&[UPPER, LOWER], bytes), "end 16");
        assert_eq!(end(&[LOWER], bytes), "end 15");
        assert_eq!(end(&[1 << 29], bytes), "end 14");
    }
}

#[test]
fn lines_before_a_refusal_are_printed() {
    let text = run(&input_of(&words(&[]), &[7, LEVELS | 5, UPPER | 0x8000, LOWER, UPPER, 1]));
    let expected = "1 C 0 0 0 0000 off 0\n2 I 0 0 0 0000 off 0\n3 T 0 0 0 0000 off 11\nend 15\n";
    assert_eq!(text, format!("{HEADER}{expected}"));
}

#[test]
fn written_events_are_read_back() {
    let events = [Event::Tick(65_535), Event::Levels(7), Event::Telegram(0x8001_FFFE)];
    let mut words = Vec::new();
    events.iter().for_each(|&event| log::write(&mut words, event));
    assert_eq!(words, [0xFFFF, LEVELS | 7, UPPER | 0x8001, LOWER | 0xFFFE]);
    let bytes: Vec<u8> = words.iter().flat_map(|word| word.to_le_bytes()).collect();
    assert_eq!(log::read(&bytes), log::Log { events: events.to_vec(), end: 0 });
}
