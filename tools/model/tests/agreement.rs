//! The 64-bit panel against the exact reference, and the generator against its purposes.

use model::analog::Drive;
use model::bench;
use model::coverage::{observe, Coverage};
use model::differ::Counts;
use model::fast::{self, Panel};
use model::generate::{self, theme};
use model::log;
use model::panel::{self, Answer, Halves};
use model::panelrun::{self, TABLE_BYTES};
use model::{print, record};

const CASES: u64 = 1_500;

#[test]
fn printed_text_is_the_same() {
    for index in 0..CASES {
        let input = generate::case(3, index).input;
        let mut printed = Vec::new();
        print::print(&input[..], &mut printed).unwrap();
        assert_eq!(String::from_utf8(printed).unwrap(), panelrun::run(&input), "case {index}");
    }
}

#[test]
fn answers_and_extremes_are_the_same() {
    for index in 0..CASES {
        let input = generate::case(4, index).input;
        let Ok(table) = panelrun::load(&input) else {
            continue;
        };
        let mut fast = Panel::new(&table);
        let mut state = panel::fresh(&table);
        for event in log::read(&input[TABLE_BYTES..]).events {
            let (after, answer) = panel::step(&table, &state, event);
            assert_eq!(fast.step(event), answer, "case {index}");
            assert_eq!(fast.extremes, after.extremes, "case {index}");
            assert_eq!(fast.offset(), after.offset, "case {index}");
            assert_eq!(bits(&fast.record), panel::record(&table, &after), "case {index}");
            state = after;
        }
    }
}

/// K6: a record by the bits of its floats.
fn bits(record: &fast::Record) -> panel::Record {
    let fast::Record { present, lowest, highest, empty } = *record;
    let [present, lowest, highest] = [present, lowest, highest].map(f32::to_bits);
    panel::Record { present, lowest, highest, empty }
}

/// The sum of the reference over the events of an input, some rounds of them; each ends with the record.
fn reference_sum(input: &[u8], rounds: u64) -> u64 {
    let table = panelrun::load(input).unwrap();
    let events = log::read(&input[TABLE_BYTES..]).events;
    let mut state = panel::fresh(&table);
    let mut sum = 0u64;
    let mut add = |parts: &[(u64, u64)]| {
        sum = parts.iter().fold(sum, |sum, (times, part)| sum.wrapping_add(times * part));
    };
    for _ in 0..rounds {
        for &event in &events {
            let (after, answer) = panel::step(&table, &state, event);
            add(&answer_parts(&answer));
            state = after;
        }
        let record = panel::record(&table, &state);
        let floats = [record.present, record.lowest, record.highest];
        add(&floats.map(|float| (19, float.into())));
        add(&[(23, record.empty.into())]);
    }
    sum
}

/// What an answer adds to the sum, each number with how often it counts.
fn answer_parts(answer: &Answer) -> [(u64, u64); 7] {
    let drive = match answer.drive {
        Drive::Off => 1,
        Drive::Volts(volts) => 2 + u64::from(volts > 5.0),
        Drive::Milliamps(milliamps) => 4 + u64::from(milliamps > 12.0),
    };
    let Halves { scaling, linearization, analog } = answer.halves;
    let number =
        |marks: &[bool]| marks.iter().rev().fold(0, |number, &mark| 2 * number + u64::from(mark));
    [
        (1, (answer.result + (1 << 31)) as u64),
        (3, (answer.shown + (1 << 31)) as u64),
        (5, answer.error.into()),
        (7, number(&answer.outputs)),
        (11, drive),
        (13, answer.note.into()),
        (17, number(&[scaling, linearization, analog])),
    ]
}

#[test]
fn timed_sums_are_the_same() {
    for kind in bench::KINDS {
        let input = bench::input(kind, 400);
        assert_eq!(bench::sum(&input, 3), reference_sum(&input, 3), "{kind}");
    }
    // With errors and clears under them, and the records they leave empty.
    for index in (0..CASES).filter(|&index| panelrun::load(&generate::case(6, index).input).is_ok())
    {
        let input = generate::case(6, index).input;
        assert_eq!(bench::sum(&input, 2), reference_sum(&input, 2), "case {index}");
    }
}

#[test]
fn long_log_is_printed_in_chunks() {
    let mut input = generate::case(1, 2).input;
    let tick = 5_u32.to_le_bytes();
    for _ in 0..40_000 {
        input.extend(tick);
    }
    let mut printed = Vec::new();
    print::print(&input[..], &mut printed).unwrap();
    assert_eq!(String::from_utf8(printed).unwrap(), panelrun::run(&input));
}

#[test]
fn random_cases_meet_every_number() {
    let mut seen = Coverage::default();
    for index in 0..CASES {
        seen.add(&observe(&generate::case(1, index).input).1);
    }
    for number in (1..=16).filter(|&number| number != 10) {
        assert!(seen.numbers[number] > 5, "number {number}");
    }
    assert!(seen.errors.iter().all(|&count| count > 100));
    assert!(seen.actions.iter().all(|&count| count > 100));
    assert!(seen.turned_on.iter().all(|&count| count > 100));
    assert!(seen.loaded * 10 > seen.runs * 7);
}

#[test]
fn every_theme_is_recorded() {
    let themes = theme::all().len() as u64;
    let recording = record::recording(1, themes, 0);
    assert!(!recording.output.contains("anything"));
    assert!(recording.input.len() < 2_000 * themes as usize);
}

#[test]
fn recording_is_the_same_each_time() {
    let (first, second) = (record::recording(5, 20, 20), record::recording(5, 20, 20));
    assert_eq!(first.input, second.input);
    assert_eq!(first.output, second.output);
}
