//! Random texts of console: what they meet, and that they are the same from the same seed.

use model::bursts;
use model::console;
use model::differ::{console_case, Counts};
use model::drives::Mistake;
use model::generate::sessions;
use model::tally::{self, Tally};

const SEED: u64 = 1;

#[test]
fn sessions_meet_every_name() {
    let mut met = Tally::default();
    (0..800).for_each(|index| met.add(&console_case(SEED, index).met));
    assert_eq!(met.missing(), Vec::<String>::new());
}

#[test]
fn sessions_meet_the_rare_names() {
    let mut met = Tally::default();
    (0..1_600).for_each(|index| met.add(&console_case(SEED, index).met));
    let unmet = |name: &String| met.of(name) == 0;
    assert_eq!(tally::rare().into_iter().filter(unmet).collect::<Vec<_>>(), Vec::<String>::new());
}

#[test]
fn long_bursts_are_rare() {
    let long = |line: &[u8]| bursts::telegrams(line).len() >= 1_000;
    let texts = (0..800).map(|index| sessions::text(SEED, index).0);
    let count = texts.filter(|text| console::lines(text).any(long)).count();
    assert!((5..=20).contains(&count), "{count}");
}

#[test]
fn ticks_bring_the_record_nothing_new() {
    let mut met = Tally::default();
    (0..400).for_each(|index| met.add(&console_case(SEED, index).met));
    assert!(met.of("record kept over a tick") > 200);
    assert_eq!(met.of(&Mistake::TickLeftOut.name()), 0);
}

#[test]
fn same_texts_from_the_same_seed() {
    let texts = |seed| (0..20).map(|index| sessions::text(seed, index).0).collect::<Vec<_>>();
    assert_eq!(texts(SEED), texts(SEED));
    assert_ne!(texts(SEED), texts(SEED + 1));
}

#[test]
fn most_writes_are_carried_out() {
    let mut met = Tally::default();
    (0..200).for_each(|index| met.add(&console_case(SEED, index).met));
    let refused: u64 =
        (2..=9).map(|n| met.of(&format!("exception 3: write refused by load check {n}"))).sum();
    assert!(met.of("write carried out") > refused);
}

#[test]
fn recorded_sessions_meet_every_name() {
    let recording = model::sessions::recording(SEED, 60);
    let (output, met) = tally::observe(&recording.input);
    assert_eq!(output, recording.output);
    assert_eq!(met.missing(), Vec::<String>::new());
    assert!(recording.input.len() < 60_000);
}
