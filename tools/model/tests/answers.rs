//! The recorded answers: what they cover, and what must hold among them.

mod common;

use common::{state_after, table, words, Levels, Telegram, Tick};
use model::answers::{case, Case};
use model::generate::moment::{self, Moment};
use model::log;
use model::panel::{Event, Extremes, State};
use model::panelrun;
use model::table::{self, Format, Table};

const CASES: u64 = 200;

/// The recorded cases with their tables.
fn cases() -> Vec<(Case, Table)> {
    let load = |case: Case| {
        let table = table::load(&case.table).unwrap();
        (case, table)
    };
    (0..CASES).map(|index| case(1, index)).map(load).collect()
}

/// The answers to all questions, with their tables.
fn answers() -> Vec<([u32; 11], Table)> {
    let of =
        |(case, table): (Case, Table)| case.questions.map(|q| (q.words(&table), table.clone()));
    cases().into_iter().flat_map(of).collect()
}

#[test]
fn every_layout_is_recorded() {
    let tables: Vec<Table> = cases().into_iter().map(|(_, table)| table).collect();
    let some = |wanted: &dyn Fn(&Table) -> bool| assert!(tables.iter().any(wanted));
    for resolution in 10..=32 {
        some(&|t| t.resolution == resolution && t.format == Format::Gray);
        some(&|t| t.resolution == resolution && t.format == Format::Binary);
    }
    for level in [false, true] {
        some(&|t| t.error_level == level && t.error_bit > t.high_bit);
        some(&|t| t.error_level == level && t.error_bit > 0 && t.error_bit < t.low_bit);
    }
    for format in [Format::Gray, Format::Binary] {
        some(&|t| t.format == format && t.field_width() == 1);
        some(&|t| t.format == format && t.field_width() == 32);
        some(&|t| t.format == format && t.high_bit < t.resolution && t.error_bit == 0);
    }
    (10..=16).for_each(|bits| some(&|t| t.bits_per_turn == bits));
}

#[test]
fn every_refusal_is_recorded() {
    let answers = answers();
    let count = |wanted: &dyn Fn(&[u32; 11], &Table) -> bool| {
        answers.iter().filter(|(words, table)| wanted(words, table)).count()
    };
    assert!(count(&|words, _| words[2] == 17) > 100);
    assert!(count(&|words, _| words[2] == 18) > 50);
    assert!(count(&|words, table| words[2] == 17 && words[1] == 1 && table.error_bit == 0) > 20);
    assert!(count(&|words, _| words[2] == 0 && words[1] == 1) > 50);
    assert!(count(&|words, _| words[5] == 11) > 50);
    assert!(count(&|words, _| words[7] == 1) > 50);
    assert!(count(&|words, _| words[9] > 0 && words[10] > 0) > 50);
}

#[test]
fn positions_stand_at_the_ends() {
    for (case, table) in cases() {
        let last = table.positions() - 1;
        let positions = case.questions.map(|question| i64::from(question.position));
        assert_eq!(positions[..2], [0, last]);
        let above = if last == i64::from(u32::MAX) { last } else { last + 1 };
        assert_eq!(positions[2], above);
        assert!(positions[3] >= above && positions[4] <= last);
    }
}

#[test]
fn answers_agree_with_each_other() {
    for (words, table) in answers() {
        let [position, asked, refusal, built, telegram, note, p, error, refused, turns, place] =
            words;
        assert_eq!(note, refused);
        assert_eq!(p, (turns << table.bits_per_turn) + place);
        if refusal == 0 {
            assert_eq!((telegram, note, p, error), (built, 0, position, asked));
        } else {
            assert_eq!(built, 0);
        }
    }
}

#[test]
fn a_case_is_its_run_its_answers_and_its_extremes() {
    for (case, _) in cases() {
        let run = panelrun::input_of(&case.table, &case.log);
        assert_eq!(last_state(&run).extremes, case.extremes);
        let (input, output) = case.text("a name");
        let answers = output.strip_prefix(&format!("== a name\n{}", panelrun::run(&run))).unwrap();
        assert_eq!(answers.lines().count(), 16);
        assert_eq!(input.lines().filter(|line| line.starts_with("read ")).count(), 5);
        let tail = match case.extremes {
            None => "extremes 0 0 0".to_string(),
            Some(Extremes { least, greatest }) => format!("extremes 1 {least} {greatest}"),
        };
        assert_eq!(answers.lines().last().unwrap(), tail);
    }
}

/// The state after an input.
fn last_state(input: &[u8]) -> State {
    let mut last = None;
    panelrun::run_with(input, |step| last = Some(*step.after));
    last.unwrap()
}

#[test]
fn every_moment_is_recorded() {
    let cases = cases();
    for moment in moment::ALL {
        assert!(cases.iter().filter(|(case, _)| case.moment == moment).count() > 10);
    }
    let none = cases.iter().filter(|(case, _)| case.extremes.is_none()).count();
    assert!(none > 30 && none < 100);
}

/// The moments that the last of some events is.
fn last_moments(slots: &[(usize, i32)], events: &[Event]) -> Vec<Moment> {
    let mut log = Vec::new();
    events.iter().for_each(|&event| log::write(&mut log, event));
    let mut met = Vec::new();
    panelrun::run_with(&panelrun::input_of(&words(slots), &log), |step| {
        met = moment::ALL.into_iter().filter(|moment| moment.met(&step)).collect();
    });
    met
}

#[test]
fn moments_are_told_apart() {
    let clear_and_reset = [(0, 26), (8, 26), (49, 4), (51, 1)];
    let seen = |events: &[Event]| last_moments(&clear_and_reset, events);
    let failed = Telegram(1 << 25 | 9);
    assert_eq!(seen(&[Levels(1)]), [Moment::ClearBeforeTelegram]);
    assert_eq!(seen(&[failed]), [Moment::ErrorBeforeAny]);
    assert_eq!(seen(&[Telegram(5)]), [Moment::First]);
    assert_eq!(seen(&[Telegram(5), Telegram(4)]), [Moment::Lower]);
    assert_eq!(seen(&[Telegram(5), Telegram(6)]), [Moment::Higher]);
    assert_eq!(seen(&[Telegram(5), Telegram(7), Telegram(6)]), [Moment::Between]);
    assert_eq!(seen(&[Telegram(5), Telegram(1 << 26)]), [Moment::Refused]);
    assert_eq!(seen(&[Telegram(5), failed]), [Moment::ErrorLeftOut]);
    assert_eq!(seen(&[Telegram(0), failed]), []);
    assert_eq!(seen(&[Telegram(5), Levels(2)]), [Moment::Reset]);
    assert_eq!(seen(&[Telegram(5), failed, Levels(2)]), [Moment::ResetRefused]);
    assert_eq!(seen(&[Telegram(5), Telegram(6), Levels(1)]), [Moment::Clear]);
    assert_eq!(seen(&[Telegram(5), failed, Levels(1)]), [Moment::ClearUnderError]);
    assert_eq!(seen(&[Telegram(5), Telegram(6), Levels(3)]), [Moment::ClearThenReset]);
    assert_eq!(seen(&[Tick(5)]), []);
}

#[test]
fn moments_of_other_tables() {
    let reset_and_clear = [(49, 1), (51, 4)];
    let events = [Telegram(5), Telegram(6), Levels(3)];
    assert_eq!(last_moments(&reset_and_clear, &events), [Moment::ResetThenClear]);
    let below_range = [(5, table::Z), (12, -table::Z), (49, 1)];
    let events = [Telegram(0), Levels(1)];
    assert_eq!(last_moments(&below_range, &events), [Moment::ResetEndsError]);
}

#[test]
fn clear_and_reset_in_one_event_go_in_order() {
    let events = [Telegram(5), Telegram(6), Levels(3)];
    let range = |slots: &[(usize, i32)]| state_after(&table(slots), &events).extremes;
    assert_eq!(range(&[(49, 4), (51, 1)]), Some(Extremes { least: 0, greatest: 6 }));
    assert_eq!(range(&[(49, 1), (51, 4)]), Some(Extremes { least: 0, greatest: 0 }));
}
