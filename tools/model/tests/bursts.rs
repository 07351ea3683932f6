//! K5: bursts of telegrams, worked out by hand, and against single steps.

mod common;

use common::*;
use model::bench;
use model::bursts;
use model::console::{self, Wrong};
use model::fast::{self, Panel};
use model::generate::theme::{self, Wish};
use model::generate::{logs, tables};
use model::log;
use model::mistaken::{self, Mistake};
use model::panel::{self, Answer, Burst, Event, Extremes, Halves, Record, State};
use model::panelrun::{self, TABLE_BYTES};
use model::rng::Rng;
use model::table::{self, Table};
use model::tally;
use model::telegram;

/// A telegram with bit 26 set: 11 with 25 bits.
const REFUSED: u32 = 1 << 25;
/// Bits 1 to 24 and error bit 25.
const ERROR_BIT: [(usize, i32); 2] = [(3, 24), (8, 25)];
const AT_ERROR: u32 = 1 << 24;
/// N = H = 32.
const WIDE: [(usize, i32); 2] = [(0, 32), (3, 32)];
/// 25 bits: M = 33,554,432 is 9,320 × 3,600 + 2,432.
const M: u32 = 1 << 25;
const LOOP: (usize, i32) = (7, 3_600);

/// State and answer of a burst after events.
fn burst(table: &Table, events: &[Event], words: &[u32]) -> (State, Burst) {
    panel::burst(table, &state_after(table, events), words)
}

/// Count, result and note of a burst after events.
fn brief(table: &Table, events: &[Event], words: &[u32]) -> (usize, i64, u8) {
    let (_, Burst { count, answer }) = burst(table, events, words);
    (count, answer.result, answer.note)
}

/// Events and the telegrams of a burst behind them.
fn with(events: &[Event], words: &[u32]) -> Vec<Event> {
    [events, &telegrams(words)].concat()
}

/// Holds a burst after events against the single telegrams taken.
fn assert_single(table: &Table, events: &[Event], words: &[u32], taken: usize, note: u8) {
    let (after, Burst { count, answer }) = burst(table, events, words);
    let single = with(events, &words[..taken]);
    assert_eq!((count, answer.note), (taken, note));
    assert_eq!(after, state_after(table, &single));
    assert_eq!(answer, Answer { note, ..last(table, &single) });
}

/// Holds a burst after events against the values before it.
fn assert_none(table: &Table, events: &[Event], words: &[u32], note: u8) {
    let (after, Burst { count, answer }) = burst(table, events, words);
    assert_eq!((count, answer.note), (0, note));
    assert_eq!(after, state_after(table, events));
    // A tick of 0 ms changes nothing either and has no marks.
    let old = last(table, &[events, &[Tick(0)]].concat());
    assert_eq!(answer, Answer { note, ..old });
    assert_eq!(answer.halves, Halves::default());
}

fn marks(answer: &Answer) -> [u8; 3] {
    let Halves { scaling, linearization, analog } = answer.halves;
    [scaling, linearization, analog].map(u8::from)
}

// How many are taken

#[test]
fn empty_list() {
    let table = table(&[(22, 1)]);
    assert_none(&table, &[], &[], 0);
    assert_none(&table, &telegrams(&[5_000]), &[], 0);
    assert_none(&table, &[Telegram(5_000), Levels(3), Tick(9)], &[], 0);
    // Output 1 is active low, high from the start.
    assert_eq!(burst(&table, &[], &[]).1.answer.outputs, [true, false, false, false]);
}

#[test]
fn first_one_refused() {
    let table = table(&[(10, 150_000)]);
    assert_none(&table, &[], &[REFUSED], 11);
    assert_none(&table, &[], &[REFUSED, 1, 2], 11);
    assert_none(&table, &telegrams(&[1]), &[REFUSED | 3, 1], 11);
    assert_none(&table, &telegrams(&[1]), &[u32::MAX; 1_024], 11);
    assert_eq!(brief(&table, &telegrams(&[2]), &[REFUSED, 4]), (0, 3, 11));
}

#[test]
fn one_in_the_middle_refused() {
    let table = table(&[]);
    let words = [5, 7, REFUSED | 8, 9, 10];
    assert_eq!(brief(&table, &[], &words), (2, 7, 11));
    assert_single(&table, &telegrams(&[100]), &words, 2, 11);
    assert_eq!(burst(&table, &[], &words).0.telegram, Some(7));
    // Bit 32, a second one behind it, and the last of the list.
    assert_eq!(brief(&table, &[], &[5, 1 << 31, REFUSED, 9]), (1, 5, 11));
    assert_eq!(brief(&table, &[], &[5, 6, REFUSED]), (2, 6, 11));
}

#[test]
fn all_taken() {
    let plain = table(&[]);
    assert_eq!(brief(&plain, &[], &[5]), (1, 5, 0));
    assert_eq!(brief(&plain, &[], &[5, 7, 9]), (3, 9, 0));
    assert_eq!(brief(&plain, &[], &[5, 5, 5, 5]), (4, 5, 0));
    assert_single(&plain, &telegrams(&[100]), &[5, 7, 9], 3, 0);
    // With all 32 bits none is refused.
    assert_eq!(brief(&table(&WIDE), &[], &[u32::MAX, 7]), (2, 7, 0));
}

#[test]
fn at_most_1024() {
    let table = table(&[]);
    let list: Vec<u32> = (0..1_025).collect();
    assert_eq!(brief(&table, &[], &list[..1_023]), (1_023, 1_022, 0));
    assert_eq!(brief(&table, &[], &list[..1_024]), (1_024, 1_023, 0));
    assert_single(&table, &telegrams(&[9]), &list[1..], 1_024, 0);
    // The last of 1,024 refused.
    let stopped = [&list[..1_023], &[REFUSED]].concat();
    assert_eq!(brief(&table, &[], &stopped), (1_023, 1_022, 11));
}

#[test]
fn more_than_1024() {
    let table = table(&[(10, 150_000)]);
    let list: Vec<u32> = (1..=1_100).collect();
    for length in [1_025, 1_026, 1_100] {
        assert_none(&table, &[], &list[..length], 21);
        assert_none(&table, &telegrams(&[1]), &list[..length], 21);
    }
    assert_none(&table, &telegrams(&[1]), &vec![3; 70_000], 21);
    // 21 is tested before 11, wherever the refused one stands.
    for place in [0, 500, 1_023, 1_024] {
        let mut list = list[..1_025].to_vec();
        list[place] = REFUSED;
        assert_none(&table, &telegrams(&[1]), &list, 21);
    }
}

// Errors

#[test]
fn errors_stop_nothing() {
    let faulty = table(&ERROR_BIT);
    assert_eq!(brief(&faulty, &[], &[5, AT_ERROR, 7]), (3, 7, 0));
    assert_eq!(brief(&faulty, &[], &[5, AT_ERROR, REFUSED]), (2, 0, 11));
    assert_single(&faulty, &telegrams(&[1]), &[5, AT_ERROR | 7], 2, 0);
    assert_eq!(burst(&faulty, &[], &[5, AT_ERROR]).1.answer.error, 3);
    // Error 1 from 100,000,000 on.
    let wide = table(&WIDE);
    assert_eq!(brief(&wide, &[], &[100_000_000, 99_999_999]), (2, 99_999_999, 0));
    assert_eq!(burst(&wide, &[], &[5, 100_000_000]).1.answer.error, 1);
    // None taken under an error: it stays.
    assert_none(&faulty, &telegrams(&[5, AT_ERROR]), &[REFUSED], 11);
    assert_eq!(burst(&faulty, &telegrams(&[AT_ERROR]), &[]).1.answer.error, 3);
}

#[test]
fn least_and_greatest_take_in_each() {
    let table = table(&ERROR_BIT);
    let of = |words: &[u32]| burst(&table, &[], words).0.extremes;
    assert_eq!(of(&[10, 3, 7]), Some(Extremes { least: 3, greatest: 10 }));
    assert_eq!(of(&[10, AT_ERROR, 7]), Some(Extremes { least: 7, greatest: 10 }));
    assert_eq!(of(&[10, 3, REFUSED, 1]), Some(Extremes { least: 3, greatest: 10 }));
    assert_eq!(of(&[AT_ERROR, REFUSED]), None);
}

// Marks

#[test]
fn marks_of_the_last_one_taken() {
    // d = 1, 3 with factor 1.5 are halves, 2 and 4 are not.
    let table = table(&[&ERROR_BIT[..], &[(10, 150_000)]].concat());
    let of =
        |events: &[u32], words: &[u32]| marks(&burst(&table, &telegrams(events), words).1.answer);
    assert_eq!(of(&[], &[2, 1]), [1, 0, 0]);
    assert_eq!(of(&[], &[1, 2]), [0, 0, 0]);
    assert_eq!(of(&[1], &[2]), [0, 0, 0]);
    assert_eq!(of(&[], &[1, AT_ERROR]), [0, 0, 0]);
    assert_eq!(of(&[], &[AT_ERROR, 3]), [1, 0, 0]);
    // Stopped: those of the one before the refused telegram, whatever that and the last one would have.
    assert_eq!(of(&[], &[2, 1, REFUSED | 2]), [1, 0, 0]);
    assert_eq!(of(&[], &[1, 2, REFUSED | 1]), [0, 0, 0]);
    assert_eq!(of(&[], &[1, 2, REFUSED, 1]), [0, 0, 0]);
    // None taken: none, whatever was before.
    for words in [&[][..], &[REFUSED | 1], &[REFUSED, 1], &[1; 1_025]] {
        assert_eq!(of(&[1], words), [0, 0, 0]);
    }
}

#[test]
fn all_three_marks() {
    // (−100, −50), (0, 0), (200, 300), analog end 16. d = 3: 4.5, v = 5, 7.5, r = 8, 16,383.5. d = 2: 3,
    // 4.5, r = 5, 10,239.6875.
    let curve = [(13, 2), (55, 3), (56, -100), (57, -50), (60, 200), (61, 300), (16, 16)];
    let table = table(&[&curve[..], &[(10, 150_000)]].concat());
    let of = |words: &[u32]| marks(&burst(&table, &[], words).1.answer);
    assert_eq!(of(&[2, 3]), [1, 1, 1]);
    assert_eq!(of(&[3, 2]), [0, 1, 0]);
    assert_eq!(of(&[2, 3, REFUSED]), [1, 1, 1]);
}

// The record

/// 0 V, 5 V and code 32,767 by their bits.
const VOLTS_0: u32 = 0;
const VOLTS_5: u32 = 0x40A0_0000;
const VOLTS_TOP: u32 = 0x411F_FEC0;

#[test]
fn record_at_each_telegram() {
    let table = table(&[&ERROR_BIT[..], &[(49, 4)]].concat());
    let of = |events: &[Event], words: &[u32]| {
        let Record { present, lowest, highest, empty } =
            panel::record(&table, &burst(&table, events, words).0);
        (present, (!empty).then_some([lowest, highest]))
    };
    let wide = Some([VOLTS_0, VOLTS_TOP]);
    assert_eq!(of(&[], &[10_000, 0, 5_000]), (VOLTS_5, wide));
    assert_eq!(of(&[], &[10_000, 0, 5_000, REFUSED]), (VOLTS_5, wide));
    assert_eq!(of(&[], &[10_000, 0, AT_ERROR]), (0, wide));
    assert_eq!(of(&[], &[AT_ERROR, AT_ERROR | 7]), (0, None));
    assert_eq!(of(&[], &[AT_ERROR, 5_000]), (VOLTS_5, Some([VOLTS_5, VOLTS_5])));
    // Behind a clear, and left by a burst that takes none.
    let events = [Telegram(0), Telegram(10_000), Levels(1)];
    assert_eq!(of(&events, &[5_000]), (VOLTS_5, Some([VOLTS_5, VOLTS_TOP])));
    for words in [&[][..], &[REFUSED, 0], &[0; 1_025]] {
        assert_eq!(of(&events, words), (VOLTS_TOP, Some([VOLTS_TOP, VOLTS_TOP])));
    }
}

#[test]
fn clear_behind_a_burst() {
    let table = table(&[(49, 4)]);
    let (state, _) = burst(&table, &[], &[10_000, 0, 5_000]);
    let (state, _) = panel::step(&table, &state, Levels(1));
    assert_eq!(state.extremes, Some(Extremes { least: 5_000, greatest: 5_000 }));
    let record = panel::record(&table, &state);
    assert_eq!((record.lowest, record.highest), (VOLTS_5, VOLTS_5));
}

// Freeze and commands

#[test]
fn freeze_holds_over_a_burst() {
    // Input 1 freezes while it is high.
    let high = table(&[(49, 2), (50, 1)]);
    let shown = |events: &[Event], words: &[u32]| {
        let (_, Burst { answer, .. }) = burst(&high, events, words);
        (answer.result, answer.shown)
    };
    assert_eq!(shown(&telegrams(&[5]), &[7, 9]), (9, 9));
    assert_eq!(shown(&[Telegram(5), Levels(1)], &[7, 9]), (9, 5));
    assert_eq!(shown(&[Telegram(5), Levels(1)], &[7, 9, REFUSED]), (9, 5));
    assert_eq!(shown(&[Telegram(5), Levels(1), Telegram(7)], &[]), (7, 5));
    // When it ends, shown is the last result.
    let (state, _) = burst(&high, &[Telegram(5), Levels(1)], &[7, 9]);
    let (state, answer) = panel::step(&high, &state, Levels(0));
    assert_eq!(answer.shown, 9);
    assert_eq!(panel::burst(&high, &state, &[11, 12]).1.answer.shown, 12);
    // While it is low: from the fresh state on.
    let low = table(&[(49, 2), (50, 0)]);
    let (_, Burst { answer, .. }) = burst(&low, &[], &[7, 9]);
    assert_eq!((answer.result, answer.shown), (9, 0));
}

#[test]
fn reset_and_teach_around_a_burst() {
    let table = table(&[(49, 1), (51, 5)]);
    // The reset takes the last position: 120.
    let (state, _) = burst(&table, &[], &[100, 120, REFUSED, 130]);
    let (state, answer) = panel::step(&table, &state, Levels(1));
    assert_eq!((answer.result, state.offset), (0, 120));
    let (state, burst) = panel::burst(&table, &state, &[130, 125]);
    assert_eq!(burst.answer.result, 5);
    // The teach takes the last result: 5.
    let (state, _) = panel::step(&table, &state, Levels(3));
    assert_eq!(state.switches[0].value, 5);
    // Before the first telegram both are 13, none taken or not.
    let (state, _) = panel::burst(&table, &panel::fresh(&table), &[REFUSED]);
    assert_eq!(panel::step(&table, &state, Levels(1)).1.note, 13);
}

// Switching

/// Mode 3, P = 100, h = 10.
const MODE_3: [(usize, i32); 3] = [(17, 100), (18, 3), (19, 10)];

#[test]
fn condition_kept_by_what_was_before() {
    let table = table(&MODE_3);
    let on = |words: &[u32]| burst(&table, &[], words).0.switches[0].condition;
    // Off at 99, on at 100, on at 90, off at 89.
    assert!(!on(&[99]) && on(&[99, 100]) && on(&[99, 100, 90]) && !on(&[99, 100, 90, 89]));
    assert!(!on(&[90]) && on(&[100, 90]));
    assert!(!on(&[90, 100, 89, 90]));
    assert!(on(&[100, 90, REFUSED, 0]));
}

#[test]
fn pulse_that_starts_on_the_way() {
    let table = table(&[&MODE_3[..], &[(20, 50)]].concat());
    let (state, Burst { answer, .. }) = burst(&table, &[], &[99, 100, 80]);
    assert!(!state.switches[0].condition && answer.outputs[0]);
    assert_eq!(state.switches[0].pulse_left, 50);
    let (state, answer) = panel::step(&table, &state, Tick(49));
    assert!(answer.outputs[0]);
    // Started anew in a burst that goes on and off again.
    let (again, _) = panel::burst(&table, &state, &[100, 80]);
    assert_eq!(again.switches[0].pulse_left, 50);
    // No change to on, no start.
    let (left, _) = panel::burst(&table, &state, &[80, 99, 80]);
    assert_eq!(left.switches[0].pulse_left, 1);
    assert!(!panel::step(&table, &left, Tick(1)).1.outputs[0]);
}

#[test]
fn lock_that_is_set_on_the_way() {
    let table = table(&[&MODE_3[..], &[(23, 1), (49, 3)]].concat());
    let (state, Burst { answer, .. }) = burst(&table, &[], &[99, 100, 80]);
    assert!(!state.switches[0].condition && state.switches[0].locked && answer.outputs[0]);
    // The next burst leaves it, a clear ends it.
    let (state, Burst { answer, .. }) = panel::burst(&table, &state, &[0, 1]);
    assert!(answer.outputs[0]);
    let (state, answer) = panel::step(&table, &state, Levels(1));
    assert!(!answer.outputs[0] && !state.switches[0].locked);
    // Behind a refused telegram nothing locks.
    assert!(!burst(&table, &[], &[99, REFUSED, 100]).1.answer.outputs[0]);
}

#[test]
fn suppression_that_ends_on_the_way() {
    // Mode 4, P = 100: on at 100 and below once the result was above.
    let table = table(&[(17, 100), (18, 4), (24, 1)]);
    let on = |words: &[u32]| burst(&table, &[], words).0.switches[0].condition;
    assert!(!on(&[100]) && !on(&[50, 100]) && on(&[101, 100]) && on(&[50, 101, 50]));
    assert!(!on(&[50, REFUSED, 101, 50]));
}

#[test]
fn error_switches_on_0() {
    // Under error 3 the result is 0: off, and on again with the next.
    let table = table(&[&ERROR_BIT[..], &MODE_3, &[(20, 50)]].concat());
    let state = state_after(&table, &[Telegram(100), Tick(50)]);
    let (after, _) = panel::burst(&table, &state, &[AT_ERROR, 100]);
    assert_eq!(after.switches[0].pulse_left, 50);
    let (after, _) = panel::burst(&table, &state, &[100, 100]);
    assert_eq!(after.switches[0].pulse_left, 0);
}

// The round loop

#[test]
fn encoders_end_crossed_in_a_burst() {
    let circle = table(&[LOOP]);
    assert_eq!(brief(&circle, &[], &[M - 2, M - 1, 0, 1]), (4, 2_433, 0));
    assert_eq!(brief(&circle, &telegrams(&[M - 2]), &[M - 1, 0, 1]), (3, 2_433, 0));
    assert_eq!(brief(&circle, &telegrams(&[1]), &[0, M - 1, M - 2]), (3, 3_598, 0));
    assert_eq!(brief(&circle, &telegrams(&[M - 1]), &[0, REFUSED | 5, 1]), (1, 2_432, 11));
    // In quarters of a turn once around: M more, 2,432 modulo R; by the last alone nothing.
    let quarter = M / 4;
    let around = [quarter, 2 * quarter, 3 * quarter, 0];
    assert_eq!(brief(&circle, &telegrams(&[0]), &around), (4, 2_432, 0));
    assert_eq!(brief(&circle, &telegrams(&[0]), &around[3..]), (1, 0, 0));
    // A reset behind it stores the count.
    let reset = table(&[LOOP, (49, 1)]);
    let (state, _) = burst(&reset, &telegrams(&[0]), &around);
    assert_eq!(panel::step(&reset, &state, Levels(1)).0.offset, 2_432);
}

#[test]
fn error_3_in_a_burst_is_not_counted() {
    // 2^24 is 4,660 × 3,600 + 1,216.
    let table = table(&[&ERROR_BIT[..], &[LOOP]].concat());
    let far = AT_ERROR | 8_000_000;
    assert_eq!(brief(&table, &telegrams(&[(1 << 24) - 1]), &[far, 0]), (2, 1_216, 0));
    assert_eq!(brief(&table, &telegrams(&[0]), &[far, (1 << 24) - 1]), (2, 3_599, 0));
}

// Random lists

/// A random table, and a walk of events and bursts on it.
struct Walk {
    rng: Rng,
    wish: Wish,
    anchors: Vec<i64>,
    table: Table,
}

impl Walk {
    fn new(seed: u64, index: u64) -> Walk {
        let mut rng = Rng::for_case(seed, index);
        let wish = theme::draw(&mut rng).wish();
        let draft = tables::draft(&mut rng, &wish);
        let table = table::load(&draft.words).unwrap();
        Walk { rng, wish, anchors: draft.anchors, table }
    }

    /// Up to six events from a state on.
    fn events(&mut self, state: State) -> Vec<Event> {
        let count = self.rng.between(0, 6) as usize;
        logs::events(&mut self.rng, &self.wish, &self.table, state, &self.anchors, count)
    }

    /// Telegrams from a state on, at times with refused ones; now and then about 1,024.
    fn words(&mut self, state: State) -> Vec<u32> {
        let count = match self.rng.below(60) {
            0 => self.rng.between(1_022, 1_027),
            _ => self.rng.between(0, 30),
        } as usize;
        let (rng, table) = (&mut self.rng, &self.table);
        let mut words = logs::telegrams(rng, &self.wish, table, state, &self.anchors, count);
        if count > 0 && rng.chance(50) {
            let place = rng.below(count as u64) as usize;
            words[place] = logs::refused(rng, table, words[place]);
        }
        words
    }
}

/// K6: a record by the bits of its floats.
fn bits(record: &fast::Record) -> Record {
    let fast::Record { present, lowest, highest, empty } = *record;
    let [present, lowest, highest] = [present, lowest, highest].map(f32::to_bits);
    Record { present, lowest, highest, empty }
}

/// State, count and answer by single steps: up to the first that answers 11, whose answer has the old
/// values and no marks.
fn singly(table: &Table, before: &State, words: &[u32]) -> (State, Burst) {
    let old = panel::step(table, before, Tick(0)).1;
    let (mut state, mut burst) = (*before, Burst { count: 0, answer: old });
    if words.len() > 1_024 {
        burst.answer.note = 21;
        return (state, burst);
    }
    for &word in words {
        let (after, answer) = panel::step(table, &state, Telegram(word));
        if answer.note == 11 {
            burst.answer.note = 11;
            break;
        }
        burst = Burst { count: burst.count + 1, answer };
        state = after;
    }
    (state, burst)
}

#[test]
fn random_bursts_are_single_steps() {
    let (mut stopped, mut full, mut over) = (0, 0, 0);
    for index in 0..700 {
        let mut walk = Walk::new(23, index);
        let table = walk.table.clone();
        let mut state = panel::fresh(&table);
        for _ in 0..8 {
            for event in walk.events(state) {
                state = panel::step(&table, &state, event).0;
            }
            let words = walk.words(state);
            let (after, burst) = panel::burst(&table, &state, &words);
            assert_eq!((after, burst), singly(&table, &state, &words), "case {index}");
            stopped += u64::from(burst.answer.note == 11 && burst.count > 0);
            full += u64::from(burst.count == 1_024);
            over += u64::from(burst.answer.note == 21);
            state = after;
        }
    }
    assert!(stopped > 1_000 && full > 2 && over > 20, "{stopped} {full} {over}");
}

#[test]
fn random_bursts_of_the_64_bit_panel() {
    for index in 0..700 {
        let mut walk = Walk::new(29, index);
        let table = walk.table.clone();
        let mut fast = Panel::new(&table);
        let mut single = Panel::new(&table);
        let mut state = panel::fresh(&table);
        for _ in 0..8 {
            for event in walk.events(state) {
                let (after, answer) = panel::step(&table, &state, event);
                assert_eq!(fast.step(event), answer, "case {index}");
                assert_eq!(single.step(event), answer, "case {index}");
                state = after;
            }
            let words = walk.words(state);
            let (after, burst) = panel::burst(&table, &state, &words);
            assert_eq!(fast.burst(&words), burst, "case {index}");
            words[..burst.count].iter().for_each(|&word| {
                single.step(Telegram(word));
            });
            for panel in [&fast, &single] {
                assert_eq!(panel.extremes, after.extremes, "case {index}");
                assert_eq!(bits(&panel.record), panel::record(&table, &after), "case {index}");
            }
            state = after;
        }
    }
}

#[test]
fn extent_is_found_without_a_state() {
    for index in 0..300 {
        let mut walk = Walk::new(31, index);
        let table = walk.table.clone();
        let words = walk.words(panel::fresh(&table));
        let (count, note) = panel::extent(&table, &words);
        let reads = |word: &u32| telegram::read(&table, *word).is_some();
        assert!(words[..count].iter().all(reads));
        match note {
            0 => assert_eq!(count, words.len()),
            11 => assert!(!reads(&words[count])),
            _ => assert!(words.len() > 1_024 && count == 0),
        }
    }
}

// console

fn run(text: &str) -> String {
    console::run(text.as_bytes())
}

fn message(kind: Wrong) -> String {
    format!("? {}\n", kind.words())
}

/// What one line says once a panel in binary format runs.
fn said(line: &[u8]) -> String {
    let text = console::run(&[b"slot 2 1\nstart\n", line, b"\n"].concat());
    text.strip_prefix("start 0 0\n").unwrap().into()
}

/// A line of `b` and so many telegrams.
fn line_of(count: usize, telegram: &str) -> String {
    format!("b{}", format!(" {telegram}").repeat(count))
}

#[test]
fn lines_of_bursts() {
    // Codes of 5, 10, 2 and 9: 16.4, 32.8, 6.6 and 29.5. 160 ÷ 2^15 is 1.25 × 2^−8, 330 ÷ 2^15 is
    // 1.2890625 × 2^−7; 70 ÷ 2^15 is 1.09375 × 2^−9, 30 ÷ 2^15 1.875 × 2^−11, 290 ÷ 2^15 1.1328125 × 2^−7.
    let text = "\
slot 2 1
start
b
record
b 5 7 a
halves
record
t 5
b 2000000 1
b 1 2 02000000 3
record
b
t 9
record
c 5
  b   A  0000000A \r
t A
";
    let expected = "\
start 0 0
burst 0 0 0 0 0000 off 0
record 00000000 empty
burst 3 10 10 0 0000 33 0
halves 0 0 0
record 3C250000 3BA00000 3C250000
4 T 5 5 0 0000 16 0
burst 0 5 5 0 0000 16 11
burst 2 2 2 0 0000 7 11
record 3B0C0000 3A700000 3C250000
burst 0 2 2 0 0000 7 0
7 T 9 9 0 0000 29 0
record 3C110000 3A700000 3C250000
8 C 9 9 0 0000 29 0
burst 2 10 10 0 0000 33 0
11 T 10 10 0 0000 33 0
";
    assert_eq!(run(text), expected);
}

#[test]
fn halves_of_bursts() {
    let text = "\
slot 2 1
slot 10 150000
start
b 2 1
halves
b
halves
t 1
b 2000000
halves
b 1 2000000
halves
b 1 2
halves
b 2 2000001
halves
c 0
halves
";
    let expected = "\
start 0 0
burst 2 2 2 0 0000 7 0
halves 1 0 0
burst 0 2 2 0 0000 7 0
halves 0 0 0
3 T 2 2 0 0000 7 0
burst 0 2 2 0 0000 7 11
halves 0 0 0
burst 1 2 2 0 0000 7 11
halves 1 0 0
burst 2 3 3 0 0000 10 0
halves 0 0 0
burst 1 3 3 0 0000 10 11
halves 0 0 0
8 C 3 3 0 0000 10 0
halves 0 0 0
";
    assert_eq!(run(text), expected);
}

#[test]
fn lines_that_are_none() {
    let none = "? b takes at most 1100 telegrams of 1 to 8 hex digits each\n";
    assert_eq!(message(Wrong::Burst), none);
    let lines = ["b 123456789", "b 1 2 000000003", "b g", "b 1 g 2", "b 0x1", "b -1", "b +1"];
    for line in lines.into_iter().chain(["b 1,2", "b 1\t2", "b 1\r\r", "b #", "b 1 \r\r"]) {
        assert_eq!(said(line.as_bytes()), none, "{line}");
    }
    let word =
        "? no such word; the words are node, slot, start, halves, record, t, b, i, c and f\n";
    assert_eq!(message(Wrong::Word), word);
    for line in ["B 1", "b1", "bb 1", "b\t1", "b\r\r", "burst 1", " #b", "B"] {
        assert_eq!(said(line.as_bytes()), word, "{line}");
    }
    // They take nothing.
    assert_eq!(run("start\nb 1 1 g\nt 1\n"), format!("start 0 0\n{none}1 T 1 1 0 0000 3 0\n"));
}

#[test]
fn before_the_first_start() {
    let none = message(Wrong::NoPanel);
    assert_eq!(run("b\nb 5\nb 2000000\n"), none.repeat(3));
    assert_eq!(run(&line_of(1_100, "FFFFFFFF")), none);
    assert_eq!(run(&line_of(1_101, "0")), message(Wrong::Burst));
    assert_eq!(
        run("b g\nnode 0\nstart\nb\n"),
        format!("{}start 33 0\n{none}", message(Wrong::Burst))
    );
}

#[test]
fn lines_of_up_to_1100_telegrams() {
    assert_eq!(said(line_of(1_023, "5").as_bytes()), "burst 1023 5 5 0 0000 16 0\n");
    assert_eq!(said(line_of(1_024, "5").as_bytes()), "burst 1024 5 5 0 0000 16 0\n");
    assert_eq!(said(line_of(1_024, "00000005").as_bytes()), "burst 1024 5 5 0 0000 16 0\n");
    for count in [1_025, 1_099, 1_100] {
        for telegram in ["5", "00000005", "2000000", "FFFFFFFF"] {
            let line = line_of(count, telegram);
            assert_eq!(said(line.as_bytes()), "burst 0 0 0 0 0000 off 21\n", "{count}");
        }
    }
    for line in [line_of(1_101, "5"), line_of(1_101, "00000005"), line_of(5_119, "5")] {
        assert_eq!(said(line.as_bytes()), message(Wrong::Burst));
    }
    // The events of the run, and the old values with 21.
    let text =
        format!("slot 2 1\nstart\n{}\nt 7\n{}\nt 7\n", line_of(1_024, "5"), line_of(1_025, "5"));
    let expected = "\
start 0 0
burst 1024 5 5 0 0000 16 0
1025 T 7 7 0 0000 23 0
burst 0 7 7 0 0000 23 21
1026 T 7 7 0 0000 23 0
";
    assert_eq!(run(&text), expected);
}

#[test]
fn a_line_with_b_has_at_most_10240_bytes() {
    let long = "? line has more than 1024 bytes, or 10240 with b\n";
    assert_eq!(message(Wrong::Long), long);
    let behind = |start: &str, length| format!("{start}{}", " ".repeat(length - start.len()));
    let before = |end: &str, length| format!("{}{end}", " ".repeat(length - end.len()));
    let between = |length| format!("b{}5", " ".repeat(length - 2));
    let answer = "burst 1 5 5 0 0000 16 0\n";
    for length in [1_024, 1_025, 9_000, 10_239, 10_240] {
        for line in [behind("b 5", length), before("b 5", length), between(length)] {
            assert_eq!(said(line.as_bytes()), answer, "{length}");
            assert_eq!(said(format!("{line}\r").as_bytes()), answer, "{length}");
        }
        assert_eq!(said(before("b", length).as_bytes()), "burst 0 0 0 0 0000 off 0\n");
    }
    for length in [10_241, 10_242, 30_000] {
        for line in [behind("b 5", length), before("b 5", length), between(length)] {
            assert_eq!(said(line.as_bytes()), long, "{length}");
            assert_eq!(said(format!("{line}\r").as_bytes()), long, "{length}");
        }
    }
    // Only one carriage return is left out.
    assert_eq!(said(format!("{}\r\r", behind("b 5", 10_239)).as_bytes()), message(Wrong::Burst));
    assert_eq!(said(format!("{}\r\r", behind("b 5", 10_240)).as_bytes()), long);
    // Too long goes first, before what is no telegram and before the number of them.
    assert_eq!(said(behind("b g", 10_240).as_bytes()), message(Wrong::Burst));
    assert_eq!(said(behind("b g", 10_241).as_bytes()), long);
    assert_eq!(said(line_of(5_120, "5").as_bytes()), long);
}

#[test]
fn every_other_line_has_at_most_1024_bytes() {
    let padded = |start: &str, length| format!("{start}{}", " ".repeat(length - start.len()));
    for start in ["t 5", "c 5", "x", "B 5", "bb 5", "b\t5", "b5", "#", "#b", "# b 5", " # b", ""] {
        assert_ne!(said(padded(start, 1_024).as_bytes()), message(Wrong::Long), "{start}");
        assert_eq!(said(padded(start, 1_025).as_bytes()), message(Wrong::Long), "{start}");
        assert_eq!(said(padded(start, 10_240).as_bytes()), message(Wrong::Long), "{start}");
    }
    // b behind another word.
    assert_eq!(said(padded("t b 5", 1_025).as_bytes()), message(Wrong::Long));
}

// Mistakes

/// The mistakes that the lines of a text tell, error bit 25, factor 1.5, P = 100 locked in mode 3.
fn told(text: &str) -> Vec<Mistake> {
    let table =
        "slot 2 1\nslot 3 24\nslot 8 25\nslot 10 150000\nslot 17 100\nslot 18 3\nslot 23 1\n";
    let (_, met) = tally::observe(format!("{table}start\n{text}").as_bytes());
    mistaken::ALL.into_iter().filter(|mistake| met.of(&mistake.name()) > 0).collect()
}

#[test]
fn mistakes_that_a_line_tells() {
    use Mistake::*;
    assert_eq!(told("b 2\nhalves\nrecord\nt 2\n"), []);
    // Two telegrams are two events.
    assert_eq!(told("b 2 2\nhalves\nt 2\n"), [OneEvent]);
    // 67 is 100.5, 101, which locks; the last one is 2, 3.
    assert_eq!(told("b 43 2\n"), [LastAlone, SwitchedAtTheEnd]);
    // What is driven on the way.
    assert_eq!(told("b 4 2\nrecord\n"), [LastAlone, RecordAtTheEnd]);
    // The refused one, by count and values.
    let stopped = [RefusedTaken, RefusedSkipped, RefusedCounted, NothingTaken];
    assert_eq!(told("b 2 2000004 6\n"), stopped);
    // Without marks before it and behind it.
    assert_eq!(told("t 2\nb 2000002\nhalves\n"), [RefusedTaken, RefusedCounted]);
    let expected = [RefusedTaken, RefusedCounted, MarksOfTheList];
    assert_eq!(told("t 2\nb 2000001\nhalves\n"), expected);
    assert_eq!(told("t 1\nb\nhalves\n"), [MarksKept]);
    assert_eq!(told("t 1\nb\nt 1\n"), [OneEvent]);
    // The number of telegrams.
    let full = line_of(1_024, "2");
    assert_eq!(told(&full), [FullRefused]);
    assert_eq!(told(&line_of(1_025, "2")), [FirstOfMore]);
    assert_eq!(told(&format!("{full} 2000000\n")), [FirstOfMore, BeforeTheLength]);
    assert_eq!(told(&line_of(1_100, "2000000")), [FirstOfMore, BeforeTheLength]);
}

#[test]
fn names_of_bursts() {
    let met = |text: &str| {
        let table = "slot 2 1\nslot 7 3600\nslot 49 1\nslot 51 5\nslot 53 2\nslot 54 1\nstart\n";
        let (_, met) = tally::observe(format!("{table}{text}").as_bytes());
        let names = tally::names().into_iter().chain(tally::rare());
        let of_bursts = |name: &String| name.contains("burst") && !name.contains("tells");
        names.filter(of_bursts).filter(|name| met.of(name) > 0).collect::<Vec<String>>()
    };
    assert_eq!(met("b\n"), ["burst of no telegram"]);
    assert_eq!(met("b 1 2\n"), ["burst all taken"]);
    assert_eq!(met("b 2000000\n"), ["burst stopped by 11 at the first"]);
    assert_eq!(met("b 1 2000000\n"), ["burst stopped by 11 at the last"]);
    assert_eq!(met("b 1 2000000 2\n"), ["burst stopped by 11 in the middle"]);
    assert_eq!(met("b 1 1FFFFFF\n"), ["burst all taken", "burst across the encoder's end"]);
    let beside =
        ["burst all taken", "a reset right before a burst", "a teach right behind a burst"];
    assert_eq!(met("t 5\ni 1\nb 6\nhalves\ni 3\n"), beside);
    let frozen = ["burst all taken", "burst under freeze", "a freeze right before a burst"];
    assert_eq!(met("t 5\ni 4\nb 6\n"), frozen);
}

// Sums

/// The sum of the reference over the telegrams of an input in bursts, some rounds of them.
fn reference_sum(input: &[u8], rounds: u64) -> u64 {
    let table = panelrun::load(input).unwrap();
    let words: Vec<u32> = telegrams_of(input);
    let mut state = panel::fresh(&table);
    let mut sum = 0u64;
    for _ in 0..rounds {
        for words in words.chunks(1_024) {
            let (after, burst) = panel::burst(&table, &state, words);
            let part = answer_part(&burst.answer) + 29 * burst.count as u64;
            sum = sum.wrapping_add(part);
            state = after;
        }
        let Record { present, lowest, highest, empty } = panel::record(&table, &state);
        let bits: u64 = [present, lowest, highest].into_iter().map(u64::from).sum();
        let (least, greatest) = state.extremes.as_ref().map_or((0, 0), |x| (x.least, x.greatest));
        let rest = 31 * raised(least) + 37 * raised(greatest);
        sum = sum.wrapping_add(19 * bits + 23 * u64::from(empty) + rest);
    }
    sum
}

fn raised(value: i64) -> u64 {
    (value + (1 << 31)) as u64
}

/// The telegrams in the log of an input.
fn telegrams_of(input: &[u8]) -> Vec<u32> {
    let word = |event| match event {
        Telegram(word) => Some(word),
        _ => None,
    };
    log::read(&input[TABLE_BYTES..]).events.into_iter().filter_map(word).collect()
}

/// What the answer to a burst adds to the sum: 1, 3, 13 and 17 times its parts.
fn answer_part(answer: &Answer) -> u64 {
    let number = |bits: &[bool]| bits.iter().rev().fold(0, |n, &bit| 2 * n + u64::from(bit));
    let Halves { scaling, linearization, analog } = answer.halves;
    let parts = [
        raised(answer.result),
        3 * raised(answer.shown),
        13 * u64::from(answer.note),
        17 * number(&[scaling, linearization, analog]),
    ];
    parts.iter().sum()
}

#[test]
fn timed_sums_are_the_same() {
    for kind in bench::KINDS {
        for count in [0, 1, 400, 1_024, 2_500] {
            let input = bench::input(kind, count);
            let sum = bench::sum_of_bursts(&input, 3);
            assert_eq!(sum, reference_sum(&input, 3), "{kind}");
            assert_eq!(sum, bench::sum_of_burst_steps(&input, 3), "{kind}");
        }
    }
}

#[test]
fn sums_with_refused_telegrams() {
    // A burst stops there, the steps go on.
    let mut log = Vec::new();
    for event in [Telegram(5), Telegram(REFUSED), Tick(5), Telegram(7)] {
        log::write(&mut log, event);
    }
    let input = panelrun::input_of(&words(&[]), &log);
    let sum = bench::sum_of_bursts(&input, 2);
    assert_eq!(sum, reference_sum(&input, 2));
    assert_ne!(sum, bench::sum_of_burst_steps(&input, 2));
}

#[test]
fn recorded_sessions_have_each_kind() {
    let recording = model::sessions::recording(1, 60);
    let text = String::from_utf8(recording.input).unwrap();
    for name in bursts::NAMES.iter().filter(|&&name| name != "burst of 1025") {
        let heads = name.contains("no panel");
        assert!(heads || text.contains(&format!(". {name}\n")), "{name}");
    }
    let counts = text.lines().map(|line| bursts::telegrams(line.as_bytes()).len());
    let long: Vec<usize> = counts.filter(|&count| count >= 1_000).collect();
    assert_eq!(long, [1_024, 1_024, 1_025]);
}
