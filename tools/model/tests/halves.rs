//! K7: the marks that say where an exact half decided, worked out by hand.

mod common;

use common::*;
use model::coverage::{observe, Coverage};
use model::differ::Counts;
use model::generate;
use model::measure::{directed, measure, measure_upward};
use model::panel::{self, Answer, Event, Halves};
use model::panelrun::{self, Step};
use model::table::{Action, Table, Z};
use model::telegram::{self, Reading};

/// No half anywhere.
const NONE: [u8; 3] = [0, 0, 0];
/// d = 1, −1, 3 with factor 1.5 are 1.5, −1.5, 4.5.
const BY_3_HALVES: (usize, i32) = (10, 150_000);
const OFFSET: (usize, i32) = (5, 1_000);
/// (−100, −50), (0, 0), (200, 300): y is x ÷ 2 left of 0 and 3 x ÷ 2 right of it.
const FOUR_QUADRANTS: [(usize, i32); 8] =
    [(13, 2), (55, 3), (56, -100), (57, -50), (58, 0), (59, 0), (60, 200), (61, 300)];
/// (0, 0), (200, 300), mirrored.
const ONE_QUADRANT: [(usize, i32); 3] = [(13, 1), (58, 200), (59, 300)];
/// Bits 1 to 24 and error bit 25.
const ERROR_BIT: [(usize, i32); 2] = [(3, 24), (8, 25)];
const AT_ERROR: u32 = 1 << 24;
/// N = H = 32.
const WIDE: [(usize, i32); 2] = [(0, 32), (3, 32)];

/// Scaling, linearization, analog.
fn marks(answer: &Answer) -> [u8; 3] {
    let Halves { scaling, linearization, analog } = answer.halves;
    [scaling, linearization, analog].map(u8::from)
}

/// Results and marks of a run.
fn run(table: &Table, events: &[Event]) -> Vec<(i64, [u8; 3])> {
    answers(table, events).iter().map(|answer| (answer.result, marks(answer))).collect()
}

/// Codes and marks of a run.
fn codes(table: &Table, events: &[Event]) -> Vec<(i32, [u8; 3])> {
    answers(table, events).iter().map(|answer| (answer.code.unwrap(), marks(answer))).collect()
}

/// Errors and marks of a run.
fn errors(table: &Table, events: &[Event]) -> Vec<(u8, [u8; 3])> {
    answers(table, events).iter().map(|answer| (answer.error, marks(answer))).collect()
}

/// Notes and marks of a run.
fn noted(table: &Table, events: &[Event]) -> Vec<(u8, [u8; 3])> {
    answers(table, events).iter().map(|answer| (answer.note, marks(answer))).collect()
}

/// Telegrams at distances from the offset 1,000.
fn at(distances: &[i32]) -> Vec<Event> {
    distances.iter().map(|d| Telegram((1_000 + d) as u32)).collect()
}

// Scaling

#[test]
fn scaling() {
    const HALF: [u8; 3] = [1, 0, 0];
    // 1.5, −1.5, 4.5; 3 and 0 are whole.
    let plain = table(&[OFFSET, BY_3_HALVES]);
    let expected = [(2, HALF), (-2, HALF), (5, HALF), (3, NONE), (0, NONE)];
    assert_eq!(run(&plain, &at(&[1, -1, 3, 2, 0])), expected);
    // A is added after the rounding: 2 − 2.
    let additive = table(&[OFFSET, BY_3_HALVES, (12, -2)]);
    assert_eq!(run(&additive, &at(&[1])), [(0, HALF)]);
    // The round loop's d is 355 at p = 5: 532.5.
    let circle = table(&[(5, 10), (7, 360), BY_3_HALVES]);
    assert_eq!(run(&circle, &telegrams(&[5])), [(533, HALF)]);
}

#[test]
fn scaling_by_other_fractions() {
    const HALF: [u8; 3] = [1, 0, 0];
    // 1.75, 3.5, 5.25, 7.
    let quarters = table(&[(10, 7), (11, 4)]);
    let expected = [(2, NONE), (4, HALF), (5, NONE), (7, NONE)];
    assert_eq!(run(&quarters, &telegrams(&[1, 2, 3, 4])), expected);
    // Thirds are never halves, 3 × 1/6 is one.
    let thirds = table(&[(10, 1), (11, 3)]);
    assert_eq!(run(&thirds, &telegrams(&[1, 2])), [(0, NONE), (1, NONE)]);
    let sixths = table(&[(10, 1), (11, 6)]);
    assert_eq!(run(&sixths, &telegrams(&[2, 3, 4])), [(0, NONE), (1, HALF), (1, NONE)]);
    // 50,000 ÷ 100,001 of 1 lies just below a half, 50,001 ÷ 100,001 just above.
    let below = table(&[(10, 50_000), (11, 100_001)]);
    assert_eq!(run(&below, &telegrams(&[1])), [(0, NONE)]);
    let above = table(&[(10, 50_001), (11, 100_001)]);
    assert_eq!(run(&above, &telegrams(&[1])), [(1, NONE)]);
}

// Linearization

#[test]
fn four_quadrants() {
    const HALF: [u8; 3] = [0, 1, 0];
    let table = table(&[&FOUR_QUADRANTS[..], &[OFFSET]].concat());
    // 3 × 3 ÷ 2 = 4.5, −1 ÷ 2 = −0.5; 2 × 3 ÷ 2 and −2 ÷ 2 are whole.
    let between = [(5, HALF), (-1, HALF), (3, NONE), (-1, NONE)];
    assert_eq!(run(&table, &at(&[3, -1, 2, -2])), between);
    // Beyond the end points their y.
    assert_eq!(run(&table, &at(&[201, -150])), [(300, NONE), (-50, NONE)]);
    // At the inner point and at both ends.
    assert_eq!(run(&table, &at(&[0, 200, -100])), [(0, NONE), (300, NONE), (-50, NONE)]);
    // Next to the ends: 298.5 and −49.5.
    assert_eq!(run(&table, &at(&[199, -99])), [(299, HALF), (-50, HALF)]);
}

#[test]
fn one_quadrant() {
    const HALF: [u8; 3] = [0, 1, 0];
    let table = table(&[&ONE_QUADRANT[..], &[OFFSET]].concat());
    // Minus the value for −v: 4.5 mirrored is −4.5. At (−200, −300) and beyond, none.
    let expected = [(5, HALF), (-5, HALF), (-3, NONE), (-300, NONE), (-300, NONE)];
    assert_eq!(run(&table, &at(&[3, -3, -2, -200, -201])), expected);
}

#[test]
fn linearization_off() {
    let points = [&FOUR_QUADRANTS[1..], &[OFFSET]].concat();
    assert_eq!(run(&table(&points), &at(&[3, -1])), [(3, NONE), (-1, NONE)]);
}

#[test]
fn whole_fraction_of_the_line() {
    // From (10, 1) to (30, 4): v = 20 is 1 + 10 × 3 ÷ 20 = 2.5. v = 12 is 1.3, v = 15 is 1.75.
    let line = [(13, 2), (56, 10), (57, 1), (58, 30), (59, 4)];
    let expected = [(3, [0, 1, 0]), (1, NONE), (2, NONE)];
    assert_eq!(run(&table(&line), &telegrams(&[20, 12, 15])), expected);
    // From (0, −1) to (2, 2): the rise 1.5 is a half, and −1 + 1.5 = 0.5 is one.
    let crossing = [(13, 2), (57, -1), (58, 2), (59, 2)];
    assert_eq!(run(&table(&crossing), &telegrams(&[1])), [(1, [0, 1, 0])]);
}

#[test]
fn scaling_and_linearization_each_pass_on_their_own() {
    let table = table(&[&FOUR_QUADRANTS[..], &[OFFSET, BY_3_HALVES]].concat());
    // d = 1: 1.5, v = 2, 3. d = 2: v = 3, 4.5. d = 3: 4.5, v = 5, 7.5. d = 4: v = 6, 9.
    // d = −1: −1.5, v = −2, −1. d = −2: v = −3, −1.5. d = −3: −4.5, v = −5, −2.5.
    let ahead = [(3, [1, 0, 0]), (5, [0, 1, 0]), (8, [1, 1, 0]), (9, NONE)];
    assert_eq!(run(&table, &at(&[1, 2, 3, 4])), ahead);
    let behind = [(-1, [1, 0, 0]), (-2, [0, 1, 0]), (-3, [1, 1, 0])];
    assert_eq!(run(&table, &at(&[-1, -2, -3])), behind);
}

// Analog value

#[test]
fn analog() {
    const HALF: [u8; 3] = [0, 0, 1];
    // 32,767 × 5,000 ÷ 10,000 = 16,383.5; 10,000 is 32,767; 5,001 is 16,386.7767.
    let volts = table(&[(5, 20_000)]);
    let to = |results: &[i32]| {
        telegrams(&results.iter().map(|r| (20_000 + r) as u32).collect::<Vec<_>>())
    };
    let expected = [(16_384, HALF), (-16_384, HALF), (32_767, NONE), (16_387, NONE)];
    assert_eq!(codes(&volts, &to(&[5_000, -5_000, 10_000, 5_001])), expected);
    // 65,535 × 5,000 ÷ 10,000 = 32,767.5, in both formats.
    for format in [1, 2] {
        let milliamps = table(&[(5, 20_000), (14, format)]);
        let expected = [(32_768, HALF), (0, NONE), (65_535, NONE)];
        assert_eq!(codes(&milliamps, &to(&[5_000, 0, 10_000])), expected);
    }
    // Start 10, end −10: 0 is halfway, 32,767 × −10 ÷ −20 = 16,383.5.
    let falling = table(&[(15, 10), (16, -10)]);
    assert_eq!(codes(&falling, &telegrams(&[0, 10])), [(16_384, HALF), (0, NONE)]);
}

#[test]
fn analog_before_the_code_is_held() {
    const HALF: [u8; 3] = [0, 0, 1];
    let to = |results: &[i32]| {
        telegrams(&results.iter().map(|r| (20_000 + r) as u32).collect::<Vec<_>>())
    };
    // 49,150.5 and −49,150.5; 20,000 is 65,534, held without a half.
    let volts = table(&[(5, 20_000)]);
    let expected = [(32_767, HALF), (-32_767, HALF), (32_767, NONE)];
    assert_eq!(codes(&volts, &to(&[15_000, -15_000, 20_000])), expected);
    // 98,302.5 and −32,767.5; −10,000 is −65,535.
    let milliamps = table(&[(5, 20_000), (14, 1)]);
    let expected = [(65_535, HALF), (0, HALF), (0, NONE)];
    assert_eq!(codes(&milliamps, &to(&[15_000, -5_000, -10_000])), expected);
    // The span 2 makes a half of each odd result: 16,383.5, 49,150.5, 81,917.5.
    let narrow = table(&[(16, 2)]);
    let expected = [(16_384, HALF), (32_767, NONE), (32_767, HALF), (32_767, HALF)];
    assert_eq!(codes(&narrow, &telegrams(&[1, 2, 3, 5])), expected);
}

#[test]
fn all_three() {
    // d = 3: 4.5, v = 5, 7.5, r = 8, and 32,767 × 8 ÷ 16 = 16,383.5.
    let table = table(&[&FOUR_QUADRANTS[..], &[BY_3_HALVES, (16, 16)]].concat());
    assert_eq!(run(&table, &telegrams(&[3])), [(8, [1, 1, 1])]);
}

// Errors and refusals

#[test]
fn none_under_an_error() {
    // 66,666,665 × 1.5 = 99,999,997.5 shows, 66,666,667 × 1.5 = 100,000,000.5 is error 1.
    let wide = table(&[&WIDE[..], &[BY_3_HALVES]].concat());
    let expected = [(0, [1, 0, 0]), (1, NONE), (0, [1, 0, 0])];
    assert_eq!(errors(&wide, &telegrams(&[66_666_665, 66_666_667, 1])), expected);
    // p = 0 and 2: −1.5 and 1.5 beside A = −Z: −100,000,001 is error 2, −99,999,997 shows.
    let low = table(&[(5, 1), BY_3_HALVES, (12, -Z)]);
    assert_eq!(errors(&low, &telegrams(&[0, 2])), [(2, NONE), (0, [1, 0, 0])]);
    // Error 3, with halves in all three beneath.
    let all = [&FOUR_QUADRANTS[..], &ERROR_BIT, &[BY_3_HALVES, (16, 16)]].concat();
    let faulty = table(&all);
    let expected = [(0, [1, 1, 1]), (3, NONE), (0, [1, 1, 1])];
    assert_eq!(errors(&faulty, &telegrams(&[3, AT_ERROR | 3, 3])), expected);
}

#[test]
fn none_on_a_refused_event() {
    let table = table(&[BY_3_HALVES, (49, 1)]);
    let events = [Telegram(1), Telegram(1 << 25), Telegram(1), Levels(8), Levels(9)];
    let expected = [(0, [1, 0, 0]), (11, NONE), (0, [1, 0, 0]), (10, NONE), (10, NONE)];
    assert_eq!(noted(&table, &events), expected);
    // The values are the old ones all the same.
    assert_eq!(results(&table, &events), [2, 2, 2, 2, 2]);
}

#[test]
fn none_on_a_tick() {
    let table = table(&[BY_3_HALVES]);
    let expected = [(0, NONE), (2, [1, 0, 0]), (2, NONE), (2, NONE)];
    assert_eq!(run(&table, &[Tick(5), Telegram(1), Tick(0), Tick(5)]), expected);
}

#[test]
fn none_on_levels_without_a_reset() {
    // Teach, clear locks, clear least and greatest; then the falls, which ask for nothing.
    let table = table(&[BY_3_HALVES, (49, 5), (51, 3), (53, 4)]);
    let events = [Telegram(1), Levels(1), Levels(3), Levels(7), Levels(0), Levels(0)];
    let answers = answers(&table, &events);
    assert_eq!(marks(&answers[0]), [1, 0, 0]);
    assert!(answers[1..].iter().all(|answer| answer.note == 0 && marks(answer) == NONE));
    assert_eq!(state_after(&table, &events).switches[0].value, 2);
}

#[test]
fn freeze_holds_no_marks() {
    let table = table(&[BY_3_HALVES, (49, 2), (50, 1)]);
    let events = [Telegram(2), Levels(1), Telegram(1), Levels(0)];
    assert_eq!(run(&table, &events), [(3, NONE), (3, NONE), (2, [1, 0, 0]), (2, NONE)]);
}

// Resets

#[test]
fn reset_carried_out_has_the_marks_of_the_new_result() {
    // d = 1 is 1.5; after the reset d is 0, v = A = 3, 4.5; the fall asks for nothing.
    let bent = table(&[&FOUR_QUADRANTS[..], &[BY_3_HALVES, (12, 3), (49, 1)]].concat());
    let events = [Telegram(1), Levels(1), Levels(0), Levels(1)];
    // v = 2 + 3 = 5 is 7.5.
    let expected = [(8, [1, 1, 0]), (5, [0, 1, 0]), (5, NONE), (5, [0, 1, 0])];
    assert_eq!(run(&bent, &events), expected);
    // A = 5,000 is the middle of the analog span.
    let middle = table(&[BY_3_HALVES, (12, 5_000), (49, 1)]);
    assert_eq!(run(&middle, &events[..2]), [(5_002, [1, 0, 0]), (5_000, [0, 0, 1])]);
    // Both, and none: r = 5 of a span of 10, r = 0.
    let both = table(&[&FOUR_QUADRANTS[..], &[BY_3_HALVES, (12, 3), (16, 10), (49, 1)]].concat());
    assert_eq!(run(&both, &events[..2])[1], (5, [0, 1, 1]));
    let plain = table(&[BY_3_HALVES, (49, 1)]);
    assert_eq!(run(&plain, &events[..2]), [(2, [1, 0, 0]), (0, NONE)]);
}

#[test]
fn reset_beside_other_commands() {
    // Under error 1 the teach of input 1 is 13, the reset of input 2 is carried out: A = 5,000.
    let slots = [&WIDE[..], &[(5, -Z), (12, 5_000), (49, 5), (51, 1)]].concat();
    let events = [Telegram(10), Levels(3)];
    assert_eq!(noted(&table(&slots), &events), [(0, NONE), (13, [0, 0, 1])]);
    assert_eq!(errors(&table(&slots), &events), [(1, NONE), (0, [0, 0, 1])]);
    // A reset of each input, and a teach behind it.
    let three = table(&[(12, 5_000), (49, 1), (51, 1), (53, 5)]);
    assert_eq!(run(&three, &[Telegram(3), Levels(7)]), [(5_003, NONE), (5_000, [0, 0, 1])]);
}

#[test]
fn refused_resets_have_none() {
    // 13: no telegram yet, though A alone would be the middle of the span.
    let middle = [(12, 5_000), (49, 1), (51, 1)];
    assert_eq!(noted(&table(&middle), &[Levels(1), Levels(3)]), [(13, NONE), (13, NONE)]);
    // 13: error 3.
    let faulty = table(&[&ERROR_BIT[..], &middle].concat());
    let events = [Telegram(0), Telegram(AT_ERROR), Levels(3)];
    assert_eq!(noted(&faulty, &events), [(0, [0, 0, 1]), (0, NONE), (13, NONE)]);
    // 12: p above Z. 100,000,001 ÷ 2 = 50,000,000.5.
    let wide = table(&[&WIDE[..], &[(10, 50_000), (49, 1), (51, 5)]].concat());
    let events = [Telegram(100_000_001), Levels(3), Levels(0), Telegram(99_999_999), Levels(1)];
    let halved = (0, [1, 0, 0]);
    assert_eq!(noted(&wide, &events), [halved, (12, NONE), (0, NONE), halved, (0, NONE)]);
}

// Halves upward

/// Result and error of a telegram by both roundings, ours first.
fn both(table: &Table, word: u32) -> [(i64, u8); 2] {
    let place = Some(directed(table, telegram::read(table, word).unwrap().position));
    let ours = measure(table, table.offset, place);
    [(ours.result, ours.error), measure_upward(table, table.offset, place)]
}

#[test]
fn halves_upward_part_at_negative_halves() {
    // −1.5 is −2 or −1, 1.5 is 2 by both.
    let plain = table(&[OFFSET, BY_3_HALVES]);
    assert_eq!(both(&plain, 999), [(-2, 0), (-1, 0)]);
    assert_eq!(both(&plain, 1_001), [(2, 0), (2, 0)]);
    // −0.5 is −1 or 0, 4.5 is 5 by both.
    let four = table(&[&FOUR_QUADRANTS[..], &[OFFSET]].concat());
    assert_eq!(both(&four, 999), [(-1, 0), (0, 0)]);
    assert_eq!(both(&four, 1_003), [(5, 0), (5, 0)]);
    // −4.5 is −5 or −4.
    let one = table(&[&ONE_QUADRANT[..], &[OFFSET]].concat());
    assert_eq!(both(&one, 997), [(-5, 0), (-4, 0)]);
    // A scaling half that no digit shows: −0.5 with A = 10 is 9 or 10, on a level line 7 by both.
    let level = [(5, 1), (10, 50_000), (12, 10), (13, 2), (57, 7), (58, 20), (59, 7)];
    assert_eq!(both(&table(&level), 0), [(7, 0), (7, 0)]);
    assert_eq!(run(&table(&level), &telegrams(&[0])), [(7, [1, 0, 0])]);
}

#[test]
fn halves_upward_part_at_the_edge_of_error_2() {
    // −2,247,191 × 44.5 = −99,999,999.5: −100,000,000 is error 2, −99,999,999 shows.
    let steep = table(&[(5, 2_247_191), (10, 4_450_000)]);
    assert_eq!(both(&steep, 0), [(0, 2), (-99_999_999, 0)]);
    assert_eq!(errors(&steep, &telegrams(&[0])), [(2, NONE)]);
    // The same by −0.5 and A = −Z.
    let low = table(&[(5, 1), (10, 50_000), (12, -Z)]);
    assert_eq!(both(&low, 0), [(0, 2), (-99_999_999, 0)]);
    assert_eq!(errors(&low, &telegrams(&[0])), [(2, NONE)]);
    // 199,999,999 ÷ 2 = 99,999,999.5 is error 1 by both.
    let wide = table(&[&WIDE[..], &[(10, 50_000)]].concat());
    assert_eq!(both(&wide, 199_999_999), [(0, 1), (0, 1)]);
    // Error 3 by both.
    assert_eq!(measure_upward(&low, 1, None), (0, 3));
}

// Random runs

/// A telegram accepted without error, or levels in which some reset is carried out.
fn may_be_marked(step: &Step) -> bool {
    match step.event {
        Telegram(_) => step.answer.note == 0 && step.answer.error == 0,
        Levels(levels) => {
            let asked = panel::asked(step.table, step.before.levels, levels);
            let reading = step.before.telegram.and_then(|word| telegram::read(step.table, word));
            asked.contains(&Action::Reset) && reading.is_some_and(|reading| takes(step, reading))
        }
        Tick(_) => false,
    }
}

/// Whether a reset takes a reading; K4: with a round loop above Z too.
fn takes(step: &Step, reading: Reading) -> bool {
    let in_range = directed(step.table, reading.position) <= Z.into();
    !reading.faulty && (in_range || step.table.round_loop > 0)
}

#[test]
fn random_runs_have_no_marks_elsewhere() {
    let mut elsewhere = 0;
    for index in 0..2_000 {
        panelrun::run_with(&generate::case(17, index).input, |step| {
            if !may_be_marked(&step) {
                elsewhere += 1;
                assert_eq!(marks(step.answer), NONE, "case {index}");
            }
        });
    }
    assert!(elsewhere > 10_000);
}

#[test]
fn random_runs_agree_where_nothing_is_marked() {
    let mut seen = Coverage::default();
    for index in 0..6_000 {
        seen.add(&observe(&generate::case(7, index).input).1);
    }
    assert!(seen.marked.iter().all(|&marks| marks > 200), "{:?}", seen.marked);
    assert_eq!(seen.marked_by_reset[0], 0);
    assert!(
        seen.marked_by_reset[1..].iter().all(|&marks| marks > 10),
        "{:?}",
        seen.marked_by_reset
    );
    assert!(seen.unmarked > 10_000);
    assert_eq!(seen.unmarked_apart, 0);
    assert!(seen.halved_apart > 200 && seen.halved_apart < seen.halved);
}
