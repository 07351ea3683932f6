//! The settled readings of the paper's open points.

mod common;

use common::*;
use model::analog::Drive;
use model::measure::linearized;
use model::panel::{self, Extremes};

/// N = H = 32, so that errors 1 and 12 can be reached.
const WIDE: [(usize, i32); 2] = [(0, 32), (3, 32)];

fn wide(slots: &[(usize, i32)]) -> model::table::Table {
    table(&[&WIDE, slots].concat())
}

// From telegram to result

/// 24 points (100 j, 10 j²) from j = 0 on, of which the first `used` are in use.
fn long_curve(used: i32) -> model::table::Table {
    let points =
        (0..24).flat_map(|j| [(56 + 2 * j, 100 * j as i32), (57 + 2 * j, 10 * (j * j) as i32)]);
    table(&[(13, 2), (55, used)].into_iter().chain(points).collect::<Vec<_>>())
}

#[test]
fn highest_used_point_at_most_v() {
    let all = long_curve(24);
    let values = [2_400, 2_300, 2_250, 1_150, 50, -50].map(|v| linearized(&all, v).value);
    assert_eq!(values, [5_290, 5_290, 5_065, 1_325, 5, 0]);
    // Points behind the twelfth, 1,200 to 2,200, lie below 2,250 and do not count.
    let twelve = long_curve(12);
    let values = [2_250, 1_100, 1_050, 50].map(|v| linearized(&twelve, v).value);
    assert_eq!(values, [1_210, 1_210, 1_105, 5]);
}

// Events and inputs

#[test]
fn reset_that_ends_error_1_lets_a_teach_run() {
    let table = wide(&[(5, -99_999_999), (12, 7), (49, 1), (51, 5)]);
    let events = [Telegram(10), Levels(3)];
    let run = answers(&table, &events);
    assert_eq!((run[0].error, run[0].result), (1, 0));
    assert_eq!((run[1].error, run[1].result, run[1].note), (0, 7, 0));
    assert_eq!(state_after(&table, &events).switches[0].value, 7);
}

#[test]
fn teach_before_the_reset_is_13_and_the_reset_runs() {
    let table = wide(&[(5, -99_999_999), (12, 7), (49, 5), (51, 1)]);
    let events = [Telegram(10), Levels(3)];
    let run = answers(&table, &events);
    assert_eq!((run[1].error, run[1].result, run[1].note), (0, 7, 13));
    assert_eq!(state_after(&table, &events).switches[0].value, 1_000);
}

#[test]
fn note_is_that_of_the_lowest_refused_input() {
    // Position above Z without error: reset is 12, teach runs.
    let table = wide(&[(10, 1), (49, 5), (51, 1), (53, 1)]);
    assert_eq!(notes(&table, &[Telegram(200_000_000), Levels(7)]), [0, 12]);
    // Under error 3 both are 13, also above Z.
    let faulty = table_with_error_bit();
    assert_eq!(
        notes(&faulty, &[Telegram(0xFFFF_FFFF), Levels(1), Levels(0), Levels(2)]),
        [0, 13, 0, 13]
    );
    // 13 of input 1 stands before 12 of input 2, in error 1.
    let error_1 = wide(&[(49, 5), (51, 1)]);
    assert_eq!(notes(&error_1, &[Telegram(200_000_000), Levels(3)]), [0, 13]);
    let other_order = wide(&[(49, 1), (51, 5)]);
    assert_eq!(notes(&other_order, &[Telegram(200_000_000), Levels(3)]), [0, 12]);
}

/// Bits 1 to 31 and error bit 32; reset and teach on inputs 1 and 2.
fn table_with_error_bit() -> model::table::Table {
    table(&[(0, 32), (3, 31), (8, 32), (49, 1), (51, 5)])
}

#[test]
fn reset_limit_is_z() {
    let table = wide(&[(49, 1)]);
    let at = |position| last(&table, &[Telegram(position), Levels(1)]).note;
    assert_eq!([at(99_999_999), at(100_000_000)], [0, 12]);
}

#[test]
fn commands_before_the_first_telegram() {
    let table = table(&[(49, 1), (51, 6), (53, 4)]);
    let events = [Levels(7), Levels(0), Levels(4), Levels(2), Telegram(5)];
    assert_eq!(notes(&table, &events), [13, 0, 0, 13, 0]);
    assert_eq!(state_after(&table, &events[..4]).levels, 2);
    assert_eq!(state_after(&table, &events[..4]).extremes, None);
    assert_eq!(last(&table, &events).result, 5);
}

#[test]
fn levels_above_7_are_refused() {
    let table = table(&[(49, 1)]);
    let events = [Telegram(5), Levels(8)];
    assert_eq!(last(&table, &events).note, 10);
    assert_eq!(state_after(&table, &events), state_after(&table, &events[..1]));
    assert_eq!(last(&table, &events).result, 5);
}

#[test]
fn refused_telegram_answers_the_old_values() {
    let table = table(&[]);
    let run = answers(&table, &[Telegram(1_000), Telegram(1 << 25)]);
    assert_eq!(run[1], panel::Answer { note: 11, ..run[0] });
}

#[test]
fn configs_choose_the_edge() {
    for (config, expected) in [(0, [9, 0]), (1, [0, 0]), (2, [0, 0]), (3, [9, 0])] {
        let table = table(&[(49, 1), (50, config)]);
        let run = results(&table, &[Telegram(9), Levels(1), Levels(0)]);
        assert_eq!(run[1..], expected);
    }
}

#[test]
fn freeze_holds_shown_and_nothing_else() {
    let table = table(&[(49, 2), (50, 1), (51, 1), (17, 10), (18, 3)]);
    let run = answers(&table, &[Telegram(4), Levels(1), Telegram(20), Levels(3), Levels(2)]);
    let shown: Vec<i64> = run.iter().map(|answer| answer.shown).collect();
    let result: Vec<i64> = run.iter().map(|answer| answer.result).collect();
    assert_eq!(result, [4, 4, 20, 0, 0]);
    assert_eq!(shown, [4, 4, 4, 4, 0]);
    assert!(run[2].outputs[0] && !run[3].outputs[0]);
    assert_eq!(run[2].code, Some(66));
}

#[test]
fn freeze_and_reset_in_one_event() {
    let table = table(&[(49, 1), (51, 2), (52, 1)]);
    let run = answers(&table, &[Telegram(4), Levels(3)]);
    assert_eq!((run[1].result, run[1].shown), (0, 4));
}

#[test]
fn freeze_at_low_holds_from_the_fresh_state() {
    let table = table(&[(53, 2), (54, 0), (8, 25), (3, 24)]);
    let run = answers(&table, &[Telegram(4), Levels(4), Levels(0), Telegram(1 << 24), Levels(4)]);
    let shown: Vec<i64> = run.iter().map(|answer| answer.shown).collect();
    assert_eq!(shown, [0, 4, 4, 4, 0]);
}

#[test]
fn least_and_greatest() {
    let table = table(&[(49, 4), (51, 1), (5, 100), (8, 25), (3, 24)]);
    let range = |events: &[panel::Event]| state_after(&table, events).extremes;
    let both = |least, greatest| Some(Extremes { least, greatest });
    assert_eq!(range(&[Telegram(150), Telegram(1 << 24), Telegram(120)]), both(20, 50));
    assert_eq!(range(&[Telegram(150), Telegram(120), Levels(1)]), both(20, 20));
    assert_eq!(range(&[Telegram(150), Telegram(120), Levels(2)]), both(0, 50));
    assert_eq!(range(&[Telegram(150), Telegram(120), Levels(3)]), both(0, 20));
    assert_eq!(range(&[Telegram(150), Telegram(1 << 24), Levels(1)]), None);
}

#[test]
fn ticks_change_pulses_only() {
    let table = table(&[(17, 10), (18, 3), (20, 50)]);
    let run = answers(&table, &[Tick(9), Telegram(10), Tick(49), Tick(0), Tick(1), Tick(9)]);
    assert_eq!(run[0].drive, Drive::Off);
    assert_eq!(
        run.iter().map(|a| a.outputs[0]).collect::<Vec<_>>(),
        [false, true, true, true, false, false]
    );
    assert!(run[1..].iter().all(|a| (a.result, a.shown, a.code) == (10, 10, Some(33))));
}

// Switching

#[test]
fn nothing_switches_before_the_first_telegram() {
    let table = table(&[(17, -5), (18, 3)]);
    assert_eq!(
        output_1(&table, &[Levels(1), Tick(5), Telegram(1 << 25), Telegram(0)]),
        [false, false, false, true]
    );
}

#[test]
fn error_3_is_accepted_and_switches_on_0() {
    let table = table(&[(17, 0), (18, 3), (8, 25), (3, 24)]);
    assert_eq!(output_1(&table, &[Telegram(1 << 24)]), [true]);
}

#[test]
fn modes_without_sign_never_turn_off_below_0() {
    let table = table(&[(17, 3), (18, 0), (19, 4)]);
    assert_eq!(condition_1(&table, &telegrams(&[2, 3, 0])), [false, true, true]);
}

#[test]
fn modes_without_sign() {
    let slots = |mode, h| table(&[(5, 1_000), (17, -10), (18, mode), (19, h)]);
    // Results −9, −10, −8, −7.
    let results = telegrams(&[991, 990, 992, 993]);
    assert_eq!(condition_1(&slots(0, 2), &results), [false, true, true, false]);
    // Results −11, −10, −12, −13.
    let results = telegrams(&[989, 990, 988, 987]);
    assert_eq!(condition_1(&slots(1, 2), &results), [false, true, true, false]);
    // Results −8, −9, 11, 12.
    let results = telegrams(&[992, 991, 1_011, 1_012]);
    assert_eq!(condition_1(&slots(2, 2), &results), [false, true, true, false]);
    assert_eq!(condition_1(&slots(2, 3), &results), [false, true, true, false]);
}

#[test]
fn mode_4_with_hysteresis() {
    let table = table(&[(17, 100), (18, 4), (19, 5)]);
    let run = condition_1(&table, &telegrams(&[101, 100, 105, 106, 101]));
    assert_eq!(run, [false, true, true, false, false]);
}

/// K1: how often output 1 switches at the edge of preselection 1, as it comes and with a stored 0.
#[test]
fn chattering() {
    let edge = telegrams(&[999, 1_000, 999, 1_000, 999]);
    assert_eq!(output_1(&table(&[]), &edge), [false, true, true, true, true]);
    assert_eq!(output_1(&table(&[(19, 0)]), &edge), [false, true, false, true, false]);
}

#[test]
fn mode_6_compares_with_partner_minus_own() {
    let table = table(&[(17, 30), (18, 6), (19, 5), (25, 100)]);
    let run = condition_1(&table, &telegrams(&[69, 70, 65, 64]));
    assert_eq!(run, [false, true, true, false]);
    let third = common::table(&[(33, 40), (34, 6), (41, 100), (42, 6)]);
    let state = state_after(&third, &telegrams(&[60]));
    let on = state.switches.map(|switch| switch.condition);
    assert_eq!(on[2..], [true, true]);
    let state = state_after(&third, &telegrams(&[59]));
    assert_eq!(state.switches.map(|switch| switch.condition)[2..], [false, true]);
}

#[test]
fn suppression_holds_the_condition_off() {
    let table = table(&[(17, 100), (18, 4), (19, 5), (24, 1)]);
    let run = condition_1(&table, &telegrams(&[50, 100, 101, 100, 50]));
    assert_eq!(run, [false, false, false, true, true]);
}

#[test]
fn suppression_in_mode_1_goes_without_sign() {
    let table = table(&[(5, 1_000), (17, -100), (18, 1), (24, 1)]);
    let run = condition_1(&table, &telegrams(&[1_050, 899, 950]));
    assert_eq!(run, [false, false, true]);
}

#[test]
fn suppression_works_in_modes_1_and_4_only() {
    let table = table(&[(17, 100), (18, 5), (19, 10), (24, 1)]);
    assert_eq!(condition_1(&table, &telegrams(&[100])), [true]);
}

#[test]
fn suppression_ends_against_the_taught_preselection() {
    let table = table(&[(17, 100), (18, 4), (24, 1), (49, 5)]);
    // Taught to 50 in an event with result 50: not exceeded. 60 exceeds 50.
    let run = condition_1(&table, &[Telegram(50), Levels(1), Telegram(60), Telegram(40)]);
    assert_eq!(run, [false, false, false, true]);
}

#[test]
fn suppression_ends_on_0_under_an_error() {
    let table = table(&[(5, 100), (17, -5), (18, 4), (24, 1), (8, 25), (3, 24)]);
    let run = condition_1(&table, &telegrams(&[90, 1 << 24, 90]));
    assert_eq!(run, [false, false, true]);
}

#[test]
fn suppression_does_not_end_before_the_first_telegram() {
    // Result 0 exceeds −5, but no telegram is accepted yet.
    let table = table(&[(5, 100), (17, -5), (18, 4), (24, 1)]);
    let run = condition_1(&table, &[Levels(1), Levels(0), Telegram(90)]);
    assert_eq!(run, [false, false, false]);
}

#[test]
fn pulse_starts_anew_with_its_full_time() {
    let table = table(&[(17, 10), (18, 3), (19, 0), (20, 50)]);
    let events = [Telegram(10), Tick(30), Telegram(9), Telegram(10), Tick(49), Tick(1)];
    assert_eq!(output_1(&table, &events), [true, true, true, true, true, false]);
    assert_eq!(state_after(&table, &events[..4]).switches[0].pulse_left, 50);
}

#[test]
fn condition_that_stays_on_starts_no_pulse() {
    let table = table(&[(17, 10), (18, 3), (20, 50)]);
    assert_eq!(output_1(&table, &[Telegram(10), Tick(50), Telegram(11)]), [true, false, false]);
}

#[test]
fn lock_holds_until_cleared() {
    let table = table(&[(17, 10), (18, 3), (23, 1), (49, 3)]);
    let events =
        [Telegram(10), Telegram(5), Levels(1), Telegram(10), Levels(0), Levels(1), Telegram(5)];
    assert_eq!(output_1(&table, &events), [true, true, false, true, true, true, true]);
}

#[test]
fn event_that_clears_the_locks_and_ends_the_signal() {
    let table = table(&[(17, 10), (18, 3), (23, 1), (49, 3), (51, 1)]);
    assert_eq!(output_1(&table, &[Telegram(10), Levels(3)]), [true, false]);
}

#[test]
fn lock_on_a_pulse() {
    let table = table(&[(17, 10), (18, 3), (20, 50), (23, 1), (49, 3)]);
    let events = [Telegram(10), Levels(1), Tick(60), Levels(0), Levels(1)];
    assert_eq!(output_1(&table, &events), [true, true, true, true, false]);
}

#[test]
fn outputs_and_polarity() {
    // 1 and 2 share output 3, active low; 3 aims at none; 4 at output 1.
    let table = table(&[
        (21, 3),
        (22, 1),
        (29, 3),
        (30, 1),
        (37, 0),
        (38, 1),
        (45, 1),
        (17, 10),
        (25, 20),
        (33, 5),
        (41, 30),
    ]);
    let outs = |position| last(&table, &[Telegram(position)]).outputs;
    assert_eq!(outs(0), [false, false, true, false]);
    assert_eq!(outs(10), [false, false, false, false]);
    assert_eq!(outs(30), [true, false, false, false]);
    assert_eq!(last(&table, &[Tick(0)]).outputs, [false, false, true, false]);
    // The second alone makes the shared output active.
    let second = common::table(&[(21, 1), (29, 1), (17, 50), (25, 20), (37, 0), (45, 0)]);
    assert_eq!(last(&second, &[Telegram(20)]).outputs, [true, false, false, false]);
}
