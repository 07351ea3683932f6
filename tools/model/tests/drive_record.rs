//! K6: the record of present, lowest and highest drive, worked out by hand.

mod common;

use common::*;
use model::analog::{self, Drive};
use model::drives::{self, Mistake};
use model::generate;
use model::panel::{self, Event, Extremes, Record};
use model::panelrun::{self, Step};
use model::table::{Action, AnalogFormat, Table, Z};
use model::tally;

/// 5 V is 1.25 × 2^2: exponent 129, mantissa .01. Code 16,384 × 10 ÷ 32,768.
const VOLTS_5: u32 = 0x40A0_0000;
const VOLTS_MINUS_5: u32 = 0xC0A0_0000;
/// Code 32,767: 327,670 ÷ 32,768 is hex 4FFF6 ÷ 2^15, 19 binary digits: exponent 127 + 18 − 15 = 130; the
/// 18 behind the first are hex FFF6, and five zeros behind them make hex 1FFEC0.
const VOLTS_TOP: u32 = 0x411F_FEC0;
const VOLTS_BOTTOM: u32 = 0xC11F_FEC0;
/// 10 mA is 1.25 × 2^3, 12 mA 1.5 × 2^3, 4 mA 1 × 2^2. Code 32,768 in formats 1 and 2, and 0 in 2.
const MILLIAMPS_10: u32 = 0x4120_0000;
const MILLIAMPS_12: u32 = 0x4140_0000;
const MILLIAMPS_4: u32 = 0x4080_0000;
/// Format 2, code 65,535: 20 − 16 ÷ 65,536 is hex 13FFF0 ÷ 2^16, 21 digits: exponent 127 + 20 − 16 = 131;
/// the 20 behind the first are hex 3FFF0, and three zeros behind them make hex 1FFF80.
const MILLIAMPS_TOP: u32 = 0x419F_FF80;

/// Bits 1 to 24 and error bit 25.
const ERROR_BIT: [(usize, i32); 2] = [(3, 24), (8, 25)];
const AT_ERROR: Event = Telegram(1 << 24);
/// N = H = 32.
const WIDE: [(usize, i32); 2] = [(0, 32), (3, 32)];
/// Clear on input 1 and reset on input 2, and the other way round.
const ORDERS: [[(usize, i32); 2]; 2] = [[(49, 4), (51, 1)], [(49, 1), (51, 4)]];

/// Present, and lowest and highest where they are not empty.
type Shown = (u32, Option<[u32; 2]>);

/// The record of a state; an empty one holds 0.
fn shown(table: &Table, state: &panel::State) -> Shown {
    let Record { present, lowest, highest, empty } = panel::record(table, state);
    assert!(!empty || [lowest, highest] == [0, 0]);
    (present, (!empty).then_some([lowest, highest]))
}

/// The record after a run.
fn record(table: &Table, events: &[Event]) -> Shown {
    shown(table, &state_after(table, events))
}

/// The records after each event of a run.
fn records(table: &Table, events: &[Event]) -> Vec<Shown> {
    (1..=events.len()).map(|n| record(table, &events[..n])).collect()
}

/// A record whose lowest and highest are present.
fn both(present: u32) -> Shown {
    (present, Some([present, present]))
}

const EMPTY: Shown = (0, None);

// Drives

#[test]
fn floats_of_the_paper() {
    // 5,000 of 0 to 10,000 is the middle: 16,383.5 and 32,767.5, rounded up.
    let first = |format, p| record(&table(&[(14, format)]), &telegrams(&[p]));
    assert_eq!(first(0, 5_000), both(VOLTS_5));
    assert_eq!(first(1, 5_000), both(MILLIAMPS_10));
    assert_eq!(first(2, 5_000), both(MILLIAMPS_12));
    assert_eq!(first(2, 0), both(MILLIAMPS_4));
    assert_eq!(first(0, 10_000), both(VOLTS_TOP));
    assert_eq!(first(2, 10_000), both(MILLIAMPS_TOP));
    // 0 V and 0 mA that are driven are not empty.
    assert_eq!(first(0, 0), both(0));
    assert_eq!(first(1, 0), both(0));
    // Held codes.
    assert_eq!(first(0, 20_000), both(VOLTS_TOP));
    assert_eq!(first(2, 20_000), both(MILLIAMPS_TOP));
}

#[test]
fn fresh_is_empty() {
    for format in 0..=2 {
        let table = table(&[(14, format), (49, 1), (51, 5)]);
        assert_eq!(record(&table, &[]), EMPTY);
        // Nothing is driven before the first telegram, 13 or not.
        assert_eq!(records(&table, &[Tick(5), Levels(3), Levels(0)]), [EMPTY; 3]);
    }
}

#[test]
fn lowest_and_highest_follow() {
    let table = table(&[]);
    let expected = [
        both(VOLTS_5),
        (VOLTS_TOP, Some([VOLTS_5, VOLTS_TOP])),
        (VOLTS_5, Some([VOLTS_5, VOLTS_TOP])),
        (0, Some([0, VOLTS_TOP])),
        (VOLTS_5, Some([0, VOLTS_TOP])),
    ];
    assert_eq!(records(&table, &telegrams(&[5_000, 10_000, 5_000, 0, 5_000])), expected);
}

#[test]
fn drives_below_0() {
    // As whole numbers the bits of −5 V are above those of 5 V, and above those of −10 V.
    let table = table(&[(5, 20_000)]);
    let expected = [
        both(VOLTS_MINUS_5),
        (VOLTS_5, Some([VOLTS_MINUS_5, VOLTS_5])),
        (VOLTS_BOTTOM, Some([VOLTS_BOTTOM, VOLTS_5])),
        (VOLTS_MINUS_5, Some([VOLTS_BOTTOM, VOLTS_5])),
    ];
    assert_eq!(records(&table, &telegrams(&[15_000, 25_000, 10_000, 15_000])), expected);
}

#[test]
fn falling_span() {
    // Start 10,000, end 0: the greatest result is the lowest drive.
    let table = table(&[(15, 10_000), (16, 0)]);
    let events = telegrams(&[10_000, 5_000]);
    assert_eq!(record(&table, &events), (VOLTS_5, Some([0, VOLTS_5])));
}

// Off

#[test]
fn off_leaves_lowest_and_highest() {
    let present = [VOLTS_5, MILLIAMPS_10, MILLIAMPS_12];
    for (format, now) in [0, 1, 2].into_iter().zip(present) {
        let table = table(&[&ERROR_BIT[..], &[(14, format)]].concat());
        let events = [Telegram(5_000), AT_ERROR, Tick(9), Levels(7), Telegram(5_000)];
        let off = (0, Some([now, now]));
        assert_eq!(records(&table, &events), [both(now), off, off, off, both(now)]);
        // Off before anything was driven.
        assert_eq!(records(&table, &[AT_ERROR, Telegram(5_000)]), [EMPTY, both(now)]);
    }
}

#[test]
fn off_by_errors_1_and_2() {
    // 100,000,000 is error 1.
    let wide = table(&WIDE);
    let high = [Telegram(5_000), Telegram(100_000_000), Telegram(10_000)];
    let expected =
        [both(VOLTS_5), (0, Some([VOLTS_5, VOLTS_5])), (VOLTS_TOP, Some([VOLTS_5, VOLTS_TOP]))];
    assert_eq!(records(&wide, &high), expected);
    // −1 beside A = −Z is error 2; −Z itself drives −10 V, which 0 is not below.
    let low = table(&[(5, 1), (12, -Z)]);
    let expected = [both(VOLTS_BOTTOM), (0, Some([VOLTS_BOTTOM, VOLTS_BOTTOM]))];
    assert_eq!(records(&low, &telegrams(&[1, 0])), expected);
}

// Clear

#[test]
fn clear_sets_both_to_present() {
    let table = table(&[(49, 4)]);
    let events = [Telegram(5_000), Telegram(10_000), Levels(1), Levels(0), Telegram(0), Levels(1)];
    let wide = (VOLTS_TOP, Some([VOLTS_5, VOLTS_TOP]));
    let after = (0, Some([0, VOLTS_TOP]));
    let expected = [both(VOLTS_5), wide, both(VOLTS_TOP), both(VOLTS_TOP), after, both(0)];
    assert_eq!(records(&table, &events), expected);
}

#[test]
fn clear_when_off_is_empty() {
    for (format, now) in [(0, VOLTS_TOP), (2, MILLIAMPS_TOP)] {
        let table = table(&[&ERROR_BIT[..], &[(14, format), (49, 4)]].concat());
        let events = [Telegram(5_000), AT_ERROR, Levels(1), Tick(1), Telegram(10_000), AT_ERROR];
        let expected = [EMPTY, EMPTY, both(now), (0, Some([now, now]))];
        assert_eq!(records(&table, &events)[2..], expected);
        // Before the first telegram.
        assert_eq!(record(&table, &[Levels(1)]), EMPTY);
    }
}

#[test]
fn clear_and_reset_in_one_event() {
    // A = 5,000: 5,000 is 10,000, and 5,000 again after the reset.
    for inputs in ORDERS {
        let table = table(&[&[(12, 5_000)], &inputs[..]].concat());
        let events = [Telegram(5_000), Levels(3), Levels(0)];
        assert_eq!(records(&table, &events), [both(VOLTS_TOP), both(VOLTS_5), both(VOLTS_5)]);
    }
    // A reset alone is taken in.
    let reset = table(&[(12, 5_000), (49, 1)]);
    let expected = (VOLTS_5, Some([VOLTS_5, VOLTS_TOP]));
    assert_eq!(record(&reset, &[Telegram(5_000), Levels(1)]), expected);
    // Least and greatest result go by the order of the inputs.
    let extremes = ORDERS.map(|inputs| {
        let table = table(&[&[(12, 5_000)], &inputs[..]].concat());
        state_after(&table, &[Telegram(5_000), Levels(3)]).extremes.unwrap()
    });
    let of = |least, greatest| Extremes { least, greatest };
    assert_eq!(extremes, [of(5_000, 10_000), of(5_000, 5_000)]);
}

#[test]
fn clear_and_a_reset_that_ends_an_error() {
    // O = −Z, A = −20: 10 is Z − 10, held at the top; 30 is Z + 10, error 1. After the reset −20 is the
    // middle of the span.
    let slots = [(5, -Z), (12, -20), (15, -10_020), (16, 9_980)];
    let events = [Telegram(10), Telegram(30), Levels(3)];
    let off = (0, Some([VOLTS_TOP, VOLTS_TOP]));
    for inputs in ORDERS {
        let table = table(&[&WIDE[..], &slots, &inputs].concat());
        assert_eq!(records(&table, &events), [both(VOLTS_TOP), off, both(VOLTS_5)]);
    }
    // Without the clear.
    let reset = table(&[&WIDE[..], &slots, &[(49, 1)]].concat());
    assert_eq!(record(&reset, &events), (VOLTS_5, Some([VOLTS_5, VOLTS_TOP])));
}

#[test]
fn clear_beside_a_refused_command() {
    for inputs in ORDERS {
        // 12: 150,000,000 ÷ 2 is a result, its p is above Z.
        let wide = table(&[&WIDE[..], &[(10, 50_000)], &inputs].concat());
        let events = [Telegram(0), Telegram(150_000_000), Levels(3)];
        assert_eq!(notes(&wide, &events), [0, 0, 12]);
        let before = (VOLTS_TOP, Some([0, VOLTS_TOP]));
        assert_eq!(records(&wide, &events), [both(0), before, both(VOLTS_TOP)]);
        // 13: under error 3.
        let faulty = table(&[&ERROR_BIT[..], &inputs].concat());
        let events = [Telegram(5_000), AT_ERROR, Levels(3)];
        assert_eq!(notes(&faulty, &events), [0, 0, 13]);
        assert_eq!(record(&faulty, &events), EMPTY);
    }
}

#[test]
fn two_clears_and_a_reset_between() {
    let table = table(&[(12, 5_000), (49, 4), (51, 1), (53, 4)]);
    assert_eq!(record(&table, &[Telegram(5_000), Levels(7)]), both(VOLTS_5));
}

// What leaves it

#[test]
fn refused_events_leave_it() {
    // 11, and 10 with the edge of a clear beneath.
    let table = table(&[(49, 4)]);
    let events = [Telegram(5_000), Telegram(0), Telegram(1 << 25), Levels(9), Levels(255)];
    assert_eq!(notes(&table, &events), [0, 0, 11, 10, 10]);
    let wide = (0, Some([0, VOLTS_5]));
    assert_eq!(records(&table, &events), [both(VOLTS_5), wide, wide, wide, wide]);
}

#[test]
fn freeze_teach_and_ticks_leave_it() {
    // The drive follows the result under freeze.
    let frozen = table(&[(49, 2), (50, 1), (51, 5), (53, 3)]);
    let events = [Telegram(5_000), Levels(1), Telegram(10_000), Levels(7), Tick(1), Levels(0)];
    let wide = (VOLTS_TOP, Some([VOLTS_5, VOLTS_TOP]));
    let expected = [both(VOLTS_5), both(VOLTS_5), wide, wide, wide, wide];
    assert_eq!(records(&frozen, &events), expected);
    assert_eq!(answers(&frozen, &events)[2].shown, 5_000);
}

// Mistakes

/// Clear on input 1, reset on input 2, error bit 25, A = 5,000: 5,000 is 10,000, at the top, and 5 V after
/// a reset.
const PANEL: &str = "slot 2 1\nslot 3 24\nslot 8 25\nslot 12 5000\nslot 49 4\nslot 51 1\n";

/// The mistakes that the records of a text tell.
fn told(text: &str) -> Vec<Mistake> {
    let (_, met) = tally::observe(format!("{PANEL}{text}").as_bytes());
    drives::ALL.into_iter().filter(|mistake| met.of(&mistake.name()) > 0).collect()
}

#[test]
fn mistakes_that_a_record_tells() {
    use Mistake::*;
    // Both at 5 V; at the clear's place both at the top, and lower after the reset.
    assert_eq!(told("start\nt 1388\ni 3\nrecord\n"), [ClearInPlace, ClearLeftOut]);
    // Off: 0, and both at the top.
    let off = "start\nt 1388\nt 1000000\nrecord\n";
    assert_eq!(told(off), [OffTakenIn, PresentKept, ZeroTakenIn]);
    let expected = [OffTakenIn, OffAt4, PresentKept, ZeroTakenIn];
    assert_eq!(told(&format!("slot 14 2\n{off}")), expected);
    // Empty, and then both at 5 V.
    let empty = "start\nt 1388\nt 1000000\ni 1\n";
    assert_eq!(told(&format!("{empty}record\n")), [ClearLeftOut, PresentKept, Unmarked]);
    let expected = [ClearLeftOut, Unmarked, ValueLeft, ZeroTakenIn];
    assert_eq!(told(&format!("{empty}c 5\nt 0\nrecord\n")), expected);
    // Empty beside a reset that 13 refuses.
    let expected = [ClearLeftOut, PresentKept, Unmarked, RefusedCommand];
    assert_eq!(told("start\nt 1388\nt 1000000\ni 3\nrecord\n"), expected);
    // Empty after a write of slot 12.
    let write = "f 01 10 00 18 00 02 04 00 01 00 00 A2 C5";
    assert_eq!(told(&format!("start\nt 1388\n{write}\nrecord\n")), [WriteKeeps]);
}

// Random runs

/// The bits of a code's drive by 32-bit arithmetic.
fn float(format: AnalogFormat, code: i32) -> u32 {
    match analog::drive(format, code) {
        Drive::Off => 0,
        Drive::Volts(float) | Drive::Milliamps(float) => float.to_bits(),
    }
}

/// Whether a step asks for a clear.
fn clears(step: &Step) -> bool {
    match step.event {
        Levels(levels) => {
            panel::asked(step.table, step.before.levels, levels).contains(&Action::ClearExtremes)
        }
        _ => false,
    }
}

/// Each step of random runs, with the codes that were driven since the last clear, in their order.
fn walk(mut see: impl FnMut(&Step, &[i32])) {
    for index in 0..2_000 {
        let mut codes: Vec<i32> = Vec::new();
        panelrun::run_with(&generate::case(19, index).input, |step| {
            if clears(&step) {
                codes.clear();
            }
            if !matches!(step.answer.note, 10 | 11) {
                codes.extend(step.answer.code);
            }
            see(&step, &codes);
        });
    }
}

#[test]
fn random_records_are_the_ends_of_the_codes() {
    let (mut ranges, mut emptied, mut kept) = ([0; 3], 0, 0);
    walk(|step, codes| {
        let ends = codes.iter().min().zip(codes.iter().max());
        let format = step.table.analog;
        let float = |code: &i32| float(format, *code);
        let expected =
            (step.answer.code.as_ref().map_or(0, float), ends.map(|(l, h)| [float(l), float(h)]));
        assert_eq!(shown(step.table, step.after), expected);
        ranges[format as usize] +=
            u64::from(ends.is_some_and(|(lowest, highest)| lowest < highest));
        emptied += u64::from(codes.is_empty() && step.before.driven.is_some());
        kept += u64::from(step.answer.code.is_none() && ends.is_some());
    });
    assert!(ranges.iter().all(|&count| count > 3_000), "{ranges:?}");
    assert!(emptied > 20 && kept > 2_000, "{emptied} {kept}");
}

#[test]
fn random_records_hold_present() {
    let mut on = 0;
    walk(|step, _| {
        let (present, ends) = shown(step.table, step.after);
        let Some(ends) = ends else {
            return assert_eq!((present, step.answer.code), (0, None));
        };
        let [present, lowest, highest] = [present, ends[0], ends[1]].map(f32::from_bits);
        assert!(lowest <= highest);
        if step.answer.code.is_some() {
            on += 1;
            assert!(lowest <= present && present <= highest);
        }
    });
    assert!(on > 20_000);
}

#[test]
fn ticks_refused_events_and_other_commands_change_nothing() {
    let mut same = 0;
    walk(|step, _| {
        let works_out = match step.event {
            Telegram(_) => step.answer.note == 0,
            Levels(levels) => panel::asked(step.table, step.before.levels, levels)
                .iter()
                .any(|action| matches!(action, Action::Reset | Action::ClearExtremes)),
            Tick(_) => false,
        };
        if !works_out {
            same += 1;
            assert_eq!(shown(step.table, step.after), shown(step.table, step.before));
        }
    });
    assert!(same > 20_000);
}
