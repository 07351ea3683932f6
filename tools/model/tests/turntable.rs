//! K4: turntables across the encoder's end, worked out by hand, and the rule before it beside it.

mod common;

use common::*;
use model::bench;
use model::coverage::{observe, Coverage};
use model::differ::{panelrun_case, Counts};
use model::fast::Panel;
use model::generate::theme::Wish;
use model::generate::{logs, tables};
use model::log;
use model::modbus::{self, Place, Slave};
use model::panel::{self, Answer, Event, State};
use model::print;
use model::rng::Rng;
use model::table::{self, slot, Table, SLOTS, Z};
use model::telegram;
use model::turntable::{divides, moved, Move};

/// 25 bits: M = 33,554,432 is 9,320 × 3,600 + 2,432.
const M: u32 = 1 << 25;
const LOOP: (usize, i32) = (7, 3_600);
const REVERSE: (usize, i32) = (6, 1);
/// Input 1 resets on a rise.
const RESET: (usize, i32) = (49, 1);
/// Bits 1 to 24 and error bit 25: 2^24 is 4,660 × 3,600 + 1,216.
const ERROR_BIT: [(usize, i32); 2] = [(3, 24), (8, 25)];
const M24: u32 = 1 << 24;
const AT_ERROR: u32 = 1 << 24;
/// N = H = 32: 2^32 is 42 × Z + 94,967,338.
const WIDE: [(usize, i32); 2] = [(0, 32), (3, 32)];

/// Results of telegrams at positions.
fn turned(slots: &[(usize, i32)], positions: &[u32]) -> Vec<i64> {
    results(&table(slots), &telegrams(positions))
}

// The encoder's end

#[test]
fn one_step_across_the_end() {
    assert_eq!(turned(&[LOOP], &[M - 2, M - 1, 0, 1]), [2_430, 2_431, 2_432, 2_433]);
    assert_eq!(turned(&[LOOP], &[1, 0, M - 1, M - 2]), [1, 0, 3_599, 3_598]);
    // There and back again, and twice.
    assert_eq!(turned(&[LOOP], &[M - 1, 0, M - 1, 0]), [2_431, 2_432, 2_431, 2_432]);
    // With an offset, also one outside 0 to R − 1: 99,999,999 is 27,777 × 3,600 + 2,799.
    assert_eq!(turned(&[LOOP, (5, 2_432)], &[M - 1, 0, 1]), [3_599, 0, 1]);
    assert_eq!(turned(&[LOOP, (5, -1)], &[M - 1, 0]), [2_432, 2_433]);
    assert_eq!(turned(&[LOOP, (5, Z)], &[5, M - 1]), [806, 800]);
}

#[test]
fn one_step_across_the_end_in_reverse() {
    // p after direction: M − 2, M − 1, 0, 1.
    let ahead = turned(&[LOOP, REVERSE], &[2, 1, 0, M - 1]);
    assert_eq!(ahead, [2_430, 2_431, 2_432, 2_433]);
    assert_eq!(turned(&[LOOP, REVERSE], &[M - 1, 0, 1, 2]), [1, 0, 3_599, 3_598]);
}

#[test]
fn the_rule_before_jumps() {
    let old = table(&[LOOP]).before_k4();
    assert_eq!(results(&old, &telegrams(&[M - 1, 0, 1, M - 1])), [2_431, 0, 1, 2_431]);
}

#[test]
fn whole_turns_of_the_encoder() {
    // 8 positions, R = 20: three turns of the encoder forward and back are 24 steps.
    let slots = [(3, 3), (7, 20)];
    let ahead: Vec<u32> = (0..=24).map(|i| i % 8).collect();
    let expected: Vec<i64> = (0..=24).map(|i| i % 20).collect();
    assert_eq!(turned(&slots, &ahead), expected);
    let back: Vec<u32> = (0..=24).map(|i| (24 - i) % 8).collect();
    let expected: Vec<i64> = (0..=24).map(|i| (20 - i % 20) % 20).collect();
    assert_eq!(turned(&slots, &back), expected);
}

// Resets

#[test]
fn reset_on_either_side_of_the_end() {
    let table = table(&[LOOP, RESET]);
    let before = [Telegram(M - 1), Levels(1), Telegram(0), Telegram(1), Telegram(M - 2)];
    assert_eq!(results(&table, &before), [2_431, 0, 1, 2, 3_599]);
    assert_eq!(state_after(&table, &before).offset, 2_431);
    let behind = [Telegram(M - 1), Telegram(0), Levels(1), Telegram(1), Telegram(M - 1)];
    assert_eq!(results(&table, &behind), [2_431, 2_432, 0, 1, 3_599]);
    assert_eq!(state_after(&table, &behind).offset, 2_432);
    // Backward over the end first: U is 3,599.
    let back = [Telegram(0), Telegram(M - 1), Levels(1), Telegram(0)];
    assert_eq!(results(&table, &back), [0, 3_599, 0, 1]);
    assert_eq!(state_after(&table, &back).offset, 3_599);
}

#[test]
fn reset_in_reverse() {
    let table = table(&[LOOP, RESET, REVERSE]);
    let events = [Telegram(1), Telegram(0), Levels(1), Telegram(M - 1), Telegram(1)];
    assert_eq!(results(&table, &events), [2_431, 2_432, 0, 1, 3_599]);
}

#[test]
fn resets_that_13_refuses() {
    let table = table(&[&ERROR_BIT[..], &[LOOP, RESET]].concat());
    assert_eq!(notes(&table, &[Levels(1)]), [13]);
    // Before the first telegram without error 3, and behind one.
    let events = [Telegram(AT_ERROR | 7), Levels(1), Levels(0), Telegram(7), Levels(1)];
    assert_eq!(notes(&table, &events), [0, 13, 0, 0, 0]);
    let events = [Telegram(7), Telegram(AT_ERROR | 8), Levels(1)];
    assert_eq!(notes(&table, &events), [0, 0, 13]);
    assert_eq!(state_after(&table, &events).offset, 0);
}

// Error 3 and refusals

#[test]
fn error_3_between() {
    let slots = [&ERROR_BIT[..], &[LOOP, RESET]].concat();
    let far = AT_ERROR | 8_000_000;
    assert_eq!(turned(&slots, &[M24 - 1, far, 0]), [1_215, 0, 1_216]);
    assert_eq!(turned(&slots, &[0, far, M24 - 1]), [0, 0, 3_599]);
    // Two thirds of a turn ahead in two steps that are not counted: from M24 − 1 to 1 all the same.
    let (third, rest) = (AT_ERROR | 5_592_405, AT_ERROR | 11_184_810);
    assert_eq!(turned(&slots, &[M24 - 1, third, rest, 1]), [1_215, 0, 0, 1_217]);
    // A reset in between is 13, one behind it stores the count.
    let events = [Telegram(M24 - 1), Telegram(far), Levels(1), Telegram(0), Levels(0), Levels(1)];
    assert_eq!(notes(&table(&slots), &events), [0, 0, 13, 0, 0, 0]);
    assert_eq!(state_after(&table(&slots), &events).offset, 1_216);
}

#[test]
fn error_3_before_the_first_count() {
    // U starts with the first telegram without error 3: 8,388,708 is 2,330 × 3,600 + 708.
    let slots = [&ERROR_BIT[..], &[LOOP]].concat();
    assert_eq!(turned(&slots, &[AT_ERROR | 100, 8_388_708]), [0, 708]);
    assert_eq!(turned(&slots, &[AT_ERROR | 100, AT_ERROR, 4_000]), [0, 0, 400]);
}

#[test]
fn refused_telegrams_between() {
    let table = table(&[LOOP]);
    let events = telegrams(&[M, M - 1, M | 5_000_000, 2 * M, 0]);
    assert_eq!(notes(&table, &events), [11, 0, 11, 11, 0]);
    assert_eq!(results(&table, &events), [0, 2_431, 2_431, 2_431, 2_432]);
}

#[test]
fn error_1_does_not_stop_the_count() {
    // A = Z: only d = 0 shows. U is 2,431, 2,432, 2,433 with O = 2,433.
    let table = table(&[LOOP, RESET, (5, 2_433), (12, Z)]);
    let events = [Telegram(M - 1), Telegram(0), Telegram(1)];
    let run = answers(&table, &events);
    assert_eq!(run.iter().map(|a| a.error).collect::<Vec<_>>(), [1, 1, 0]);
    assert_eq!(run[2].result, Z.into());
    // A reset under it stores the count.
    let events = [Telegram(M - 1), Telegram(0), Levels(1), Telegram(0)];
    assert_eq!(notes(&table, &events), [0; 4]);
    assert_eq!(results(&table, &events), [0, 0, Z.into(), Z.into()]);
    assert_eq!(state_after(&table, &events).offset, 2_432);
}

// Half a turn

/// M/2, which is 4,660 × 3,600 + 1,216.
const HALF: u32 = M / 2;

#[test]
fn exactly_half_a_turn_is_backward() {
    assert_eq!(turned(&[LOOP], &[100, HALF + 100]), [100, 2_484]);
    assert_eq!(turned(&[LOOP], &[HALF + 100, 100]), [1_316, 100]);
    assert_eq!(turned(&[LOOP], &[0, HALF, 0]), [0, 2_384, 1_168]);
    // The same in reverse: p after direction is M − 100, then M/2 − 100.
    assert_eq!(turned(&[LOOP, REVERSE], &[100, HALF + 100]), [2_332, 1_116]);
}

#[test]
fn next_to_half_a_turn() {
    // 16,777,215 ahead, and as much back.
    assert_eq!(turned(&[LOOP], &[100, HALF + 99]), [100, 1_315]);
    assert_eq!(turned(&[LOOP], &[100, HALF + 101]), [100, 2_485]);
    assert_eq!(turned(&[LOOP], &[HALF + 100, 99]), [1_316, 2_531]);
    assert_eq!(turned(&[LOOP], &[HALF + 100, 101]), [1_316, 101]);
}

// Narrow and wide encoders

#[test]
fn two_positions() {
    // Every change is −1.
    assert_eq!(turned(&[(3, 1), (7, 5)], &[0, 1, 0, 1, 1, 0]), [0, 4, 3, 2, 2, 1]);
    assert_eq!(turned(&[(3, 1), (7, 5)], &[1, 0, 1]), [1, 0, 4]);
    assert_eq!(turned(&[(3, 1), (7, 5), REVERSE], &[1, 0, 1]), [1, 0, 4]);
    assert_eq!(turned(&[(3, 1), (7, Z)], &[0, 1]), [0, 99_999_998]);
    assert_eq!(turned(&[(3, 1), (7, 1)], &[0, 1, 0]), [0, 0, 0]);
}

#[test]
fn four_positions() {
    // Steps 1, −2, 1, −2, −1.
    assert_eq!(turned(&[(3, 2), (7, 7)], &[0, 1, 3, 0, 2, 1]), [0, 1, 6, 0, 5, 4]);
}

#[test]
fn all_32_bits() {
    let slots = [&WIDE[..], &[(7, Z), RESET]].concat();
    let last = u32::MAX;
    let ahead = [94_967_337, 94_967_338, 94_967_343, 94_967_337];
    assert_eq!(turned(&slots, &[last, 0, 5, last]), ahead);
    // 2^31 is 21 × Z + 47,483,669.
    assert_eq!(turned(&slots, &[0, 1 << 31]), [0, 52_516_330]);
    assert_eq!(turned(&slots, &[1 << 31, 0]), [47_483_669, 0]);
    assert_eq!(turned(&slots, &[0, (1 << 31) - 1]), [0, 47_483_668]);
    // 2^32 is 1,193,046 × 3,600 + 1,696.
    assert_eq!(turned(&[&WIDE[..], &[LOOP]].concat(), &[last, 0]), [1_695, 1_696]);
}

// 12

#[test]
fn never_12_with_a_round_loop() {
    let with_loop = table(&[&WIDE[..], &[(7, Z), RESET]].concat());
    for position in [99_999_999, 100_000_000, u32::MAX] {
        let events = [Telegram(position), Levels(1)];
        assert_eq!(notes(&with_loop, &events), [0, 0]);
        assert_eq!(last(&with_loop, &events).result, 0);
    }
    let events = [Telegram(u32::MAX), Levels(1), Telegram(0)];
    assert_eq!(state_after(&with_loop, &events).offset, 94_967_337);
    assert_eq!(last(&with_loop, &events).result, 1);
    // By the rule before.
    let old = with_loop.before_k4();
    assert_eq!(notes(&old, &[Telegram(99_999_999), Levels(1)]), [0, 0]);
    assert_eq!(notes(&old, &[Telegram(100_000_000), Levels(1)]), [0, 12]);
}

#[test]
fn round_loop_0_is_as_before() {
    assert_eq!(turned(&[], &[M - 1, 0, M - 1]), [33_554_431, 0, 33_554_431]);
    let table = table(&[&WIDE[..], &[RESET]].concat());
    let events = [Telegram(5), Levels(1), Telegram(100_000_000), Levels(0), Levels(1)];
    assert_eq!(notes(&table, &events), [0, 0, 0, 0, 12]);
    assert_eq!(results(&table, &events[..3]), [5, 0, 99_999_995]);
    let state = state_after(&table, &events);
    assert_eq!((state.offset, state.unrolled), (5, None));
}

// Modbus

/// A panel of node 1 after events.
fn slave(slots: &[(usize, i32)], events: &[Event]) -> Slave {
    let mut slave = modbus::start(1, &words(slots)).unwrap();
    for &event in events {
        slave.step(event);
    }
    slave
}

fn read(slave: &mut Slave, place: Place) -> Vec<u8> {
    let body = modbus::read_body(modbus::register(place));
    slave.answer(&modbus::sealed(1, &body)).reply
}

fn write(slave: &mut Slave, slot: usize, word: i32) {
    slave.answer(&modbus::sealed(1, &modbus::write_body(2 * slot as u16, word)));
}

#[test]
fn the_count_starts_anew_after_a_write() {
    let mut slave = slave(&[LOOP, RESET], &telegrams(&[M - 1, 0]));
    assert_eq!(slave.state.result, 2_432);
    write(&mut slave, slot::preselection(0), 77);
    assert_eq!(slave.state.unrolled, None);
    assert_eq!(slave.step(Telegram(0)).result, 0);
    assert_eq!(slave.step(Telegram(M - 1)).result, 3_599);
    // 13: there is no telegram yet.
    write(&mut slave, slot::preselection(0), 77);
    assert_eq!(slave.step(Levels(1)).note, 13);
}

#[test]
fn a_write_keeps_the_count_that_a_reset_stored() {
    let events = [Telegram(M - 1), Telegram(0), Levels(1)];
    let mut slave = slave(&[LOOP, RESET], &events);
    assert_eq!(read(&mut slave, Place::Slot(5))[3..7], modbus::registers(2_432));
    write(&mut slave, slot::preselection(0), 77);
    assert_eq!(read(&mut slave, Place::Slot(5))[3..7], modbus::registers(2_432));
    // U starts at 0, and 0 − 2,432 is 1,168 modulo 3,600.
    assert_eq!(slave.step(Telegram(0)).result, 1_168);
}

#[test]
fn other_frames_leave_the_count() {
    let mut slave = slave(&[LOOP], &telegrams(&[M - 1]));
    read(&mut slave, Place::Shown);
    read(&mut slave, Place::Slot(7));
    write(&mut slave, slot::ROUND_LOOP, -1);
    slave.answer(&[1, 3, 0, 0]);
    assert_eq!(slave.step(Telegram(0)).result, 2_432);
    write(&mut slave, slot::ROUND_LOOP, 0);
    assert_eq!(slave.step(Telegram(M - 1)).result, 33_554_431);
}

// Both rules

/// One run by a rule, the states with offset and count left out.
fn run(table: &Table, events: &[Event]) -> Vec<(State, Answer)> {
    let mut state = panel::fresh(table);
    let mut step = |&event: &Event| {
        let (after, answer) = panel::step(table, &state, event);
        state = after;
        (State { offset: 0, unrolled: None, ..after }, answer)
    };
    events.iter().map(&mut step).collect()
}

/// Whether the rule before K4 refuses a reset by 12, noted or behind the 13 of a lower input.
fn refuses(table: &Table, events: &[Event]) -> bool {
    let refused = |event: &Event, before: &State| match *event {
        Levels(levels) => {
            let asked = panel::asked(table, before.levels, levels);
            let above = panel::place(table, before).is_some_and(|place| place > Z.into());
            above && asked.contains(&table::Action::Reset)
        }
        _ => false,
    };
    let mut state = panel::fresh(table);
    events.iter().any(|event| {
        let met = refused(event, &state);
        state = panel::step(table, &state, *event).0;
        met
    })
}

/// A random table with a round loop and a run around the encoder's end.
fn drawn(rng: &mut Rng, dividing: bool) -> (Table, Vec<Event>) {
    let wish = Wish { round_loop: Some(true), turns: true, ..Wish::default() };
    loop {
        let mut draft = tables::draft(rng, &wish);
        let width = Table::from_words(&draft.words).field_width();
        if dividing {
            draft.words[slot::ROUND_LOOP] = 1 << rng.between(0, width.min(26).into());
        }
        let table = table::load(&draft.words).unwrap();
        if divides(&table) == dividing {
            let fresh = panel::fresh(&table);
            let count = rng.between(1, 60) as usize;
            let events = logs::events(rng, &wish, &table, fresh, &draft.anchors, count);
            return (table, events);
        }
    }
}

#[test]
fn both_rules_agree_where_m_is_a_multiple_of_r() {
    let mut rng = Rng::new(4);
    let (mut compared, mut left_out, mut crossed) = (0, 0, 0);
    for case in 0..3_000 {
        let (table, events) = drawn(&mut rng, true);
        let old = table.before_k4();
        if refuses(&old, &events) {
            left_out += 1;
            continue;
        }
        compared += events.len();
        crossed += usize::from(turns(&table, &events));
        assert_eq!(run(&table, &events), run(&old, &events), "case {case}");
    }
    assert!(compared > 50_000 && left_out > 20 && crossed > 1_500);
}

/// Whether a run ends on another turn of the encoder than it began.
fn turns(table: &Table, events: &[Event]) -> bool {
    let place = state_after(table, events).unrolled;
    place.is_some_and(|place| !(0..table.positions()).contains(&place))
}

#[test]
fn both_rules_part_where_m_is_no_multiple_of_r() {
    let mut rng = Rng::new(5);
    let mut apart = 0;
    for _ in 0..500 {
        let (table, events) = drawn(&mut rng, false);
        apart += usize::from(run(&table, &events) != run(&table.before_k4(), &events));
    }
    assert!(apart > 200, "{apart}");
}

#[test]
fn both_rules_part_behind_a_reset_refused_by_12() {
    // R = 2 divides 2^32; the rule before keeps O = 0.
    let table = table(&[&WIDE[..], &[(7, 2), RESET]].concat());
    let events = [Telegram(u32::MAX), Levels(1), Telegram(0)];
    assert_eq!(results(&table, &events), [1, 0, 1]);
    assert_eq!(results(&table.before_k4(), &events), [1, 1, 0]);
    assert!(refuses(&table.before_k4(), &events));
}

// Random walks

/// A field of so many bits with a round loop, format and direction.
fn field(bits: i32, round: i32, format: i32, reverse: i32) -> Table {
    table(&[(0, bits.max(10)), (3, bits), (7, round), (2, format), (6, reverse), (5, 17)])
}

#[test]
fn the_count_is_the_first_position_and_all_displacements() {
    let mut rng = Rng::new(44);
    for case in 0..600 {
        let bits = rng.ends(1, 32) as i32;
        let round = rng.ends(1, Z.into()) as i32;
        let table = field(bits, round, rng.below(2) as i32, rng.below(2) as i32);
        let (positions, round) = (table.positions(), i64::from(round));
        let furthest = if case % 2 == 0 { positions / 2 } else { 400.min(positions / 2) };
        let mut place = i128::from(rng.ends(0, positions - 1));
        let mut state = panel::fresh(&table);
        let mut fast = Panel::new(&table);
        for _ in 0..60 {
            let d = (place - 17).rem_euclid(round.into()) as i64;
            let word = word_at(&table, place);
            let (after, answer) = panel::step(&table, &state, Telegram(word));
            assert_eq!(answer.result, d, "case {case}");
            assert_eq!(fast.step(Telegram(word)), answer, "case {case}");
            state = after;
            place += i128::from(rng.ends(-furthest, furthest - 1));
        }
    }
}

/// The telegram at a true place, anywhere on the line.
fn word_at(table: &Table, place: i128) -> u32 {
    let line = if table.reverse { -place } else { place };
    telegram::build(table, line.rem_euclid(table.positions().into()) as u64, false).unwrap()
}

#[test]
fn moves_by_name() {
    let table = table(&[(3, 3), (7, 20)]);
    let from = |from, to| moved(&table, from, to);
    assert_eq!([from(3, 6), from(6, 3)], [Move::Within; 2]);
    assert_eq!([from(7, 8), from(-1, 0)], [Move::Forward; 2]);
    assert_eq!([from(8, 7), from(0, -1)], [Move::Backward; 2]);
    assert_eq!([from(3, -1), from(7, 3)], [Move::HalfTurn(0), Move::HalfTurn(1)]);
}

#[test]
fn random_runs_meet_turntables() {
    let mut seen = Coverage::default();
    (0..3_000).for_each(|index| seen.add(&panelrun_case(40, index).met));
    let met = &seen.turntable;
    // About half of the tables.
    assert!((45..=55).contains(&(100 * met.tables / seen.loaded)), "{}", met.tables);
    assert!(met.setups.iter().all(|&tables| tables > 20), "{:?}", met.setups);
    assert!(met.counted > 20_000);
    assert!(met.moves.iter().all(|&moves| moves > 500), "{:?}", met.moves);
    assert!(met.short > 500 && met.behind_error > 300 && met.crossed_behind_error > 50);
    assert!(met.resets > 1_000 && met.resets_turned > 500 && met.resets_above_z > 100);
    assert!(met.told.iter().all(|&told| told > 25), "{:?}", met.told);
    assert!(met.other_distance > 5_000 && met.compared > 10_000);
    assert_eq!((met.noted_12, met.compared_apart), (0, 0));
}

#[test]
fn timed_telegrams_cross_the_end() {
    let input = bench::input("round_loop", 400);
    let table = table::load(&table_words(&input)).unwrap();
    assert_eq!(table.round_loop, 3_600);
    let (text, seen) = observe(&input);
    assert_eq!(seen.turntable.counted, 400);
    assert!(seen.turntable.moves[0] > 0 && seen.turntable.moves[1] > 0);
    assert!(seen.turntable.short == seen.turntable.moves[0] + seen.turntable.moves[1]);
    let mut printed = Vec::new();
    print::print(&input[..], &mut printed).unwrap();
    assert_eq!(String::from_utf8(printed).unwrap(), text);
    assert_eq!(log::read(&input[4 * SLOTS..]).events.len(), 400);
}

fn table_words(input: &[u8]) -> Vec<i32> {
    let words = input[..4 * SLOTS].chunks_exact(4);
    words.map(|word| i32::from_le_bytes(word.try_into().unwrap())).collect()
}
