//! The timed events, and the plain 64-bit panel run on them.

use std::hint::black_box;
use std::ops::Range;

use crate::analog::Drive;
use crate::fast::{Panel, Record};
use crate::log;
use crate::panel::{Answer, Burst, Event, Extremes, Halves, BURST};
use crate::panelrun::{self, TABLE_BYTES};
use crate::rng::Rng;
use crate::table::{self, slot, Table, SLOTS};
use crate::telegram;

/// Positions all over the curve of `words`, and those on its last line, its twelfth and its first.
/// With v = 1.23457 p - 250 and x = 900,000 j - 100,000 these lines begin at j = 22, 11 and 0.
const WHOLE: Range<u64> = 0..1 << 24;
const FAR_END: Range<u64> = 16_000_000..16_500_000;
const MIDDLE: Range<u64> = 8_000_000..8_500_000;
const NEAR_END: Range<u64> = 0..500_000;

/// K4: the round loop, and how far from the encoder's end its telegrams turn back.
const ROUND_LOOP: i32 = 3_600;
const SWING: i64 = 20_000;

/// Events made beforehand and taken in turn.
const RING: usize = 4_096;

/// The kinds that are timed; `far_end`, `middle` and `near_end` are telegrams on one line of the
/// curve, `round_loop` ones that cross the encoder's end.
pub const KINDS: [&str; 8] =
    ["telegrams", "levels", "ticks", "mixed", "far_end", "middle", "near_end", "round_loop"];

/// Runs the events of an input through the 64-bit panel again and again; a sum over all answers,
/// and the record after each round.
pub fn sum(input: &[u8], rounds: u64) -> u64 {
    let table = panelrun::load(&input[..TABLE_BYTES]).unwrap();
    let events = log::read(&input[TABLE_BYTES..]).events;
    let mut panel = Panel::new(&table);
    let mut sum = 0u64;
    for _ in 0..rounds {
        sum = run_once(&mut panel, &events, sum);
    }
    sum
}

/// The sum after one more run of the events.
#[inline]
fn run_once(panel: &mut Panel, events: &[Event], mut sum: u64) -> u64 {
    for event in events {
        sum = sum.wrapping_add(part(&panel.step(black_box(*event))));
    }
    sum.wrapping_add(record_part(&panel.record))
}

/// K5: runs the telegrams of an input through the 64-bit panel again and again, in bursts of up to 1,024;
/// a sum over all bursts, and the record, least and greatest after each round.
pub fn sum_of_bursts(input: &[u8], rounds: u64) -> u64 {
    sum_of(input, rounds, |panel, words| panel.burst(black_box(words)))
}

/// K5: the same by single steps, each with its answer; summed is the last one of up to 1,024. Where no
/// telegram is refused, the sum is that of the bursts.
pub fn sum_of_burst_steps(input: &[u8], rounds: u64) -> u64 {
    sum_of(input, rounds, |panel, words| {
        let step = |&word: &u32| black_box(panel.step(Event::Telegram(black_box(word))));
        Burst { count: words.len(), answer: words.iter().map(step).last().unwrap() }
    })
}

/// The sum over the telegrams of an input, up to 1,024 at a time.
#[inline]
fn sum_of(input: &[u8], rounds: u64, mut take: impl FnMut(&mut Panel, &[u32]) -> Burst) -> u64 {
    let table = panelrun::load(&input[..TABLE_BYTES]).unwrap();
    let words = telegrams(&log::read(&input[TABLE_BYTES..]).events);
    let mut panel = Panel::new(&table);
    let mut sum = 0u64;
    for _ in 0..rounds {
        for words in words.chunks(BURST) {
            sum = sum.wrapping_add(burst_part(&take(&mut panel, words)));
        }
        sum = sum.wrapping_add(record_part(&panel.record) + extremes_part(&panel.extremes));
    }
    sum
}

/// The telegrams among events.
fn telegrams(events: &[Event]) -> Vec<u32> {
    let word = |event: &Event| match *event {
        Event::Telegram(word) => Some(word),
        _ => None,
    };
    events.iter().filter_map(word).collect()
}

/// K5: what a burst adds to the sum.
fn burst_part(Burst { count, answer }: &Burst) -> u64 {
    raised(answer.result)
        + 3 * raised(answer.shown)
        + 13 * u64::from(answer.note)
        + 17 * halves_part(&answer.halves)
        + 29 * *count as u64
}

/// K5: what least and greatest after a round add to the sum; 0 and 0 where there are none.
fn extremes_part(extremes: &Option<Extremes>) -> u64 {
    let (least, greatest) = extremes.as_ref().map_or((0, 0), |x| (x.least, x.greatest));
    31 * raised(least) + 37 * raised(greatest)
}

/// What an answer adds to the sum.
fn part(answer: &Answer) -> u64 {
    let high = (0..4).map(|i| u64::from(answer.outputs[i]) << i).sum::<u64>();
    raised(answer.result)
        + 3 * raised(answer.shown)
        + 5 * u64::from(answer.error)
        + 7 * high
        + 11 * drive_part(answer.drive)
        + 13 * u64::from(answer.note)
        + 17 * halves_part(&answer.halves)
}

/// K7: the three marks as one number.
fn halves_part(halves: &Halves) -> u64 {
    u64::from(halves.scaling) + 2 * u64::from(halves.linearization) + 4 * u64::from(halves.analog)
}

/// K6: what the record after a round adds to the sum.
fn record_part(record: &Record) -> u64 {
    let floats = [record.present, record.lowest, record.highest];
    let bits: u64 = floats.iter().map(|float| u64::from(float.to_bits())).sum();
    19 * bits + 23 * u64::from(record.empty)
}

fn raised(number: i64) -> u64 {
    (number + (1 << 31)) as u64
}

fn drive_part(drive: Drive) -> u64 {
    match drive {
        Drive::Off => 1,
        Drive::Volts(x) => 2 + u64::from(x > 5.0),
        Drive::Milliamps(x) => 4 + u64::from(x > 12.0),
    }
}

/// An input of panelrun with this many of the timed events.
pub fn input(kind: &str, count: usize) -> Vec<u8> {
    let mut words = words();
    if kind == "round_loop" {
        words[slot::ROUND_LOOP] = ROUND_LOOP;
    }
    let table = table::load(&words).unwrap();
    let mut log = Vec::new();
    for &event in events(&table, kind).iter().cycle().take(count) {
        log::write(&mut log, event);
    }
    panelrun::input_of(&words, &log)
}

/// The events of a kind, taken in turn, behind a telegram that starts the switching.
fn events(table: &Table, kind: &str) -> Vec<Event> {
    let mut rng = Rng::new(1);
    if kind == "round_loop" {
        return swinging(&mut rng, table);
    }
    let positions = match kind {
        "far_end" => FAR_END,
        "middle" => MIDDLE,
        "near_end" => NEAR_END,
        _ => WHOLE,
    };
    let mut telegram = || telegram(&mut rng, table, &positions);
    let first = telegram();
    let mut events = match kind {
        "levels" => ring(levels),
        "ticks" => ring(tick),
        "mixed" => ring(|i| match i % 4 {
            0 | 1 => telegram(),
            2 => levels(i / 4),
            _ => tick(i),
        }),
        _ => ring(|_| telegram()),
    };
    events[0] = first;
    events
}

fn levels(i: usize) -> Event {
    Event::Levels((i % 8) as u8)
}

fn tick(i: usize) -> Event {
    Event::Tick((i % 50) as u16)
}

fn ring(make: impl FnMut(usize) -> Event) -> Vec<Event> {
    (0..RING).map(make).collect()
}

/// A Gray telegram of a position in a range.
fn telegram(rng: &mut Rng, table: &Table, positions: &Range<u64>) -> Event {
    let position = positions.start + rng.below(positions.end - positions.start);
    Event::Telegram(telegram::build(table, position, false).unwrap())
}

/// K4: telegrams in steps of 100 to 400 positions, one in eight the other way, from one side of the
/// encoder's end to the other and back again.
fn swinging(rng: &mut Rng, table: &Table) -> Vec<Event> {
    let (mut place, mut way) = (-SWING, 1);
    ring(|_| {
        let turned = if rng.below(8) == 0 { -1 } else { 1 };
        place += way * turned * rng.between(100, 400);
        if place.abs() >= SWING {
            way = -place.signum();
        }
        let position = place.rem_euclid(table.positions());
        Event::Telegram(telegram::build(table, position as u64, false).unwrap())
    })
}

/// A table with a 24-point curve, four modes, a pulse, a lock and three commands.
pub fn words() -> [i32; SLOTS] {
    let mut words = table::defaults();
    words[slot::FACTOR] = 123_457;
    words[slot::ADDITIVE] = -250;
    set_curve(&mut words);
    set_preselections(&mut words);
    set_inputs(&mut words);
    words
}

fn set_curve(words: &mut [i32; SLOTS]) {
    words[slot::LINEARIZATION] = 2;
    words[slot::POINTS_IN_USE] = 24;
    for point in 0..24 {
        words[slot::x(point)] = 900_000 * point as i32 - 100_000;
        words[slot::y(point)] = 7_001 * point as i32 - 80_000;
    }
}

fn set_preselections(words: &mut [i32; SLOTS]) {
    for k in 0..4 {
        words[slot::preselection(k)] = 20_000 * k as i32 - 30_000;
        words[slot::mode(k)] = [3, 4, 5, 6][k];
        words[slot::hysteresis(k)] = 100;
        words[slot::lock(k)] = i32::from(k == 3);
    }
    words[slot::pulse(0)] = 100;
}

fn set_inputs(words: &mut [i32; SLOTS]) {
    for input in 0..3 {
        words[slot::action(input)] = [3, 4, 5][input];
    }
}
