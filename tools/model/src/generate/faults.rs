//! Faults put into tables and logs, one for each refusal.

use crate::panelrun::TABLE_BYTES;
use crate::rng::Rng;
use crate::table::{self, slot, SLOTS, Z};

type Words = [i32; SLOTS];

/// Makes a table that check `number` refuses, unless an earlier check does.
pub fn spoil(rng: &mut Rng, words: &mut Words, number: u8) {
    match number {
        2 => leave_range(rng, words),
        3 => misplace_field(rng, words),
        4 => misplace_error_bit(rng, words),
        5 => words[slot::ANALOG_END] = words[slot::ANALOG_START],
        6 => unsort_points(rng, words),
        7 => move_first_point(rng, words),
        8 => freeze_on_an_edge(rng, words),
        9 => mix_polarities(rng, words),
        _ => {}
    }
}

/// One to three slots out of range, next to it or far off.
fn leave_range(rng: &mut Rng, words: &mut Words) {
    for _ in 0..rng.between(1, 3) {
        let at = rng.ends(0, SLOTS as i64 - 1) as usize;
        let row = table::row(at);
        words[at] = match rng.below(6) {
            0 | 1 => row.low - 1,
            2 | 3 => row.high + 1,
            4 => i32::MIN,
            _ => i32::MAX,
        };
    }
}

/// B above H, or H above N.
fn misplace_field(rng: &mut Rng, words: &mut Words) {
    let resolution = i64::from(words[slot::RESOLUTION]);
    if resolution < 32 && rng.chance(50) {
        words[slot::HIGH_BIT] = rng.ends(resolution + 1, 32) as i32;
    } else {
        let high = rng.between(1, 31);
        words[slot::HIGH_BIT] = high as i32;
        words[slot::LOW_BIT] = rng.ends(high + 1, 32) as i32;
    }
}

/// The error bit above N or within the field.
fn misplace_error_bit(rng: &mut Rng, words: &mut Words) {
    let resolution = i64::from(words[slot::RESOLUTION]);
    let low = i64::from(words[slot::LOW_BIT]);
    let high = low.max(words[slot::HIGH_BIT].into());
    words[slot::ERROR_BIT] = if resolution < 32 && rng.chance(40) {
        rng.ends(resolution + 1, 32)
    } else {
        rng.ends(low, high)
    } as i32;
}

/// Linearization on, with a used x that is not above the one before.
fn unsort_points(rng: &mut Rng, words: &mut Words) {
    if words[slot::LINEARIZATION] == 0 {
        words[slot::LINEARIZATION] = rng.between(1, 2) as i32;
    }
    let used = i64::from(words[slot::POINTS_IN_USE].clamp(2, 24));
    let at = rng.ends(1, used - 1) as usize;
    let before = words[slot::x(at - 1)].max(-Z);
    words[slot::x(at)] = match rng.below(2) {
        0 => before,
        _ => (before - rng.between(0, 50) as i32).max(-Z),
    };
}

/// One quadrant, rising points, the first not (0, 0).
fn move_first_point(rng: &mut Rng, words: &mut Words) {
    words[slot::LINEARIZATION] = 1;
    let used = words[slot::POINTS_IN_USE].clamp(2, 24) as usize;
    let first = rng.pick(&[-1, 0, 1, 5, -40]);
    for point in 0..used {
        words[slot::x(point)] = first + 10 * point as i32;
    }
    words[slot::y(0)] = if first == 0 { rng.pick(&[-1, 1, Z, -Z]) } else { rng.pick(&[0, 3]) };
}

fn freeze_on_an_edge(rng: &mut Rng, words: &mut Words) {
    let input = rng.below(3) as usize;
    words[slot::action(input)] = 2;
    words[slot::config(input)] = rng.between(2, 3) as i32;
}

/// Two preselections on one output with both polarities.
fn mix_polarities(rng: &mut Rng, words: &mut Words) {
    let first = rng.below(4) as usize;
    let second = (first + rng.between(1, 3) as usize) % 4;
    let output = rng.between(1, 4) as i32;
    let polarity = rng.between(0, 1) as i32;
    words[slot::target(first)] = output;
    words[slot::target(second)] = output;
    words[slot::polarity(first)] = polarity;
    words[slot::polarity(second)] = 1 - polarity;
}

/// Cuts an input within its table.
pub fn cut_table(rng: &mut Rng, input: &mut Vec<u8>) {
    let length = match rng.below(3) {
        0 => rng.pick(&[0, 1, 3, 4, 412, 413, 415]),
        _ => rng.ends(0, TABLE_BYTES as i64 - 1),
    };
    input.truncate(length as usize);
}

/// Puts a log refusal into an input, mostly late; words may follow it.
pub fn spoil_log(rng: &mut Rng, input: &mut Vec<u8>, number: u8) {
    let events = boundaries(&input[TABLE_BYTES..]);
    let last = events.len() - 1;
    let from_last = if rng.chance(70) { rng.below(3) } else { rng.below(last as u64 + 1) };
    let at = last.saturating_sub(from_last as usize);
    let cut = TABLE_BYTES + events[at];
    let rest = input.split_off(cut);
    match number {
        14 => reserved_bit(rng, input),
        15 => disorder(rng, input),
        _ => return leave_bytes(rng, input),
    }
    if rng.chance(50) && !ends_in_upper_half(input) {
        input.extend(rest);
        if rng.chance(20) {
            input.push(0);
        }
    }
}

/// Byte places between the events of a log.
fn boundaries(log: &[u8]) -> Vec<usize> {
    let upper = |place: &usize| *place >= 4 && log[place - 1] >> 6 == 2;
    (0..=log.len()).step_by(4).filter(|place| !upper(place)).collect()
}

fn ends_in_upper_half(input: &[u8]) -> bool {
    input.len() > TABLE_BYTES && input[input.len() - 1] >> 6 == 2
}

/// A word with a reserved bit, after an upper half or not.
fn reserved_bit(rng: &mut Rng, input: &mut Vec<u8>) {
    if rng.chance(35) {
        push(input, upper_half(rng));
    }
    let kind = rng.below(4) as u32;
    let lowest = if kind == 1 { 3 } else { 16 };
    let mut word = kind << 30 | 1 << rng.ends(lowest, 29);
    if rng.chance(40) {
        word |= rng.draw() as u32 & 0x3FFF_FFFF;
    }
    push(input, word);
}

/// Halves out of order, in each way.
fn disorder(rng: &mut Rng, input: &mut Vec<u8>) {
    let low = rng.draw() as u32 & 0xFFFF;
    let way = rng.below(5);
    if way < 4 {
        push(input, upper_half(rng));
    }
    match way {
        0 => push(input, upper_half(rng)),
        1 => push(input, 1 << 30 | low & 7),
        2 => push(input, low),
        3 => {}
        _ => push(input, 3 << 30 | low),
    }
}

/// One to three bytes, after an upper half or not.
fn leave_bytes(rng: &mut Rng, input: &mut Vec<u8>) {
    if rng.chance(40) {
        push(input, upper_half(rng));
    }
    for _ in 0..rng.between(1, 3) {
        input.push(rng.draw() as u8);
    }
}

fn upper_half(rng: &mut Rng) -> u32 {
    2 << 30 | rng.draw() as u32 & 0xFFFF
}

fn push(input: &mut Vec<u8>, word: u32) {
    input.extend(word.to_le_bytes());
}
