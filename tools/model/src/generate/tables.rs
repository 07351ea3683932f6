//! Random tables that load, with values that events can reach.

use super::theme::{Width, Wish};
use crate::measure;
use crate::rng::Rng;
use crate::table::{self, slot, Table, SLOTS, Z};

const LIMIT: i64 = Z as i64;

/// A table and the distances d its log moves around.
#[derive(Clone, Debug)]
pub struct Draft {
    pub words: [i32; SLOTS],
    pub anchors: Vec<i64>,
}

/// A random table that meets a wish.
pub fn draft(rng: &mut Rng, wish: &Wish) -> Draft {
    let mut words = table::defaults();
    words[slot::BITS_PER_TURN] = rng.between(10, 16) as i32;
    set_field(rng, wish, &mut words);
    set_error_bit(rng, wish, &mut words);
    set_scaling(rng, wish, &mut words);
    let anchors = anchors(rng, wish, &mut words);
    fill_points(rng, &mut words);
    set_curve(rng, wish, &mut words, &anchors);
    let results = results(&words, &anchors);
    set_analog(rng, wish, &mut words, &results);
    set_preselections(rng, wish, &mut words, &results);
    set_differences(rng, &mut words, &results);
    set_outputs(rng, wish, &mut words);
    set_inputs(rng, wish, &mut words);
    Draft { words, anchors }
}

/// Resolution, format, high and low bit.
fn set_field(rng: &mut Rng, wish: &Wish, words: &mut [i32; SLOTS]) {
    let width = wish.width.unwrap_or_else(|| match rng.weighted(&[40, 40, 20]) {
        0 => Width::Narrow,
        1 => Width::Middle,
        _ => Width::Wide,
    });
    let bits = match width {
        Width::Narrow => rng.ends(1, 12),
        Width::Middle => rng.ends(10, 26),
        Width::Wide => rng.ends(27, 32),
    };
    let resolution = rng.ends(bits.max(10), 32);
    let low = rng.ends(1, resolution - bits + 1);
    words[slot::RESOLUTION] = resolution as i32;
    words[slot::LOW_BIT] = low as i32;
    words[slot::HIGH_BIT] = (low + bits - 1) as i32;
    words[slot::FORMAT] = wish.format.unwrap_or(rng.between(0, 1) as i32);
}

/// An error bit beside the field, where there is room.
fn set_error_bit(rng: &mut Rng, wish: &Wish, words: &mut [i32; SLOTS]) {
    let field = words[slot::LOW_BIT]..=words[slot::HIGH_BIT];
    let free: Vec<i32> = (1..=words[slot::RESOLUTION]).filter(|bit| !field.contains(bit)).collect();
    if !free.is_empty() && (wish.error_bit || rng.chance(55)) {
        let place = rng.ends(0, free.len() as i64 - 1);
        words[slot::ERROR_BIT] = free[place as usize];
    }
    words[slot::ERROR_LEVEL] = rng.between(0, 1) as i32;
}

/// Direction, round loop, factor, divider and additive value.
fn set_scaling(rng: &mut Rng, wish: &Wish, words: &mut [i32; SLOTS]) {
    let positions = Table::from_words(words).positions();
    words[slot::DIRECTION] = i32::from(wish.reverse || rng.chance(40));
    if wish.round_loop.unwrap_or(rng.chance(47)) {
        words[slot::ROUND_LOOP] = round_loop(rng, positions) as i32;
    }
    let (factor, divider) = ratio(rng);
    words[slot::FACTOR] = factor as i32;
    words[slot::DIVIDER] = divider as i32;
    words[slot::ADDITIVE] = additive(rng, wish) as i32;
}

/// One that divides M, a small one, one about M or above it, any, or one of a turntable.
fn round_loop(rng: &mut Rng, positions: i64) -> i64 {
    match rng.weighted(&[30, 8, 16, 12, 8, 10, 16]) {
        0 => 1 << rng.between(0, 26.min(positions.ilog2().into())),
        1 => rng.between(1, 4),
        2 => rng.between(2, 1_000),
        3 => (positions + rng.between(-2, 2)).clamp(1, LIMIT),
        4 => rng.between(positions.min(LIMIT), (4 * positions).min(LIMIT)),
        5 => rng.ends(1, LIMIT),
        _ => rng.pick(&[360, 3_600]),
    }
}

fn ratio(rng: &mut Rng) -> (i64, i64) {
    const SIMPLE: [(i64, i64); 8] = [
        (150_000, 100_000),
        (50_000, 100_000),
        (250_000, 100_000),
        (1, 2),
        (1, 3),
        (7, 4),
        (200_000, 300_000),
        (12_345, 100_000),
    ];
    match rng.weighted(&[30, 30, 20, 12, 8]) {
        0 => (100_000, 100_000),
        1 => rng.pick(&SIMPLE),
        2 => (rng.between(1, 400_000), rng.between(50_000, 200_000)),
        3 => (rng.between(1, 9_999_999), rng.between(1, 9_999_999)),
        _ => (rng.ends(1, 9_999_999), rng.ends(1, 9_999_999)),
    }
}

fn additive(rng: &mut Rng, wish: &Wish) -> i64 {
    let near_limit = |rng: &mut Rng| LIMIT - rng.between(0, 12);
    if let Some(sign) = wish.limit {
        return sign * near_limit(rng);
    }
    match rng.weighted(&[45, 30, 10, 8, 7]) {
        0 => 0,
        1 => rng.between(-60, 60),
        2 => rng.between(-5_000, 5_000),
        3 => rng.pick(&[-1, 1]) * near_limit(rng),
        _ => rng.ends(-LIMIT, LIMIT),
    }
}

/// Sets the offset and draws the distances that the log moves around.
fn anchors(rng: &mut Rng, wish: &Wish, words: &mut [i32; SLOTS]) -> Vec<i64> {
    let positions = Table::from_words(words).positions();
    let reach = LIMIT.min(positions - 1);
    let offset = match rng.weighted(&[30, 40, 15, 15]) {
        0 => 0,
        1 => rng.between(0, reach),
        2 => rng.ends(0, reach),
        _ => rng.ends(-LIMIT, LIMIT),
    };
    words[slot::OFFSET] = offset as i32;
    let count = rng.between(1, 4);
    let first = place(rng, wish, positions, offset);
    let mut places = vec![first];
    for _ in 1..count {
        let near = (first + rng.between(-40, 40)).clamp(0, positions - 1);
        let next = if rng.chance(70) { near } else { place(rng, wish, positions, offset) };
        places.push(next);
    }
    places.iter().map(|place| place - offset).collect()
}

/// A position after direction: near the offset, near Z, at an end, or anywhere.
fn place(rng: &mut Rng, wish: &Wish, positions: i64, offset: i64) -> i64 {
    let last = positions - 1;
    let near = |rng: &mut Rng, middle: i64| (middle + rng.between(-60, 60)).clamp(0, last);
    let choice = if wish.limit.is_some() { 0 } else { rng.weighted(&[45, 15, 15, 25]) };
    match choice {
        0 => near(rng, offset.clamp(0, last)),
        1 if rng.chance(50) => (LIMIT + rng.between(0, 1)).min(last),
        1 => near(rng, LIMIT),
        2 => rng.ends(0, last),
        _ => rng.between(0, last),
    }
}

/// Any points, rising or not.
fn fill_points(rng: &mut Rng, words: &mut [i32; SLOTS]) {
    words[slot::POINTS_IN_USE] = rng.ends(2, 24) as i32;
    if rng.chance(30) {
        return;
    }
    for point in 0..24 {
        words[slot::x(point)] = rng.ends(-LIMIT, LIMIT) as i32;
        words[slot::y(point)] = rng.ends(-LIMIT, LIMIT) as i32;
    }
}

/// Linearization with used points around the scaled values.
fn set_curve(rng: &mut Rng, wish: &Wish, words: &mut [i32; SLOTS], anchors: &[i64]) {
    let mode = wish.linearization.unwrap_or(rng.weighted(&[50, 20, 30]) as i32);
    words[slot::LINEARIZATION] = mode;
    if mode == 0 {
        return;
    }
    let table = Table::from_words(words);
    let middle = scaled(&table, anchors[0]).clamp(-LIMIT, LIMIT);
    let span = match rng.below(4) {
        0 => rng.between(24, 60),
        1 => rng.between(100, 2_000),
        2 => rng.between(10_000, 10_000_000),
        _ => LIMIT,
    };
    let one_quadrant = mode == 1;
    let (low, high) = if one_quadrant {
        (1, (middle.abs() + span).min(LIMIT))
    } else {
        ((middle - span).max(-LIMIT), (middle + span).min(LIMIT))
    };
    let count = words[slot::POINTS_IN_USE] as usize;
    let x = rising(rng, low, high, count);
    let y = heights(rng, &x);
    for point in 0..count {
        words[slot::x(point)] = x[point] as i32;
        words[slot::y(point)] = y[point] as i32;
    }
    if one_quadrant {
        words[slot::x(0)] = 0;
        words[slot::y(0)] = 0;
    }
}

fn scaled(table: &Table, anchor: i64) -> i64 {
    let d = match table.round_loop {
        0 => anchor,
        round => anchor.rem_euclid(round),
    };
    measure::scaled(table, d).value
}

/// Strictly rising numbers from low to high, often the ends and often close together.
fn rising(rng: &mut Rng, low: i64, high: i64, count: usize) -> Vec<i64> {
    let mut list: Vec<i64> = Vec::with_capacity(count);
    while list.len() < count {
        let drawn = match list.last() {
            Some(&last) if rng.chance(30) => (last + rng.between(-3, 3)).clamp(low, high),
            _ => rng.ends(low, high),
        };
        if !list.contains(&drawn) {
            list.push(drawn);
        }
    }
    list.sort();
    list
}

/// Heights over the points: rising, falling, near the line y = x, or anything.
fn heights(rng: &mut Rng, x: &[i64]) -> Vec<i64> {
    let shape = rng.below(5);
    let start = rng.between(-200, 200);
    let most = rng.pick(&[3, 20, 100, 5_000, 4_000_000]);
    let mut y = start;
    x.iter()
        .map(|&x| {
            let rise = rng.between(0, most);
            y = match shape {
                0 => y + rise,
                1 => y - rise,
                2 => rng.between(-most, most),
                3 => x / 2 + rng.between(-most, most),
                _ => rng.ends(-LIMIT, LIMIT),
            }
            .clamp(-LIMIT, LIMIT);
            y
        })
        .collect()
}

/// The results at the anchors, 0 under an error.
fn results(words: &[i32; SLOTS], anchors: &[i64]) -> Vec<i64> {
    let table = Table::from_words(words);
    let value = |&anchor: &i64| measure::linearized(&table, scaled(&table, anchor)).value;
    anchors.iter().map(value).map(|value| value.clamp(-LIMIT, LIMIT)).collect()
}

/// A value next to one of the results.
fn near(rng: &mut Rng, results: &[i64], most: i64) -> i64 {
    (rng.pick(results) + rng.between(-most, most)).clamp(-LIMIT, LIMIT)
}

fn set_analog(rng: &mut Rng, wish: &Wish, words: &mut [i32; SLOTS], results: &[i64]) {
    words[slot::ANALOG] = wish.analog.unwrap_or(rng.between(0, 2) as i32);
    let (start, end) = match rng.weighted(&[50, 20, 20, 10]) {
        0 => (near(rng, results, 60), near(rng, results, 60)),
        1 => (near(rng, results, 3), near(rng, results, 20_000)),
        2 => (0, 10_000),
        _ => (rng.ends(-LIMIT, LIMIT), rng.ends(-LIMIT, LIMIT)),
    };
    let end = if start != end { end } else { end + if end < LIMIT { 1 } else { -1 } };
    let swapped = rng.chance(40);
    words[slot::ANALOG_START] = if swapped { end } else { start } as i32;
    words[slot::ANALOG_END] = if swapped { start } else { end } as i32;
}

/// Preselections next to results, with modes, hysteresis, pulses and the rest.
fn set_preselections(rng: &mut Rng, wish: &Wish, words: &mut [i32; SLOTS], results: &[i64]) {
    for k in 0..4 {
        words[slot::preselection(k)] = preselection(rng, results) as i32;
        let wished = wish.mode.filter(|_| rng.chance(60));
        words[slot::mode(k)] = wished.unwrap_or(rng.between(0, 6) as i32);
        words[slot::hysteresis(k)] = hysteresis(rng) as i32;
        let pulsed = wish.pulse.unwrap_or(rng.chance(40));
        words[slot::pulse(k)] = if pulsed { pulse(rng) as i32 } else { 0 };
        words[slot::lock(k)] = i32::from(wish.lock || rng.chance(30));
        words[slot::suppression(k)] = i32::from(wish.suppression || rng.chance(45));
    }
}

fn preselection(rng: &mut Rng, results: &[i64]) -> i64 {
    match rng.weighted(&[70, 10, 10, 10]) {
        0 => near(rng, results, 8),
        1 => -near(rng, results, 8),
        2 => rng.between(-30, 30),
        _ => rng.ends(-LIMIT, LIMIT),
    }
}

/// In mode 6, mostly, preselections whose difference from the partner lies next to a result.
fn set_differences(rng: &mut Rng, words: &mut [i32; SLOTS], results: &[i64]) {
    for k in 0..4 {
        if words[slot::mode(k)] == 6 && rng.chance(75) {
            let partner = i64::from(words[slot::preselection(k ^ 1)]);
            let own = partner - near(rng, results, 8);
            words[slot::preselection(k)] = own.clamp(-LIMIT, LIMIT) as i32;
        }
    }
}

fn hysteresis(rng: &mut Rng) -> i64 {
    match rng.weighted(&[25, 50, 15, 10]) {
        0 => 0,
        1 => rng.between(1, 12),
        2 => rng.between(13, 300),
        _ => rng.ends(0, 9_999),
    }
}

fn pulse(rng: &mut Rng) -> i64 {
    match rng.weighted(&[20, 50, 20, 10]) {
        0 => rng.between(1, 3),
        1 => rng.between(1, 200),
        2 => rng.between(1, 3_000),
        _ => rng.ends(1, 60_000),
    }
}

/// Targets and polarities, one polarity an output.
fn set_outputs(rng: &mut Rng, wish: &Wish, words: &mut [i32; SLOTS]) {
    let polarity: [i32; 5] = std::array::from_fn(|_| i32::from(wish.active_low || rng.chance(35)));
    let all_own = rng.chance(35);
    let common = rng.between(1, 4);
    for k in 0..4 {
        let target = if wish.shared && k < 2 {
            common
        } else if all_own {
            k as i64 + 1
        } else {
            rng.between(0, 4)
        };
        words[slot::target(k)] = target as i32;
        words[slot::polarity(k)] = match target {
            0 => rng.between(0, 1) as i32,
            _ => polarity[target as usize],
        };
    }
}

/// Actions and configs, freeze on a level.
fn set_inputs(rng: &mut Rng, wish: &Wish, words: &mut [i32; SLOTS]) {
    let wished = rng.below(3) as usize;
    for input in 0..3 {
        let drawn = rng.pick(&[0, 1, 1, 2, 3, 4, 5, 6, 7, 8]);
        let action = wish.action.filter(|_| input == wished).unwrap_or(drawn);
        let drawn = if action == 2 { rng.between(0, 1) } else { rng.between(0, 3) } as i32;
        let config = wish.config.filter(|_| input == wished).unwrap_or(drawn);
        words[slot::action(input)] = action;
        words[slot::config(input)] = config;
    }
    if wish.config.is_some() {
        unfreeze_others(words, wished);
    }
}

/// Reset instead of freeze on the other inputs.
fn unfreeze_others(words: &mut [i32; SLOTS], wished: usize) {
    for input in (0..3).filter(|&input| input != wished) {
        if words[slot::action(input)] == 2 {
            words[slot::action(input)] = 1;
        }
    }
}
