//! From position to result: direction, offset, round loop, scaling, linearization and errors.
//! Paper: "From telegram to result", steps 1 to 5; K4's count in step 2.

use crate::fraction::{Fraction, Rounded};
use crate::table::{Linearization, Point, Table, Z};

/// Result and error of a telegram.
#[derive(Clone, Copy, Debug, PartialEq, Eq)]
pub struct Measured {
    /// 0 under an error.
    pub result: i64,
    /// 0, or error 1 to 3.
    pub error: u8,
    /// K7: what the roundings of steps 3 and 4 say of themselves, whatever the error.
    pub scaling_half: bool,
    pub linearization_half: bool,
}

/// Error 3.
const FAULTY: Measured =
    Measured { result: 0, error: 3, scaling_half: false, linearization_half: false };

/// Steps 2 to 5 with the offset in force, from p after direction or, with a round loop, from its
/// unrolled place; there is none under error 3.
pub fn measure(table: &Table, offset: i64, place: Option<i64>) -> Measured {
    let Some(place) = place else {
        return FAULTY;
    };
    let v = scaled(table, distance(table, offset, place));
    let value = linearized(table, v.value);
    let (result, error) = checked(value.value);
    Measured { result, error, scaling_half: v.half, linearization_half: value.half }
}

/// K7: result and error by a firmware that rounds halves upward in scaling and linearization, those
/// of the mirrored line too.
pub fn measure_upward(table: &Table, offset: i64, place: Option<i64>) -> (i64, u8) {
    let Some(place) = place else {
        return (0, 3);
    };
    let d = distance(table, offset, place);
    let v = stretched(table, d).round_upward() + table.additive;
    checked(bent(table, v).round_upward())
}

/// K14: direction forward, no round loop, and used y that never fall, unless linearization is off.
pub fn goes_forward(table: &Table) -> bool {
    let straight = table.linearization == Linearization::Off;
    let never_falls = table.points.windows(2).all(|pair| pair[0].y <= pair[1].y);
    !table.reverse && table.round_loop == 0 && (straight || never_falls)
}

/// Step 1: p after direction.
pub fn directed(table: &Table, position: i64) -> i64 {
    if table.reverse {
        (-position).rem_euclid(table.positions())
    } else {
        position
    }
}

/// K4: the unrolled place of a position after direction: at first the position itself, then of all
/// numbers that equal it modulo M the one that lies a step s from the last, −M/2 ≤ s < M/2.
pub fn unrolled(table: &Table, last: Option<i64>, directed: i64) -> i64 {
    let Some(last) = last else {
        return directed;
    };
    let positions = table.positions();
    let turn = last.div_euclid(positions);
    let near = |place: &i64| {
        let twice = 2 * (place - last);
        -positions <= twice && twice < positions
    };
    (turn - 1..=turn + 1).map(|turn| turn * positions + directed).find(near).unwrap()
}

/// K4: the count U of an unrolled place.
pub fn count(table: &Table, place: i64) -> i64 {
    place.rem_euclid(table.round_loop)
}

/// Step 2: d. K4: an unrolled place and its count give the same.
pub fn distance(table: &Table, offset: i64, place: i64) -> i64 {
    match table.round_loop {
        0 => place - offset,
        round => (place - offset).rem_euclid(round),
    }
}

/// Step 3: v.
pub fn scaled(table: &Table, d: i64) -> Rounded {
    let rounded = stretched(table, d).round();
    Rounded { value: rounded.value + table.additive, ..rounded }
}

/// d × factor ÷ divider.
fn stretched(table: &Table, d: i64) -> Fraction {
    Fraction::whole(d).times(Fraction::new(table.factor.into(), table.divider.into()))
}

/// Step 4. K7: with linearization off, beyond the end points and at a point it rounds a whole
/// number, which is no half.
pub fn linearized(table: &Table, v: i64) -> Rounded {
    bent(table, v).round()
}

/// Step 4 before its rounding.
fn bent(table: &Table, v: i64) -> Fraction {
    match table.linearization {
        Linearization::Off => Fraction::whole(v),
        Linearization::OneQuadrant if v < 0 => curve(&table.points, -v).negated(),
        _ => curve(&table.points, v),
    }
}

/// The line through the used points, level beyond its ends.
fn curve(points: &[Point], v: i64) -> Fraction {
    let (first, last) = (points[0], points[points.len() - 1]);
    if v <= first.x {
        return Fraction::whole(first.y);
    }
    match points.windows(2).find(|pair| v <= pair[1].x) {
        Some(pair) => line(pair[0], pair[1], v),
        None => Fraction::whole(last.y),
    }
}

/// Each end's y weighted with the distance to the other end.
fn line(left: Point, right: Point, v: i64) -> Fraction {
    let span = i128::from(right.x - left.x);
    let to_right = Fraction::new((right.x - v).into(), span);
    let to_left = Fraction::new((v - left.x).into(), span);
    let from_left = Fraction::whole(left.y).times(to_right);
    from_left.plus(Fraction::whole(right.y).times(to_left))
}

/// Step 5 without error 3: result and error, the result 0 under an error.
fn checked(value: i64) -> (i64, u8) {
    if value > Z.into() {
        (0, 1)
    } else if value < (-Z).into() {
        (0, 2)
    } else {
        (value, 0)
    }
}
