//! Exact fractions and the one rounding of the paper: nearest whole number, halves away from zero.

use std::cmp::Ordering;

/// A pair of whole numbers, the lower above zero.
#[derive(Clone, Copy, Debug)]
pub struct Fraction {
    upper: i128,
    lower: i128,
}

/// A rounded number. K7: the rounding itself says whether an exact half decided it.
#[derive(Clone, Copy, Debug, PartialEq, Eq)]
pub struct Rounded {
    pub value: i64,
    pub half: bool,
}

impl Fraction {
    /// upper ÷ lower, for any lower but 0.
    pub fn new(upper: i128, lower: i128) -> Fraction {
        assert!(lower != 0);
        Fraction { upper: upper * lower.signum(), lower: lower.abs() }
    }

    pub fn whole(number: i64) -> Fraction {
        Fraction { upper: number.into(), lower: 1 }
    }

    /// Upper and lower.
    pub fn pair(self) -> (i128, i128) {
        (self.upper, self.lower)
    }

    pub fn plus(self, other: Fraction) -> Fraction {
        Fraction {
            upper: self.upper * other.lower + other.upper * self.lower,
            lower: self.lower * other.lower,
        }
    }

    pub fn times(self, other: Fraction) -> Fraction {
        Fraction { upper: self.upper * other.upper, lower: self.lower * other.lower }
    }

    pub fn negated(self) -> Fraction {
        Fraction { upper: -self.upper, ..self }
    }

    /// The sign times the whole part of (size + 1/2), and K7's mark.
    pub fn round(self) -> Rounded {
        let size = (2 * self.upper.abs() + self.lower).div_euclid(2 * self.lower);
        Rounded { value: (size * self.upper.signum()) as i64, half: self.is_half() }
    }

    /// K7: halfway between two whole numbers, the double whole and the fraction itself not.
    fn is_half(self) -> bool {
        (2 * self.upper) % self.lower == 0 && self.upper % self.lower != 0
    }

    /// K7: another firmware's rounding, halves toward plus infinity.
    pub fn round_upward(self) -> i64 {
        (2 * self.upper + self.lower).div_euclid(2 * self.lower) as i64
    }
}

impl PartialEq for Fraction {
    fn eq(&self, other: &Fraction) -> bool {
        self.upper * other.lower == other.upper * self.lower
    }
}

impl Eq for Fraction {}

impl PartialOrd for Fraction {
    fn partial_cmp(&self, other: &Fraction) -> Option<Ordering> {
        Some(self.cmp(other))
    }
}

impl Ord for Fraction {
    fn cmp(&self, other: &Fraction) -> Ordering {
        (self.upper * other.lower).cmp(&(other.upper * self.lower))
    }
}

#[cfg(test)]
mod tests {
    use super::*;

    #[test]
    fn halves_go_away_from_zero() {
        let rounded = |upper, lower| Fraction::new(upper, lower).round().value;
        assert_eq!(rounded(1, 2), 1);
        assert_eq!(rounded(-1, 2), -1);
        assert_eq!(rounded(1, -2), -1);
        assert_eq!(rounded(3, 2), 2);
        assert_eq!(rounded(-3, 2), -2);
        assert_eq!(rounded(49, 100), 0);
        assert_eq!(rounded(-49, 100), 0);
        assert_eq!(rounded(0, 7), 0);
    }

    #[test]
    fn halves_are_marked() {
        let half = |(upper, lower)| Fraction::new(upper, lower).round().half;
        assert!([(1, 2), (-1, 2), (1, -2), (3, 6), (-45, 10), (7, 14)].into_iter().all(half));
        assert!(![(0, 2), (2, 2), (1, 3), (3, 4), (5, 1), (-6, 3)].into_iter().any(half));
    }

    #[test]
    fn upward_goes_toward_plus_infinity() {
        let upward = |(upper, lower)| Fraction::new(upper, lower).round_upward();
        assert_eq!([(1, 2), (-1, 2), (-3, 2), (3, 2)].map(upward), [1, 0, -1, 2]);
        assert_eq!([(-49, 100), (-51, 100), (-2, 1)].map(upward), [0, -1, -2]);
    }

    #[test]
    fn rounded_is_nearest() {
        for upper in -60..=60 {
            (1..=12).for_each(|lower| rounds_to_nearest(upper, lower));
        }
    }

    fn rounds_to_nearest(upper: i128, lower: i128) {
        let exact = Fraction::new(upper, lower);
        let Rounded { value, half } = exact.round();
        let off = Fraction::whole(value).plus(exact.negated());
        let (least, most) = (Fraction::new(-1, 2), Fraction::new(1, 2));
        assert!(off >= least && off <= most);
        assert_eq!(half, off == least || off == most);
        // Upward parts from it at negative halves alone.
        assert_eq!(exact.round_upward(), value + i64::from(half && upper < 0));
    }
}
