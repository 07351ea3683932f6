//! K6: the 32 bits of a float, worked out from an exact fraction by whole numbers alone.

use crate::fraction::Fraction;

/// Bits of the mantissa with its first 1, which is not stored.
const MANTISSA: u32 = 24;
/// What is added to the exponent; the exponents of numbers with a full mantissa.
const BIAS: i32 = 127;
const LEAST: i32 = -126;
const GREATEST: i32 = 127;

/// The bits of the float that is a fraction: sign, exponent and mantissa. Nothing is rounded; a
/// fraction that no float with a full mantissa equals is a mistake of the caller.
pub fn bits(value: Fraction) -> u32 {
    let (upper, lower) = value.pair();
    if upper == 0 {
        return 0;
    }
    let (exponent, mantissa) = divided(upper.unsigned_abs(), lower.unsigned_abs());
    assert!((LEAST..=GREATEST).contains(&exponent));
    let stored = mantissa - (1 << (MANTISSA - 1));
    u32::from(upper < 0) << 31 | ((exponent + BIAS) as u32) << (MANTISSA - 1) | stored
}

/// upper ÷ lower by long division in binary: the place of its first 1 before the point, and its 24
/// digits from there; there are no more.
fn divided(upper: u128, lower: u128) -> (i32, u32) {
    let (mut rest, mut lower) = (upper, lower);
    let mut exponent = 0;
    while rest >= 2 * lower {
        lower *= 2;
        exponent += 1;
    }
    while rest < lower {
        rest *= 2;
        exponent -= 1;
    }
    let mut mantissa = 0;
    for _ in 0..MANTISSA {
        let digit = u32::from(rest >= lower);
        rest = 2 * (rest - u128::from(digit) * lower);
        mantissa = 2 * mantissa + digit;
    }
    assert_eq!(rest, 0);
    (exponent, mantissa)
}

#[cfg(test)]
mod tests {
    use super::*;
    use crate::analog::{self, Drive};
    use crate::table::AnalogFormat;

    fn of(upper: i128, lower: i128) -> u32 {
        bits(Fraction::new(upper, lower))
    }

    #[test]
    fn by_hand() {
        // Exponent 127 + 0, mantissa 1.0; 1.0 × 2; 1.1 × 2; 1.01 × 4; 1.1 × 8.
        assert_eq!([of(1, 1), of(2, 1), of(3, 1)], [0x3F80_0000, 0x4000_0000, 0x4040_0000]);
        assert_eq!([of(5, 1), of(12, 1)], [0x40A0_0000, 0x4140_0000]);
        // 1.1 ÷ 8: exponent 124. 1.0 ÷ 4: exponent 125, the fraction not in lowest terms.
        assert_eq!([of(3, 16), of(10, 40)], [0x3E40_0000, 0x3E80_0000]);
        // The sign, and 0 in two ways.
        assert_eq!([of(-5, 1), of(5, -1)], [0xC0A0_0000, 0xC0A0_0000]);
        assert_eq!([of(0, 1), of(0, -65_536)], [0, 0]);
        // The longest mantissa: 24 ones.
        assert_eq!(of((1 << 24) - 1, 1), 0x4B7F_FFFF);
    }

    #[test]
    fn all_codes() {
        let formats = [
            (AnalogFormat::Volts, -32_767..=32_767),
            (AnalogFormat::MilliampsFrom0, 0..=65_535),
            (AnalogFormat::MilliampsFrom4, 0..=65_535),
        ];
        for (format, codes) in formats {
            for code in codes {
                let (Drive::Volts(float) | Drive::Milliamps(float)) = analog::drive(format, code)
                else {
                    unreachable!()
                };
                assert_eq!(bits(analog::exact(format, code.into())), float.to_bits(), "{code}");
            }
        }
    }

    #[test]
    fn order_of_codes_is_that_of_floats() {
        let bits = |code| bits(analog::exact(AnalogFormat::Volts, code));
        let floats: Vec<f32> = (-32_767..=32_767).map(bits).map(f32::from_bits).collect();
        assert!(floats.windows(2).all(|pair| pair[0] < pair[1]));
    }

    #[test]
    #[should_panic]
    fn nothing_is_rounded() {
        of(1, 3);
    }

    #[test]
    #[should_panic]
    fn no_more_than_24_digits() {
        of((1 << 24) + 1, 1);
    }
}
