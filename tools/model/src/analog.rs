//! Analog value: code and drive. Paper: "Analog value"; K6: the drive as an exact fraction.

use crate::fraction::{Fraction, Rounded};
use crate::table::{AnalogFormat, Table};

/// The drive of the analog output.
#[derive(Clone, Copy, Debug, PartialEq)]
pub enum Drive {
    Off,
    Volts(f32),
    Milliamps(f32),
}

/// The code of an error-free result. K7: its mark speaks of the fraction before the code is held.
pub fn code(table: &Table, result: i64) -> Rounded {
    let part = Fraction::new(
        (result - table.analog_start).into(),
        (table.analog_end - table.analog_start).into(),
    );
    let (low, high) = match table.analog {
        AnalogFormat::Volts => (-32_767, 32_767),
        _ => (0, 65_535),
    };
    let rounded = part.times(Fraction::whole(high)).round();
    Rounded { value: rounded.value.clamp(low, high), ..rounded }
}

/// The drive of a code.
pub fn drive(format: AnalogFormat, code: i32) -> Drive {
    let code = code as f32;
    match format {
        AnalogFormat::Volts => Drive::Volts(code * 10.0 / 32_768.0),
        AnalogFormat::MilliampsFrom0 => Drive::Milliamps(code * 20.0 / 65_536.0),
        AnalogFormat::MilliampsFrom4 => Drive::Milliamps(code * 16.0 / 65_536.0 + 4.0),
    }
}

/// K6: the drive of a code as a fraction, in the unit of the format.
pub fn exact(format: AnalogFormat, code: i64) -> Fraction {
    let code = i128::from(code);
    match format {
        AnalogFormat::Volts => Fraction::new(code * 10, 32_768),
        AnalogFormat::MilliampsFrom0 => Fraction::new(code * 20, 65_536),
        AnalogFormat::MilliampsFrom4 => Fraction::new(code * 16, 65_536).plus(Fraction::whole(4)),
    }
}

#[cfg(test)]
mod tests {
    use super::*;

    /// A drive times a power of two, exact in 64 bits.
    fn in_steps(drive: Drive, steps: f64) -> i64 {
        match drive {
            Drive::Off => 0,
            Drive::Volts(value) | Drive::Milliamps(value) => {
                let scaled = f64::from(value) * steps;
                assert_eq!(scaled, scaled.trunc());
                scaled as i64
            }
        }
    }

    #[test]
    fn volts_are_exact() {
        for code in -32_767..=32_767_i64 {
            let drive = drive(AnalogFormat::Volts, code as i32);
            assert_eq!(in_steps(drive, 32_768.0), code * 10);
        }
    }

    #[test]
    fn milliamps_are_exact() {
        for code in 0..=65_535_i64 {
            let from_0 = drive(AnalogFormat::MilliampsFrom0, code as i32);
            let from_4 = drive(AnalogFormat::MilliampsFrom4, code as i32);
            assert_eq!(in_steps(from_0, 65_536.0), code * 20);
            assert_eq!(in_steps(from_4, 65_536.0), code * 16 + 4 * 65_536);
        }
    }
}
