//! Telegrams: reading, diagnosis and building.
//! Paper: "From telegram to result", first paragraph, and the builder of "Where each check sits".

use crate::table::{Format, Table};

/// What a telegram says by itself.
#[derive(Clone, Copy, Debug, PartialEq, Eq)]
pub struct Reading {
    /// p, before direction.
    pub position: i64,
    /// The error bit stands at its error level.
    pub faulty: bool,
}

/// The reading of a telegram; none with a bit above N (11).
pub fn read(table: &Table, word: u32) -> Option<Reading> {
    if u64::from(word) >> table.resolution != 0 {
        return None;
    }
    let bit = error_mask(table);
    let faulty = bit != 0 && (word & bit != 0) == table.error_level;
    let plain = match table.format {
        Format::Gray => gray_to_binary(word & !bit),
        Format::Binary => word & !bit,
    };
    let position = (u64::from(plain) >> (table.low_bit - 1)) % table.positions() as u64;
    Some(Reading { position: position as i64, faulty })
}

/// The error bit alone, 0 when none is set up.
fn error_mask(table: &Table) -> u32 {
    match table.error_bit {
        0 => 0,
        bit => 1 << (bit - 1),
    }
}

/// Each bit becomes the exclusive or of itself and all above it.
pub fn gray_to_binary(mut word: u32) -> u32 {
    for shift in [1, 2, 4, 8, 16] {
        word ^= word >> shift;
    }
    word
}

/// The inverse of `gray_to_binary`.
pub fn binary_to_gray(word: u32) -> u32 {
    word ^ (word >> 1)
}

/// Turns and place within the turn.
#[derive(Clone, Copy, Debug, PartialEq, Eq)]
pub struct Diagnosis {
    pub turns: i64,
    pub place: i64,
    /// 0 or 11.
    pub note: u8,
}

/// p split by the bits per turn; 0 and 0 with 11.
pub fn diagnose(table: &Table, word: u32) -> Diagnosis {
    let turn = 1_i64 << table.bits_per_turn;
    match read(table, word) {
        None => Diagnosis { turns: 0, place: 0, note: 11 },
        Some(reading) => {
            Diagnosis { turns: reading.position / turn, place: reading.position % turn, note: 0 }
        }
    }
}

/// The telegram of a position, or refusal 17 or 18.
pub fn build(table: &Table, position: u64, faulty: bool) -> Result<u32, u8> {
    if position >= table.positions() as u64 {
        return Err(17);
    }
    if faulty && table.error_bit == 0 {
        return Err(18);
    }
    let field = match table.format {
        Format::Gray => binary_to_gray(position as u32),
        Format::Binary => position as u32,
    };
    let error = if faulty == table.error_level { error_mask(table) } else { 0 };
    Ok((field << (table.low_bit - 1)) | error)
}
