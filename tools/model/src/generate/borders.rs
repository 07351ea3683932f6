//! Logs around the borders between the pieces of 8,192 bytes in which panelrun reads.

use crate::panelrun;
use crate::table::{self, slot};

/// Words of a piece.
const PIECE: usize = 2_048;
const TICK: u32 = 1;
const UPPER: u32 = 0x8000_0000;
const LOWER: u32 = 0xC000_03E8;
const RESERVED: u32 = 0x0001_0000;

/// What stands before a border and what right behind it: halves on both sides, refusals 14 and 15,
/// the end, and more than two pieces. Each comes with and without bytes left over.
pub fn input(index: u64) -> Option<Vec<u8>> {
    let logs = [
        ticks(PIECE - 1, &[UPPER, LOWER], 2 * PIECE),
        ticks(PIECE, &[RESERVED], 1),
        ticks(PIECE - 1, &[UPPER, TICK], 1),
        ticks(PIECE, &[LOWER], 1),
        ticks(PIECE - 1, &[UPPER], 0),
        ticks(PIECE, &[], 0),
        ticks(PIECE, &[], PIECE),
    ];
    let log = logs.get(index as usize / 2)?;
    let mut table = table::defaults();
    table[slot::FORMAT] = 1;
    let mut input = panelrun::input_of(&table, log);
    if index % 2 == 1 {
        input.extend([1, 2, 3]);
    }
    Some(input)
}

/// Words with so many ticks before and behind them.
fn ticks(before: usize, words: &[u32], behind: usize) -> Vec<u32> {
    [&vec![TICK; before], words, &vec![TICK; behind]].concat()
}
