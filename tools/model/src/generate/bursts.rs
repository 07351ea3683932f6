//! K5: random bursts: short ones that walk like the other telegrams of a session, long ones, and lines
//! that are none.

use super::lines;
use super::logs;
use super::theme::Wish;
use crate::console::{BURST_LINE, TELEGRAMS};
use crate::modbus::Slave;
use crate::panel::BURST;
use crate::rng::Rng;
use crate::table::Table;

/// A kind of long burst.
#[derive(Clone, Copy, Debug, PartialEq, Eq)]
pub enum Long {
    /// 1,024, all taken.
    Full,
    /// 1,024, the last refused.
    FullRefused,
    /// 1,025, one of them refused.
    Over,
    /// 1,100.
    Most,
    /// 1,101, or as many as a line has room for.
    TooMany,
    /// A line of about 10,240 bytes.
    Wide,
}

/// The kinds in turn.
pub const LONG: [Long; 8] = [
    Long::Full,
    Long::Wide,
    Long::FullRefused,
    Long::Over,
    Long::Wide,
    Long::Most,
    Long::TooMany,
    Long::Wide,
];

/// Telegrams of one digit that a line has room for.
const MOST: usize = (BURST_LINE - 1) / 2;
/// Telegrams that a long burst repeats.
const RING: usize = 40;

/// Telegrams of a short burst on a running panel, at most so many.
pub fn short(rng: &mut Rng, wish: &Wish, panel: &Slave, anchors: &[i64], most: usize) -> Vec<u32> {
    let count = match rng.weighted(&[6, 10, 50, 34]) {
        0 => 0,
        1 => 1,
        2 => rng.between(2, 6),
        _ => rng.between(7, most as i64),
    };
    let (table, count) = (&panel.table, count as usize);
    let mut words = logs::telegrams(rng, wish, table, panel.state, anchors, count);
    if words.is_empty() {
        return words;
    }
    if rng.chance(20) {
        repeat_one(rng, &mut words);
    }
    if table.error_bit > 0 && rng.chance(15) {
        let place = place(rng, &words);
        words[place] = at_error_level(table, words[place]);
    }
    if rng.chance(45) {
        let place = place(rng, &words);
        words[place] = logs::refused(rng, table, words[place]);
    }
    words
}

/// The first place, the last, or any.
fn place(rng: &mut Rng, words: &[u32]) -> usize {
    match rng.below(4) {
        0 => 0,
        1 => words.len() - 1,
        _ => rng.below(words.len() as u64) as usize,
    }
}

/// Up to three telegrams become the one before them.
fn repeat_one(rng: &mut Rng, words: &mut [u32]) {
    let place = rng.below(words.len() as u64) as usize;
    let end = (place + 1 + rng.between(1, 3) as usize).min(words.len());
    let word = words[place];
    words[place..end].fill(word);
}

fn at_error_level(table: &Table, word: u32) -> u32 {
    let bit = 1 << (table.error_bit - 1);
    if table.error_level {
        word | bit
    } else {
        word & !bit
    }
}

/// Telegrams of a long burst, of one digit each or in turn from a walk.
pub fn long(
    rng: &mut Rng,
    kind: Long,
    wish: &Wish,
    panel: &Slave,
    anchors: &[i64],
    one_digit: bool,
) -> Vec<u32> {
    let table = &panel.table;
    let ring: Vec<u32> = match one_digit {
        true => (0..RING).map(|_| rng.below(16) as u32).collect(),
        false => logs::telegrams(rng, wish, table, panel.state, anchors, RING),
    };
    let count = match kind {
        Long::Full | Long::FullRefused => BURST,
        Long::Over => BURST + 1,
        Long::Most => TELEGRAMS,
        Long::TooMany => rng.pick(&[TELEGRAMS + 1, TELEGRAMS + 1, MOST]),
        Long::Wide => rng.pick(&[0, 1, 40, 500, BURST, BURST + 1, TELEGRAMS]),
    };
    let mut words: Vec<u32> = ring.iter().copied().cycle().take(count).collect();
    let refused = match kind {
        Long::FullRefused => Some(count - 1),
        Long::Over => Some(place(rng, &words)),
        _ => None,
    };
    if let Some(place) = refused {
        words[place] = logs::refused(rng, table, words[place]);
    }
    words
}

/// The words of a burst.
pub fn spelled(rng: &mut Rng, telegrams: &[u32]) -> Vec<String> {
    let digits = telegrams.iter().map(|&word| lines::digits(rng, word));
    ["b".into()].into_iter().chain(digits).collect()
}

/// The same with a telegram that is none.
pub fn misspelled(rng: &mut Rng, telegrams: &[u32]) -> Vec<String> {
    let mut words = spelled(rng, telegrams);
    let wrong = ["123456789", "000000001", "g", "1g", "0x1", "-1", "+1", "1,", "\t"];
    let place = rng.between(1, words.len() as i64) as usize;
    words.insert(place, rng.pick(&wrong).into());
    words
}

/// The line of a long burst, with as few digits as can be, or where it is wide padded to about 10,240
/// bytes.
pub fn line(rng: &mut Rng, kind: Long, telegrams: &[u32]) -> Vec<u8> {
    let zeros = rng.chance(50);
    let digits = |word: &u32| match kind {
        Long::Wide if zeros => format!(" {word:08x}"),
        _ => format!(" {word:X}"),
    };
    let mut line: Vec<u8> = b"b".to_vec();
    line.extend(telegrams.iter().map(digits).collect::<String>().bytes());
    if kind == Long::Wide {
        widen(rng, &mut line);
    }
    line
}

/// Spaces before the first word, behind it or at the end, and 0 to 2 carriage returns; 10,239 to 10,242
/// bytes with or without them.
fn widen(rng: &mut Rng, line: &mut Vec<u8>) {
    let returns = rng.weighted(&[45, 45, 10]);
    let length = BURST_LINE + 2 - rng.below(4) as usize;
    let spaces = vec![b' '; length.saturating_sub(line.len())];
    let place = match rng.below(3) {
        0 => 0,
        1 => 1,
        _ => line.len(),
    };
    line.splice(place..place, spaces);
    line.extend(vec![b'\r'; returns]);
}
