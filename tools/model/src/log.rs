//! The log of panelrun: words to events, and refusals 14 to 16.
//! Paper: "panelrun and its log".

use crate::panel::Event;

/// A log as events, and the number it ends with.
#[derive(Clone, Debug, PartialEq, Eq)]
pub struct Log {
    pub events: Vec<Event>,
    /// 0, or 14 to 16.
    pub end: u8,
}

/// Reads a log word by word up to its end or its refusal.
pub fn read(bytes: &[u8]) -> Log {
    let words = bytes.chunks_exact(4);
    let left_over = !words.remainder().is_empty();
    let mut events = Vec::new();
    let mut upper = None;
    for word in words {
        match entry(u32::from_le_bytes([word[0], word[1], word[2], word[3]]), upper) {
            Err(end) => return Log { events, end },
            Ok(Entry::Upper(half)) => upper = Some(half),
            Ok(Entry::Event(event)) => {
                upper = None;
                events.push(event);
            }
        }
    }
    let end = match (left_over, upper) {
        (true, _) => 16,
        (false, Some(_)) => 15,
        (false, None) => 0,
    };
    Log { events, end }
}

/// What one word brings.
enum Entry {
    Upper(u16),
    Event(Event),
}

/// One word, after an upper half or not.
fn entry(word: u32, upper: Option<u16>) -> Result<Entry, u8> {
    let low = (word & 0xFFFF) as u16;
    let (kind, used) = match word >> 30 {
        0 => (Kind::Tick, 0xFFFF),
        1 => (Kind::Levels, 7),
        2 => (Kind::Upper, 0xFFFF),
        _ => (Kind::Lower, 0xFFFF),
    };
    if word & 0x3FFF_FFFF & !used != 0 {
        return Err(14);
    }
    match (kind, upper) {
        (Kind::Tick, None) => Ok(Entry::Event(Event::Tick(low))),
        (Kind::Levels, None) => Ok(Entry::Event(Event::Levels(low as u8))),
        (Kind::Upper, None) => Ok(Entry::Upper(low)),
        (Kind::Lower, Some(high)) => {
            let word = u32::from(high) << 16 | u32::from(low);
            Ok(Entry::Event(Event::Telegram(word)))
        }
        _ => Err(15),
    }
}

/// Bits 31 and 30 of a word.
enum Kind {
    Tick,
    Levels,
    Upper,
    Lower,
}

/// Adds the words of an event.
pub fn write(words: &mut Vec<u32>, event: Event) {
    match event {
        Event::Tick(ms) => words.push(ms.into()),
        Event::Levels(levels) => words.push(1 << 30 | u32::from(levels)),
        Event::Telegram(word) => words.extend([2 << 30 | word >> 16, 3 << 30 | word & 0xFFFF]),
    }
}
