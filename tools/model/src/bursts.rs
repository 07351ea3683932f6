//! K5: what bursts meet, by name: how they end, what happens on their way, what stands beside them, and
//! the ends of their lines.

use crate::console::{self, Command, Said, Wrong, BURST_LINE, LINE, TELEGRAMS};
use crate::modbus::Slave;
use crate::panel::{self, Answer, Burst, Event, State, BURST};
use crate::table::{Action, Table};
use crate::telegram;
use crate::turntable::{self, Move};

/// How bursts end, and what happens on their way.
pub const NAMES: [&str; 18] = [
    "burst where no panel runs yet",
    "burst of no telegram",
    "burst all taken",
    "burst stopped by 11 at the first",
    "burst stopped by 11 in the middle",
    "burst stopped by 11 at the last",
    FULL,
    FULL_REFUSED,
    OVER,
    "burst of 1025",
    "burst that repeats a telegram",
    "burst with an error on its way",
    "burst that ends under an error",
    "burst under freeze",
    "burst across the encoder's end",
    "burst with a condition on and off on its way",
    "burst with a pulse that outlasts its condition",
    "burst with a lock that outlasts its signal",
];

/// Names of long bursts.
pub const FULL: &str = "burst of 1024, all taken";
pub const FULL_REFUSED: &str = "burst of 1024, stopped by 11 at the last";
pub const OVER: &str = "burst of 1025, one of them refused";

/// Names of long lines that random texts alone are to meet.
pub const RARE: [&str; 6] = [
    "burst of 1100",
    "line with b of 1101 telegrams",
    "line with b of 10240 bytes",
    "line with b of 10240 bytes and a carriage return",
    "line with b of 10241 bytes",
    "line with b behind 1024 spaces",
];

/// What comes right before a burst, and right behind one.
pub const BESIDE: [&str; 6] = [
    "a reset",
    "a teach",
    "a clear of least and greatest",
    "a clear of locks",
    "a freeze",
    "a tick",
];

pub fn ahead(beside: &str) -> String {
    format!("{beside} right before a burst")
}

pub fn behind(beside: &str) -> String {
    format!("{beside} right behind a burst")
}

/// The telegrams of a line.
pub fn telegrams(line: &[u8]) -> Vec<u32> {
    match console::command(line) {
        Ok(Command::Burst(words)) => words,
        _ => Vec::new(),
    }
}

/// The states around telegrams that are taken one by one, the one before the first too.
pub fn way(panel: &Slave, taken: &[u32]) -> Vec<State> {
    let mut way = vec![panel.state];
    for &word in taken {
        way.push(panel::step(&panel.table, &way[way.len() - 1], Event::Telegram(word)).0);
    }
    way
}

type Names = Vec<&'static str>;

/// The names that are met.
fn met<const N: usize>(names: [(bool, &'static str); N]) -> Names {
    names.into_iter().filter(|(met, _)| *met).map(|(_, name)| name).collect()
}

/// How a burst ends.
pub fn extent(table: &Table, words: &[u32], burst: &Burst) -> Names {
    let (length, count, note) = (words.len(), burst.count, burst.answer.note);
    let stopped = note == 11;
    let last = count + 1 == length;
    let refuses = || words.iter().any(|&word| telegram::read(table, word).is_none());
    let repeats = words[..count].windows(2).any(|pair| pair[0] == pair[1]);
    met([
        (length == 0, "burst of no telegram"),
        (count > 0 && note == 0, "burst all taken"),
        (stopped && count == 0, "burst stopped by 11 at the first"),
        (stopped && count > 0 && !last, "burst stopped by 11 in the middle"),
        (stopped && count > 0 && last, "burst stopped by 11 at the last"),
        (length == BURST && note == 0, FULL),
        (length == BURST && stopped && last, FULL_REFUSED),
        (length == BURST + 1 && refuses(), OVER),
        (length == BURST + 1, "burst of 1025"),
        (length == TELEGRAMS, "burst of 1100"),
        (repeats, "burst that repeats a telegram"),
    ])
}

/// What happens on the way of a burst that takes some.
pub fn on_its_way(table: &Table, way: &[State]) -> Names {
    let (inner, end) = (&way[1..way.len() - 1], &way[way.len() - 1]);
    let failed = inner.iter().any(|state| state.error != 0);
    let held = panel::frozen(table, end.levels) && end.shown != end.result;
    let crossed = way.windows(2).any(|pair| crosses(table, &pair[0], &pair[1]));
    let mut names = met([
        (failed && end.error == 0, "burst with an error on its way"),
        (end.error != 0, "burst that ends under an error"),
        (held, "burst under freeze"),
        (crossed, "burst across the encoder's end"),
    ]);
    names.extend((0..4).flat_map(|k| switched(table, way, k)));
    names
}

/// Whether the encoder's end is crossed between two states.
fn crosses(table: &Table, before: &State, after: &State) -> bool {
    let places = before.unrolled.zip(after.unrolled);
    let moved = places.map(|(from, to)| turntable::moved(table, from, to));
    matches!(moved, Some(Move::Forward | Move::Backward))
}

/// What the way of a burst does to one preselection.
fn switched(table: &Table, way: &[State], k: usize) -> Names {
    let switches: Vec<_> = way.iter().map(|state| state.switches[k]).collect();
    let (start, end) = (switches[0], switches[switches.len() - 1]);
    let on = switches.windows(2).position(|pair| !pair[0].condition && pair[1].condition);
    let back = on.is_some_and(|on| switches[on + 1..].iter().any(|switch| !switch.condition));
    let pulse = table.preselections[k].pulse > 0;
    let locked = !start.locked && end.locked;
    met([
        (back, "burst with a condition on and off on its way"),
        (back && end.pulse_left > 0, "burst with a pulse that outlasts its condition"),
        (locked && !pulse && !end.condition, "burst with a lock that outlasts its signal"),
    ])
}

/// What an event does that a burst beside it may tell.
pub fn beside(old: &Slave, event: Event, answer: &Answer, new: &Slave) -> Names {
    let levels = match event {
        Event::Tick(_) => return vec!["a tick"],
        Event::Levels(levels @ 0..=7) => levels,
        _ => return Vec::new(),
    };
    let asked = panel::asked(&old.table, old.state.levels, levels);
    let [was, is] = [old, new].map(|panel| panel::frozen(&panel.table, panel.state.levels));
    let done = answer.note == 0;
    met([
        (done && asked.contains(&Action::Reset), "a reset"),
        (done && (0..4).any(|k| asked.contains(&Action::Teach(k))), "a teach"),
        (asked.contains(&Action::ClearExtremes), "a clear of least and greatest"),
        (asked.contains(&Action::ClearLocks), "a clear of locks"),
        (!was && is, "a freeze"),
    ])
}

/// The ends of a long line whose first word is `b`.
pub fn long_line(line: &[u8], said: &Said) -> Names {
    let bare = line.strip_suffix(b"\r").unwrap_or(line);
    let words = || bare.split(|&b| b == b' ').filter(|word| !word.is_empty());
    if words().next() != Some(b"b") {
        return Vec::new();
    }
    let good = !matches!(said, Said::Wrong(_));
    let full = good && bare.len() == BURST_LINE;
    let spaces = bare.iter().take_while(|&&byte| byte == b' ').count();
    let many = *said == Said::Wrong(Wrong::Burst) && words().count() == TELEGRAMS + 2;
    met([
        (many, "line with b of 1101 telegrams"),
        (full && bare == line, "line with b of 10240 bytes"),
        (full && bare != line, "line with b of 10240 bytes and a carriage return"),
        (bare.len() == BURST_LINE + 1, "line with b of 10241 bytes"),
        (good && spaces >= LINE, "line with b behind 1024 spaces"),
    ])
}
