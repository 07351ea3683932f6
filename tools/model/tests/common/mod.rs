//! Short ways to set up a table and run events.
#![allow(dead_code, unused_imports)]

use model::panel::{self, Answer, Event, State};
use model::table::{self, Table};

pub use Event::{Levels, Telegram, Tick};

/// The defaults in binary format with some slots set.
pub fn words(slots: &[(usize, i32)]) -> [i32; 104] {
    let mut words = table::defaults();
    words[2] = 1;
    for &(slot, word) in slots {
        words[slot] = word;
    }
    words
}

/// The loaded table of `words`.
pub fn table(slots: &[(usize, i32)]) -> Table {
    table::load(&words(slots)).unwrap()
}

/// The answers of a run.
pub fn answers(table: &Table, events: &[Event]) -> Vec<Answer> {
    let mut state = panel::fresh(table);
    let mut step = |&event: &Event| {
        let (after, answer) = panel::step(table, &state, event);
        state = after;
        answer
    };
    events.iter().map(&mut step).collect()
}

/// The state after a run.
pub fn state_after(table: &Table, events: &[Event]) -> State {
    events.iter().fold(panel::fresh(table), |state, &event| panel::step(table, &state, event).0)
}

/// The last answer of a run.
pub fn last(table: &Table, events: &[Event]) -> Answer {
    *answers(table, events).last().unwrap()
}

/// The notes of a run.
pub fn notes(table: &Table, events: &[Event]) -> Vec<u8> {
    answers(table, events).iter().map(|answer| answer.note).collect()
}

/// The results of a run.
pub fn results(table: &Table, events: &[Event]) -> Vec<i64> {
    answers(table, events).iter().map(|answer| answer.result).collect()
}

/// Output 1 after each event.
pub fn output_1(table: &Table, events: &[Event]) -> Vec<bool> {
    answers(table, events).iter().map(|answer| answer.outputs[0]).collect()
}

/// Condition 1 after each event.
pub fn condition_1(table: &Table, events: &[Event]) -> Vec<bool> {
    (1..=events.len()).map(|n| state_after(table, &events[..n]).switches[0].condition).collect()
}

/// Telegrams of positions.
pub fn telegrams(positions: &[u32]) -> Vec<Event> {
    positions.iter().map(|&position| Telegram(position)).collect()
}
