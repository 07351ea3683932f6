//! The text that panelrun prints for an input. Paper: "panelrun and its log".

use std::fmt::Write;

use crate::log;
use crate::panel::{self, Answer, Event, State};
use crate::table::{self, LoadRefusal, Table, SLOTS};

/// Bytes of the table in an input.
pub const TABLE_BYTES: usize = 4 * SLOTS;
/// First line of a run.
pub const HEADER: &str = "event kind result shown error outs analog note\n";

/// One event of a run with the states around it.
pub struct Step<'a> {
    pub table: &'a Table,
    pub before: &'a State,
    pub event: Event,
    pub after: &'a State,
    pub answer: &'a Answer,
}

/// How a run ends.
#[derive(Clone, Copy, Debug, PartialEq, Eq)]
pub enum End {
    Refused(LoadRefusal),
    /// 0, or the log's refusal.
    Log(u8),
}

/// The printed text of an input.
pub fn run(input: &[u8]) -> String {
    run_with(input, |_| ()).0
}

/// The printed text and the end of an input; `see` is shown each step.
pub fn run_with(input: &[u8], mut see: impl FnMut(Step)) -> (String, End) {
    let table = match load(input) {
        Ok(table) => table,
        Err(refusal) => {
            let text = format!("load {} {}\n", refusal.number, refusal.slot);
            return (text, End::Refused(refusal));
        }
    };
    let log = log::read(&input[TABLE_BYTES..]);
    let mut text = HEADER.to_string();
    let mut state = panel::fresh(&table);
    for (i, &event) in log.events.iter().enumerate() {
        let (after, answer) = panel::step(&table, &state, event);
        see(Step { table: &table, before: &state, event, after: &after, answer: &answer });
        text.push_str(&line(i as u64 + 1, event, &answer));
        state = after;
    }
    writeln!(text, "end {}", log.end).unwrap();
    (text, End::Log(log.end))
}

/// The table at the head of an input; refusal 1 when it is cut short.
pub fn load(input: &[u8]) -> Result<Table, LoadRefusal> {
    let words: Vec<i32> = input
        .chunks_exact(4)
        .take(SLOTS)
        .map(|word| i32::from_le_bytes([word[0], word[1], word[2], word[3]]))
        .collect();
    table::load(&words)
}

/// Table and log words as an input.
pub fn input_of(table: &[i32], log: &[u32]) -> Vec<u8> {
    let table = table.iter().map(|&word| word as u32);
    table.chain(log.iter().copied()).flat_map(u32::to_le_bytes).collect()
}

/// The line of an event, with its newline.
pub fn line(number: u64, event: Event, answer: &Answer) -> String {
    let kind = match event {
        Event::Telegram(_) => 'T',
        Event::Levels(_) => 'I',
        Event::Tick(_) => 'C',
    };
    format!("{number} {kind} {}\n", fields(answer))
}

/// The fields of an answer, from result to note.
pub fn fields(answer: &Answer) -> String {
    let outs: String = answer.outputs.iter().map(|&high| if high { '1' } else { '0' }).collect();
    let analog = answer.code.map_or("off".to_string(), |code| code.to_string());
    let Answer { result, shown, error, note, .. } = answer;
    format!("{result} {shown} {error} {outs} {analog} {note}")
}
