//! The text in which the gate's runs are written: a table by what differs from the defaults, a log
//! in pieces, and questions on the table.

use std::fmt::Write;

use crate::panelrun::TABLE_BYTES;
use crate::table;

/// Words of a line of a log.
const LINE_WORDS: usize = 8;

/// The lines of a run: its name, its table, its log.
pub fn run(name: &str, input: &[u8]) -> String {
    let (table, log) = input.split_at(input.len().min(TABLE_BYTES));
    let mut text = format!("== {name}\n");
    let words = table.chunks_exact(4).map(|word| i32::from_le_bytes(word.try_into().unwrap()));
    for (slot, (word, default)) in words.zip(table::defaults()).enumerate() {
        if word != default {
            writeln!(text, "slot {slot} {word}").unwrap();
        }
    }
    if table.len() < TABLE_BYTES {
        writeln!(text, "cut {}", table.len()).unwrap();
    }
    text.push_str("start\n");
    text.push_str(&log_lines(log));
    text
}

/// The lines of a log: its words, the last piece with the bytes left over.
fn log_lines(log: &[u8]) -> String {
    let words = log.chunks_exact(4);
    let left_over: String = words.remainder().iter().map(|byte| format!(" {byte:02X}")).collect();
    let words: Vec<String> = words
        .map(|word| format!(" {:08X}", u32::from_le_bytes(word.try_into().unwrap())))
        .collect();
    let lines: String =
        words.chunks(LINE_WORDS).map(|line| format!("log{}\n", line.concat())).collect();
    format!("{lines}end{left_over}\n")
}
