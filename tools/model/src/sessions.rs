//! Recorded sessions of console: one text with what the model writes for it, and a remark over each
//! session that says what it is for.

use crate::bursts;
use crate::console::Console;
use crate::differ::Counts;
use crate::generate::bursts::Long;
use crate::generate::sessions::{Size, Writer};
use crate::record::Recording;
use crate::rng::Rng;
use crate::tally::{self, Tally};

/// Texts tried for a session.
const TRIES: u64 = 20_000;
/// Most bytes of a session, unless a long line is what it is for.
const BYTES: usize = 900;
const LONG_BYTES: usize = 2_600;

/// The sessions of a seed; the first before any start, the last without its newline.
pub fn recording(seed: u64, count: u64) -> Recording {
    let mut recording = Recording::new("sessions");
    let mut console = Console::default();
    let mut met = Tally::default();
    let mut purposes = Vec::new();
    for index in 0..count {
        let purpose = purpose(index, count, &met, &purposes);
        let (text, output, seen) = session(seed, index, count, &purpose, &mut console);
        recording.input.extend(text);
        recording.output.push_str(&output);
        met.add(&seen);
        purposes.push(purpose);
    }
    recording
}

/// The first of the names that the sessions before met least; the last name is the last session's. K5:
/// a kind of burst counts as met once a session was for it.
fn purpose(index: u64, count: u64, met: &Tally, purposes: &[String]) -> String {
    let times = |name: &String| match has_its_own(name) && !purposes.contains(name) {
        true => 0,
        false => met.of(name),
    };
    let mut names = tally::names();
    let last = names.pop().unwrap();
    let chosen = match index {
        0 => names.iter().find(|name| before_a_start(name)).unwrap(),
        _ if index + 1 == count => &last,
        _ => names
            .iter()
            .filter(|name| !before_a_start(name))
            .min_by_key(|&name| times(name))
            .unwrap(),
    };
    chosen.clone()
}

/// K5: a kind of burst; one of 1,025 telegrams is met where one of them is refused.
fn has_its_own(name: &str) -> bool {
    bursts::NAMES.contains(&name) && name != "burst of 1025"
}

/// Met at the head of a text alone.
fn before_a_start(name: &str) -> bool {
    name.contains("no panel runs yet")
}

/// Whether a session meets its purpose; the first meets all that comes before a start.
fn meets(seen: &Tally, index: u64, purpose: &str) -> bool {
    let mut heads = tally::names().into_iter().filter(|name| before_a_start(name));
    seen.of(purpose) > 0 && (index > 0 || heads.all(|name| seen.of(&name) > 0))
}

/// Text and output of the first try that meets its purpose; the console after it.
fn session(
    seed: u64,
    index: u64,
    count: u64,
    purpose: &str,
    console: &mut Console,
) -> (Vec<u8>, String, Tally) {
    let mut rng = Rng::for_case(seed, index);
    for _ in 0..TRIES {
        let mut writer = Writer::new(&mut rng, Size::Short, console.clone());
        writer.long = long(purpose);
        writer.put(&format!("# {}. {purpose}", index + 1));
        if index == 0 {
            writer.before_a_start();
        }
        writer.session();
        if index + 1 == count {
            writer.text.pop();
        }
        let text = writer.text;
        let mut after = console.clone();
        let (output, seen) = tally::observe_from(&mut after, &text);
        if meets(&seen, index, purpose) && text.len() <= longest(purpose) && shows(&text) {
            *console = after;
            return (text, output, seen);
        }
    }
    panic!("no session for {purpose}");
}

/// K5: the long burst that a session is for; no other session has one.
fn long(purpose: &str) -> Option<Long> {
    match purpose {
        bursts::FULL => Some(Long::Full),
        bursts::FULL_REFUSED => Some(Long::FullRefused),
        bursts::OVER => Some(Long::Over),
        _ => None,
    }
}

fn longest(purpose: &str) -> usize {
    let lengths = ["1024", "1025", "300", "256", "200"];
    if lengths.iter().any(|length| purpose.contains(length)) {
        LONG_BYTES
    } else {
        BYTES
    }
}

/// Only bytes that a diff shows; a carriage return is one of them.
pub fn shows(text: &[u8]) -> bool {
    text.iter().all(|&byte| matches!(byte, b'\t' | b'\n' | b'\r' | b' '..=b'~'))
}
