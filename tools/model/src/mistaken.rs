//! K5: consoles with a mistaken rule of bursts, kept beside the right one to say which mistakes a text
//! tells. Least and greatest with the last result alone is none of them: console prints neither.

use crate::bursts;
use crate::console::{Console, Said};
use crate::panel::{self, Answer, Burst, Event, Halves, State, BURST};
use crate::table::Table;
use crate::telegram;

/// One mistake in the rules of a burst.
#[derive(Clone, Copy, Debug, PartialEq, Eq)]
pub enum Mistake {
    RefusedTaken,
    RefusedSkipped,
    RefusedCounted,
    NothingTaken,
    LastAlone,
    SwitchedAtTheEnd,
    RecordAtTheEnd,
    MarksOfTheList,
    MarksKept,
    OneEvent,
    FullRefused,
    FirstOfMore,
    BeforeTheLength,
}

/// Each mistake once.
pub const ALL: [Mistake; 13] = [
    Mistake::RefusedTaken,
    Mistake::RefusedSkipped,
    Mistake::RefusedCounted,
    Mistake::NothingTaken,
    Mistake::LastAlone,
    Mistake::SwitchedAtTheEnd,
    Mistake::RecordAtTheEnd,
    Mistake::MarksOfTheList,
    Mistake::MarksKept,
    Mistake::OneEvent,
    Mistake::FullRefused,
    Mistake::FirstOfMore,
    Mistake::BeforeTheLength,
];

impl Mistake {
    fn words(self) -> &'static str {
        match self {
            Mistake::RefusedTaken => "the refused telegram taken, its upper bits cut, and the rest",
            Mistake::RefusedSkipped => "the refused telegram skipped and the rest taken",
            Mistake::RefusedCounted => "the count one too high behind a refused telegram",
            Mistake::NothingTaken => "nothing taken where a telegram is refused",
            Mistake::LastAlone => "only the last telegram stepped",
            Mistake::SwitchedAtTheEnd => "conditions worked out once, at the end",
            Mistake::RecordAtTheEnd => "the record brought up to date once, at the end",
            Mistake::MarksOfTheList => "the marks of the list's last telegram, though not taken",
            Mistake::MarksKept => "the marks kept where none is taken",
            Mistake::OneEvent => "a burst counted as one event",
            Mistake::FullRefused => "21 at 1024 telegrams",
            Mistake::FirstOfMore => "the first 1024 of more taken",
            Mistake::BeforeTheLength => "11 tested before 21",
        }
    }

    /// The name under which lines that tell it are counted.
    pub fn name(self) -> String {
        format!("line that tells: {}", self.words())
    }

    /// A burst by the mistaken rule on a running panel; `right` is what the right one makes of it.
    fn take(self, console: &mut Console, words: &[u32], right: (State, Burst)) -> Said {
        let Some(panel) = &mut console.panel else { unreachable!() };
        let (after, burst) = self.burst(&panel.table, &panel.state, words, console.halves, right);
        panel.state = after;
        console.events += if self == Mistake::OneEvent { 1 } else { burst.count as u64 };
        console.halves = burst.answer.halves;
        Said::Burst(burst)
    }

    /// State and answer by the mistaken rule, `marks` being those of the event before.
    fn burst(
        self,
        table: &Table,
        before: &State,
        words: &[u32],
        marks: Halves,
        right: (State, Burst),
    ) -> (State, Burst) {
        let (count, note) = panel::extent(table, words);
        let stopped = note == 11;
        let of = |words: &[u32], note| noted(panel::burst(table, before, words), note);
        match self {
            Mistake::RefusedTaken if stopped => of(&cut(table, words), 11),
            Mistake::RefusedSkipped if stopped => of(&accepted(table, words), 11),
            Mistake::RefusedCounted if stopped => counted(right, count + 1),
            Mistake::NothingTaken if stopped => of(&[], 11),
            Mistake::LastAlone if count > 0 => counted(of(&words[count - 1..count], note), count),
            Mistake::SwitchedAtTheEnd if count > 0 => {
                let keep = |old: &State, new: State| State { switches: old.switches, ..new };
                at_the_end(table, before, &words[..count], note, keep)
            }
            Mistake::RecordAtTheEnd if count > 0 => {
                let keep = |old: &State, new: State| State { driven: old.driven, ..new };
                at_the_end(table, before, &words[..count], note, keep)
            }
            Mistake::MarksOfTheList if stopped => {
                let last = cut(table, &words[words.len() - 1..])[0];
                let (_, answer) = panel::step(table, &right.0, Event::Telegram(last));
                marked(right, answer.halves)
            }
            Mistake::MarksKept if count == 0 => marked(right, marks),
            Mistake::FullRefused if words.len() == BURST => of(&[], 21),
            Mistake::FirstOfMore if note == 21 => panel::burst(table, before, &words[..BURST]),
            Mistake::BeforeTheLength if note == 21 => match refused(table, words) {
                Some(place) => of(&words[..place.min(BURST)], 11),
                None => right,
            },
            _ => right,
        }
    }
}

/// The consoles by each mistaken rule, in the order of `ALL`; none where it is in step with the right
/// one.
#[derive(Clone, Debug, Default)]
pub struct Others([Option<Console>; ALL.len()]);

impl Others {
    /// Takes a line between two consoles, and what is said to it; the mistakes that it tells. A console
    /// that is told is in step again.
    pub fn see(
        &mut self,
        line: &[u8],
        before: &Console,
        said: &Said,
        after: &Console,
    ) -> Vec<Mistake> {
        let burst = match (said, &after.panel) {
            (Said::Burst(burst), Some(panel)) => {
                Some((bursts::telegrams(line), (panel.state, *burst)))
            }
            _ => None,
        };
        let mut told = Vec::new();
        for (mistake, held) in ALL.into_iter().zip(&mut self.0) {
            let in_step = held.is_none();
            if in_step && burst.is_none() {
                continue;
            }
            let mut other = held.take().unwrap_or_else(|| before.clone());
            let answered = match &burst {
                Some((words, right)) if in_step => mistake.take(&mut other, words, *right),
                Some((words, _)) => {
                    let right = right(&other, words);
                    mistake.take(&mut other, words, right)
                }
                None => other.line(line),
            };
            if answered.to_string() != said.to_string() {
                told.push(mistake);
            } else if other != *after {
                *held = Some(other);
            }
        }
        told
    }
}

/// What the right rule makes of a burst.
fn right(console: &Console, words: &[u32]) -> (State, Burst) {
    let Some(panel) = &console.panel else { unreachable!() };
    panel::burst(&panel.table, &panel.state, words)
}

fn noted((after, burst): (State, Burst), note: u8) -> (State, Burst) {
    (after, Burst { answer: Answer { note, ..burst.answer }, ..burst })
}

fn counted((after, burst): (State, Burst), count: usize) -> (State, Burst) {
    (after, Burst { count, ..burst })
}

fn marked((after, burst): (State, Burst), halves: Halves) -> (State, Burst) {
    (after, Burst { answer: Answer { halves, ..burst.answer }, ..burst })
}

/// Each telegram taken by itself, but what `keep` keeps changes with the last alone.
fn at_the_end(
    table: &Table,
    before: &State,
    taken: &[u32],
    note: u8,
    keep: impl Fn(&State, State) -> State,
) -> (State, Burst) {
    let (ahead, last) = taken.split_at(taken.len() - 1);
    let near = ahead.iter().fold(*before, |state, &word| {
        keep(before, panel::step(table, &state, Event::Telegram(word)).0)
    });
    counted(noted(panel::burst(table, &near, last), note), taken.len())
}

/// Telegrams without their bits above N.
fn cut(table: &Table, words: &[u32]) -> Vec<u32> {
    words.iter().map(|word| word & (u32::MAX >> (32 - table.resolution))).collect()
}

fn accepted(table: &Table, words: &[u32]) -> Vec<u32> {
    words.iter().copied().filter(|&word| telegram::read(table, word).is_some()).collect()
}

/// The place of the first refused telegram, however long the list.
fn refused(table: &Table, words: &[u32]) -> Option<usize> {
    words.iter().position(|&word| telegram::read(table, word).is_none())
}
