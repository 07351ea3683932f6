//! K6: the record by mistaken rules, kept beside the right one to say which mistakes it tells.

use crate::float;
use crate::fraction::Fraction;
use crate::panel::{self, Event, Record, State};
use crate::table::{Action, AnalogFormat, Table};

/// One mistake in the rules of the record.
#[derive(Clone, Copy, Debug, PartialEq, Eq)]
pub enum Mistake {
    ClearInPlace,
    ClearLeftOut,
    OffTakenIn,
    OffAt4,
    PresentKept,
    Unmarked,
    ValueLeft,
    ZeroTakenIn,
    RefusedCommand,
    WriteKeeps,
    /// It tells nothing: a tick leaves the drive as the event before it took it in.
    TickLeftOut,
}

/// Each mistake once.
pub const ALL: [Mistake; 11] = [
    Mistake::ClearInPlace,
    Mistake::ClearLeftOut,
    Mistake::OffTakenIn,
    Mistake::OffAt4,
    Mistake::PresentKept,
    Mistake::Unmarked,
    Mistake::ValueLeft,
    Mistake::ZeroTakenIn,
    Mistake::RefusedCommand,
    Mistake::WriteKeeps,
    Mistake::TickLeftOut,
];

impl Mistake {
    fn words(self) -> &'static str {
        match self {
            Mistake::ClearInPlace => "a clear at its place among the inputs",
            Mistake::ClearLeftOut => "no clear",
            Mistake::OffTakenIn => "0 of an off drive taken in",
            Mistake::OffAt4 => "off at 4 mA",
            Mistake::PresentKept => "off leaves present",
            Mistake::Unmarked => "cleared to 0 when off",
            Mistake::ValueLeft => "values left in an empty one",
            Mistake::ZeroTakenIn => "0 of an empty one taken in",
            Mistake::RefusedCommand => "nothing done beside a refused command",
            Mistake::WriteKeeps => "lowest and highest kept by a write",
            Mistake::TickLeftOut => "ticks left out",
        }
    }

    /// The name under which records that tell it are counted.
    pub fn name(self) -> String {
        format!("record that tells: {}", self.words())
    }
}

/// The record by each mistaken rule, in the order of `ALL`.
#[derive(Clone, Debug)]
pub struct Others([Held; ALL.len()]);

/// What a record holds, exact.
#[derive(Clone, Copy, Debug)]
struct Held {
    present: Fraction,
    lowest: Fraction,
    highest: Fraction,
    empty: bool,
    /// A clear left lowest and highest as they were.
    left: bool,
}

impl Others {
    /// All right up to a state.
    pub fn new(table: &Table, state: &State) -> Others {
        let zero = Fraction::whole(0);
        let present = panel::drive(table, state).unwrap_or(zero);
        let [lowest, highest] =
            state.driven.map_or([zero; 2], |driven| [driven.lowest, driven.highest]);
        let empty = state.driven.is_none();
        Others([Held { present, lowest, highest, empty, left: false }; ALL.len()])
    }

    /// Takes an event, by the states around it and its note.
    pub fn see(&mut self, table: &Table, before: &State, event: Event, after: &State, note: u8) {
        if matches!(note, 10 | 11) {
            return;
        }
        let now = panel::drive(table, after);
        let clear = match event {
            Event::Levels(levels) => last_clear(table, before, levels),
            _ => None,
        };
        for (mistake, held) in ALL.into_iter().zip(&mut self.0) {
            match mistake {
                Mistake::RefusedCommand if note != 0 => {}
                Mistake::TickLeftOut if matches!(event, Event::Tick(_)) => {}
                Mistake::ClearInPlace if clear.is_some() => {
                    held.take(mistake, table, clear.flatten(), true);
                    held.take(mistake, table, now, false);
                }
                _ => held.take(mistake, table, now, clear.is_some()),
            }
        }
    }

    /// Takes a write that is carried out.
    pub fn write(&mut self) {
        for (mistake, held) in ALL.into_iter().zip(&mut self.0) {
            held.present = Fraction::whole(0);
            if mistake != Mistake::WriteKeeps {
                held.set(held.present, true);
            }
        }
    }

    /// The mistakes that a record tells where it is printed.
    pub fn told<'a>(&'a self, right: &'a Record) -> impl Iterator<Item = Mistake> + 'a {
        let tells = |(_, held): &(Mistake, &Held)| held.printed() != printed(right);
        ALL.into_iter().zip(&self.0).filter(tells).map(|(mistake, _)| mistake)
    }
}

impl Held {
    fn set(&mut self, both: Fraction, empty: bool) {
        (self.lowest, self.highest) = (both, both);
        (self.empty, self.left) = (empty, false);
    }

    /// Takes the drive after an event, cleared or not.
    fn take(&mut self, mistake: Mistake, table: &Table, now: Option<Fraction>, clears: bool) {
        let at_4 = mistake == Mistake::OffAt4 && table.analog == AnalogFormat::MilliampsFrom4;
        let off = match mistake {
            Mistake::PresentKept => self.present,
            _ => Fraction::whole(if at_4 { 4 } else { 0 }),
        };
        self.present = now.unwrap_or(off);
        if clears && mistake != Mistake::ClearLeftOut {
            match (now, mistake) {
                (Some(now), _) => self.set(now, false),
                (None, Mistake::ValueLeft) => {
                    self.left |= !self.empty;
                    self.empty = true;
                }
                (None, _) => self.set(Fraction::whole(0), mistake != Mistake::Unmarked),
            }
            return;
        }
        let zero = mistake == Mistake::OffTakenIn && !self.empty;
        let Some(now) = now.or(zero.then_some(Fraction::whole(0))) else {
            return;
        };
        if self.empty && !self.left && mistake != Mistake::ZeroTakenIn {
            self.set(now, false);
        }
        self.lowest = self.lowest.min(now);
        self.highest = self.highest.max(now);
        self.empty = false;
    }

    fn printed(&self) -> (u32, Option<[u32; 2]>) {
        let [present, lowest, highest] = [self.present, self.lowest, self.highest].map(float::bits);
        (present, (!self.empty).then_some([lowest, highest]))
    }
}

/// Present, and lowest and highest where they are printed.
fn printed(record: &Record) -> (u32, Option<[u32; 2]>) {
    (record.present, (!record.empty).then_some([record.lowest, record.highest]))
}

/// The drive right after the last clear that accepted levels ask for, by the edges of the inputs up to
/// it alone; none without a clear.
fn last_clear(table: &Table, before: &State, levels: u8) -> Option<Option<Fraction>> {
    let asked = panel::asked(table, before.levels, levels);
    let input = asked.iter().rposition(|&action| action == Action::ClearExtremes)?;
    let up_to = (2 << input) - 1;
    let levels = before.levels & !up_to | levels & up_to;
    let (there, _) = panel::step(table, before, Event::Levels(levels));
    Some(panel::drive(table, &there))
}
