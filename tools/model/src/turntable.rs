//! K4: what runs with a round loop meet, and the same runs by the rule before it.

use crate::measure;
use crate::panel::{self, Event, State};
use crate::panelrun::Step;
use crate::table::{Action, Table, Z};
use crate::telegram;

/// Counts over runs with a round loop.
#[derive(Clone, Debug, Default)]
pub struct Turntable {
    pub tables: u64,
    /// Tables by R and M, as `SETUPS` names them.
    pub setups: [u64; 8],
    /// Telegrams that move the count, and those that move it as `MOVES` names them.
    pub counted: u64,
    pub moves: [u64; 4],
    /// Crossings by up to 1,000 of 1,000,000 positions or more.
    pub short: u64,
    /// Telegrams counted right behind one with error 3, and those of them that cross the end.
    pub behind_error: u64,
    pub crossed_behind_error: u64,
    /// Resets carried out, those on another turn than the first, those with p above Z.
    pub resets: u64,
    pub resets_turned: u64,
    pub resets_above_z: u64,
    /// Events whose result would tell a mistake, as `MISTAKES` names them.
    pub told: [u64; 6],
    /// Notes 12; there are none.
    pub noted_12: u64,
    /// Counted telegrams to which the rule before K4 gives another distance.
    pub other_distance: u64,
    /// Where M is a multiple of R, up to the first reset that the rule before K4 refuses by 12: events,
    /// and those answered otherwise by that rule; there are none.
    pub compared: u64,
    pub compared_apart: u64,
}

const SETUPS: [&str; 8] =
    ["R divides M", "R does not divide M", "R 1", "R above M", "R Z", "M 2", "M 4", "M 2^32"];

/// Crossings are steps of less than half a turn.
const MOVES: [&str; 4] = [
    "encoder's end crossed forward",
    "encoder's end crossed backward",
    "exact half turns, from the lower half",
    "exact half turns, from the upper half",
];

/// Places in the lists of moves and mistakes; half a turn from the upper half stands behind that from
/// the lower.
pub const FORWARD: usize = 0;
pub const BACKWARD: usize = 1;
pub const HALF_TURN: usize = 2;
pub const ERROR_COUNTED: usize = 4;
pub const P_STORED: usize = 5;

/// Mistakes that another result tells; the first four in the order of the moves.
const MISTAKES: [&str; 6] = [
    "a crossing forward read as a jump back",
    "a crossing backward read as a jump ahead",
    "half a turn from the lower half counted forward",
    "half a turn from the upper half counted forward",
    "error 3 counted",
    "p stored in place of the count",
];

/// How a telegram moves the unrolled place.
#[derive(Clone, Copy, Debug, PartialEq, Eq)]
pub enum Move {
    /// Within the positions as they are numbered.
    Within,
    Forward,
    Backward,
    /// Exactly half a turn, from the lower half or the upper.
    HalfTurn(usize),
}

/// The move from one unrolled place to the next.
pub fn moved(table: &Table, from: i64, to: i64) -> Move {
    let positions = table.positions();
    let turns = to.div_euclid(positions) - from.div_euclid(positions);
    if 2 * (to - from) == -positions {
        return Move::HalfTurn(usize::from(2 * from.rem_euclid(positions) >= positions));
    }
    match turns {
        0 => Move::Within,
        1.. => Move::Forward,
        _ => Move::Backward,
    }
}

/// Whether M is a multiple of R.
pub fn divides(table: &Table) -> bool {
    table.positions() % table.round_loop == 0
}

/// Whether a levels event asks for a reset that is carried out or refused by 12, not by 13.
pub fn resets(table: &Table, before: &State, levels: u8) -> bool {
    levels <= 7
        && panel::asked(table, before.levels, levels).contains(&Action::Reset)
        && panel::place(table, before).is_some()
}

/// Whether the last telegram has p after direction above Z.
pub fn above_z(table: &Table, state: &State) -> bool {
    panel::place(&table.before_k4(), state).is_some_and(|directed| directed > Z.into())
}

impl Turntable {
    /// A table that is loaded.
    pub fn see_table(&mut self, table: &Table) {
        if table.round_loop == 0 {
            return;
        }
        let (round, positions) = (table.round_loop, table.positions());
        let met = [
            divides(table),
            !divides(table),
            round == 1,
            round > positions,
            round == Z.into(),
            positions == 2,
            positions == 4,
            positions == 1 << 32,
        ];
        self.tables += 1;
        for (count, met) in self.setups.iter_mut().zip(met) {
            *count += u64::from(met);
        }
    }

    /// A step of a run with a round loop.
    fn see(&mut self, step: &Step) {
        self.noted_12 += u64::from(step.answer.note == 12);
        match step.event {
            Event::Telegram(word) if counted(step.table, word) => self.see_counted(step),
            Event::Levels(levels) if resets(step.table, step.before, levels) => {
                self.see_reset(step);
            }
            _ => {}
        }
    }

    fn see_counted(&mut self, step: &Step) {
        self.counted += 1;
        let (Some(from), Some(to)) = (step.before.unrolled, step.after.unrolled) else {
            return;
        };
        let positions = step.table.positions();
        let moved = moved(step.table, from, to);
        let crossed = matches!(moved, Move::Forward | Move::Backward);
        let (at, other) = match moved {
            Move::Within => (None, to),
            Move::Forward => (Some(FORWARD), to - positions),
            Move::Backward => (Some(BACKWARD), to + positions),
            Move::HalfTurn(half) => (Some(HALF_TURN + half), to + positions),
        };
        if let Some(at) = at {
            self.moves[at] += 1;
            self.told[at] += u64::from(tells(step, step.after.offset, other));
        }
        let short = positions >= 1_000_000 && (to - from).abs() <= 1_000;
        self.short += u64::from(crossed && short);
        let behind = step.before.error == 3;
        self.behind_error += u64::from(behind);
        self.crossed_behind_error += u64::from(behind && crossed);
    }

    fn see_reset(&mut self, step: &Step) {
        let (table, before) = (step.table, step.before);
        let (Some(place), Some(directed)) =
            (panel::place(table, before), panel::place(&table.before_k4(), before))
        else {
            return;
        };
        self.resets += 1;
        self.resets_turned += u64::from(place != directed);
        self.resets_above_z += u64::from(above_z(table, before));
        self.told[P_STORED] += u64::from(tells(step, directed, place));
    }

    /// Every count with its name.
    pub fn counters(&mut self) -> Vec<(String, &mut u64)> {
        let mut list: Vec<(String, &mut u64)> =
            vec![("tables with round loop".into(), &mut self.tables)];
        let setups = SETUPS.iter().zip(&mut self.setups);
        list.extend(setups.map(|(name, count)| (format!("tables with round loop, {name}"), count)));
        list.push(("telegrams counted".into(), &mut self.counted));
        let moves = MOVES.iter().zip(&mut self.moves);
        list.extend(moves.map(|(name, count)| (name.to_string(), count)));
        let more = [
            ("encoder's end crossed by a short step", &mut self.short),
            ("telegrams counted behind error 3", &mut self.behind_error),
            ("encoder's end crossed behind error 3", &mut self.crossed_behind_error),
            ("resets with round loop", &mut self.resets),
            ("resets with round loop, end crossed before", &mut self.resets_turned),
            ("resets with round loop, p above Z", &mut self.resets_above_z),
            ("note 12 with round loop", &mut self.noted_12),
            ("other distances by the rule before K4", &mut self.other_distance),
            ("events by both rules, M a multiple of R", &mut self.compared),
            ("events by both rules, other answers", &mut self.compared_apart),
        ];
        list.extend(more.map(|(name, count)| (name.to_string(), count)));
        let told = MISTAKES.iter().zip(&mut self.told);
        list.extend(told.map(|(name, count)| (format!("results that tell: {name}"), count)));
        list
    }
}

/// Whether a telegram moves the count: accepted, without error 3.
fn counted(table: &Table, word: u32) -> bool {
    telegram::read(table, word).is_some_and(|reading| !reading.faulty)
}

/// Whether another offset and place give a step another result or error.
fn tells(step: &Step, offset: i64, place: i64) -> bool {
    let other = measure::measure(step.table, offset, Some(place));
    (other.result, other.error) != (step.after.result, step.after.error)
}

/// The same run by the rule before K4, and by one that counts telegrams with error 3 too.
pub struct Others {
    table: Table,
    state: State,
    /// A reset was refused by 12.
    refused: bool,
    /// The unrolled place, with the telegrams with error 3 since the last counted one.
    place: Option<i64>,
}

impl Others {
    pub fn new(table: &Table) -> Others {
        let table = table.before_k4();
        let state = panel::fresh(&table);
        Others { table, state, refused: false, place: None }
    }

    /// Counts a step, and holds what comes of it by the others against it.
    pub fn see(&mut self, step: &Step, counts: &mut Turntable) {
        if step.table.counts() {
            counts.see(step);
            self.see_old_rule(step, counts);
            self.see_errors_counted(step, counts);
        }
    }

    fn see_errors_counted(&mut self, step: &Step, counts: &mut Turntable) {
        let Event::Telegram(word) = step.event else {
            return;
        };
        let Some(reading) = telegram::read(step.table, word) else {
            return;
        };
        let directed = measure::directed(step.table, reading.position);
        let place = measure::unrolled(step.table, self.place, directed);
        self.place = if reading.faulty {
            Some(place)
        } else {
            counts.told[ERROR_COUNTED] += u64::from(tells(step, step.after.offset, place));
            step.after.unrolled
        };
    }

    fn see_old_rule(&mut self, step: &Step, counts: &mut Turntable) {
        if let Event::Levels(levels) = step.event {
            self.refused |=
                resets(&self.table, &self.state, levels) && above_z(&self.table, &self.state);
        }
        let (after, answer) = panel::step(&self.table, &self.state, step.event);
        self.state = after;
        if let Event::Telegram(_) = step.event {
            let other = self.distance() != distance(step.table, step.after);
            counts.other_distance += u64::from(other && step.answer.note == 0);
        }
        if divides(step.table) && !self.refused {
            let same = answer == *step.answer && same_but_for_offset(&after, step.after);
            counts.compared += 1;
            counts.compared_apart += u64::from(!same);
        }
    }

    fn distance(&self) -> Option<i64> {
        distance(&self.table, &self.state)
    }
}

/// d, where there is one.
fn distance(table: &Table, state: &State) -> Option<i64> {
    panel::place(table, state).map(|place| measure::distance(table, state.offset, place))
}

/// Whether two states are the same but for the offset and the count.
fn same_but_for_offset(one: &State, other: &State) -> bool {
    State { offset: other.offset, unrolled: other.unrolled, ..*one } == *other
}
