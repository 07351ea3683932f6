//! What a run meets: numbers, errors, actions, modes and the rest, counted.

use std::fmt;

use crate::differ::Counts;
use crate::measure;
use crate::panel::{self, Event, Halves};
use crate::panelrun::{self, End, Step};
use crate::table::{Action, Format, Table};
use crate::telegram;
use crate::turntable::{Others, Turntable};

/// Counts over one run or many.
#[derive(Clone, Debug, Default)]
pub struct Coverage {
    pub runs: u64,
    pub loaded: u64,
    pub lines: u64,
    /// Load refusals, notes and log refusals by number.
    pub numbers: [u64; 17],
    /// Lines by error.
    pub errors: [u64; 4],
    /// Edges that ask for an action; for freeze, lines under it.
    pub actions: [u64; 9],
    /// Telegrams, levels, ticks.
    pub kinds: [u64; 3],
    /// Conditions that turn on, and off, by mode.
    pub turned_on: [u64; 7],
    pub turned_off: [u64; 7],
    /// Suppression that ends, by mode.
    pub released: [u64; 7],
    pub pulses: u64,
    pub pulses_ended: u64,
    pub locked: u64,
    pub unlocked: u64,
    pub relocked: u64,
    pub resets_ending_error: u64,
    pub held_shown: u64,
    /// Telegrams by format: Gray, binary.
    pub formats: [u64; 2],
    /// Error-free results by linearization: off, one quadrant, four.
    pub curves: [u64; 3],
    pub reverse: u64,
    pub round_loop: u64,
    /// K4.
    pub turntable: Turntable,
    /// K14: telegrams that move on without error under a table that goes forward, by linearization;
    /// those that run back all the same; those that run back under another table.
    pub moved_on: [u64; 3],
    pub ran_back: u64,
    pub ran_back_otherwise: u64,
    /// K7: telegrams, and levels, with the mark of scaling, of linearization, of the analog value.
    pub marked: [u64; 3],
    pub marked_by_reset: [u64; 3],
    /// Error-free telegrams with neither of the first two marks, and with one; those of each to
    /// which halves rounded upward give another result or an error.
    pub unmarked: u64,
    pub unmarked_apart: u64,
    pub halved: u64,
    pub halved_apart: u64,
    /// Codes by analog format, and those within the limits.
    pub analog: [u64; 3],
    pub analog_within: [u64; 3],
    /// Lines with an active-low output aimed at.
    pub active_low: u64,
    /// Lines with two preselections on one output.
    pub shared: u64,
}

/// The printed text of an input and what its run meets.
pub fn observe(input: &[u8]) -> (String, Coverage) {
    let mut seen = Coverage { runs: 1, ..Coverage::default() };
    let table = panelrun::load(input).ok();
    let mut others = table.as_ref().map(Others::new);
    let (text, end) = panelrun::run_with(input, |step| {
        seen.see(&step);
        others.iter_mut().for_each(|others| others.see(&step, &mut seen.turntable));
    });
    match end {
        End::Refused(refusal) => seen.numbers[refusal.number as usize] += 1,
        End::Log(number) => {
            seen.loaded += 1;
            seen.numbers[number as usize] += 1;
        }
    }
    table.iter().for_each(|table| seen.turntable.see_table(table));
    seen.lines += text.lines().count() as u64;
    (text, seen)
}

impl Coverage {
    fn see(&mut self, step: &Step) {
        let note = step.answer.note as usize;
        if note != 0 {
            self.numbers[note] += 1;
        }
        self.errors[step.answer.error as usize] += 1;
        self.kinds[kind(step.event)] += 1;
        self.see_freeze(step);
        self.see_actions(step);
        self.see_switches(step);
        self.see_setup(step);
        self.see_moves(step);
        self.see_halves(step);
    }

    fn see_freeze(&mut self, step: &Step) {
        if panel::frozen(step.table, step.after.levels) {
            self.actions[2] += 1;
            self.held_shown += u64::from(step.after.shown != step.after.result);
        }
    }

    fn see_actions(&mut self, step: &Step) {
        let Event::Levels(levels) = step.event else {
            return;
        };
        let asked = panel::asked(step.table, step.before.levels, levels);
        for action in asked {
            self.actions[action_number(action)] += u64::from(action != Action::Freeze);
        }
        let ended = step.before.error != 0 && step.after.error == 0;
        self.resets_ending_error += u64::from(ended);
        if asked.contains(&Action::ClearLocks) {
            self.see_cleared_locks(step);
        }
    }

    fn see_cleared_locks(&mut self, step: &Step) {
        let locks = step.before.switches.iter().zip(&step.after.switches);
        for (_, after) in locks.filter(|(before, _)| before.locked) {
            self.unlocked += u64::from(!after.locked);
            self.relocked += u64::from(after.locked);
        }
    }

    fn see_switches(&mut self, step: &Step) {
        for k in 0..4 {
            let setup = &step.table.preselections[k];
            let (before, after) = (&step.before.switches[k], &step.after.switches[k]);
            let mode = setup.mode as usize;
            let started = after.condition && !before.condition;
            self.turned_on[mode] += u64::from(started);
            self.turned_off[mode] += u64::from(!after.condition && before.condition);
            let released = panel::suppressible(setup) && after.released && !before.released;
            self.released[mode] += u64::from(released);
            self.pulses += u64::from(started && setup.pulse > 0);
            self.pulses_ended += u64::from(before.pulse_left > 0 && after.pulse_left == 0);
            self.locked += u64::from(after.locked && !before.locked);
        }
    }

    fn see_setup(&mut self, step: &Step) {
        let table = step.table;
        if let Event::Telegram(_) = step.event {
            self.formats[usize::from(table.format == Format::Binary)] += 1;
            self.reverse += u64::from(table.reverse);
            self.round_loop += u64::from(table.round_loop > 0);
            let curve = table.linearization as usize;
            self.curves[curve] += u64::from(step.answer.code.is_some());
        }
        if let Some(code) = step.answer.code {
            let format = table.analog as usize;
            self.analog[format] += 1;
            let limits = if format == 0 { [-32_767, 32_767] } else { [0, 65_535] };
            self.analog_within[format] += u64::from(!limits.contains(&code));
        }
        self.active_low +=
            u64::from(table.preselections.iter().any(|p| p.active_low && p.target > 0));
        self.shared += u64::from(shares_output(table));
    }

    fn see_moves(&mut self, step: &Step) {
        if !moves_on(step) {
            return;
        }
        let back = u64::from(step.after.result < step.before.result);
        if measure::goes_forward(step.table) {
            self.moved_on[step.table.linearization as usize] += 1;
            self.ran_back += back;
        } else {
            self.ran_back_otherwise += back;
        }
    }

    fn see_halves(&mut self, step: &Step) {
        let marks = step.answer.halves;
        match step.event {
            Event::Telegram(_) => count_marks(&mut self.marked, marks),
            Event::Levels(_) => count_marks(&mut self.marked_by_reset, marks),
            Event::Tick(_) => {}
        }
        let Some(apart) = upward_is_apart(step) else {
            return;
        };
        if marks.scaling || marks.linearization {
            self.halved += 1;
            self.halved_apart += u64::from(apart);
        } else {
            self.unmarked += 1;
            self.unmarked_apart += u64::from(apart);
        }
    }

    /// Every count with its name.
    fn counters(&mut self) -> Vec<(String, &mut u64)> {
        let mut list: Vec<(String, &mut u64)> = vec![
            ("runs".into(), &mut self.runs),
            ("tables loaded".into(), &mut self.loaded),
            ("lines".into(), &mut self.lines),
        ];
        name_all(&mut list, "number", &mut self.numbers);
        name_all(&mut list, "lines with error", &mut self.errors);
        name_all(&mut list, "action", &mut self.actions);
        name_all(&mut list, "events of kind (T, I, C)", &mut self.kinds);
        name_all(&mut list, "turned on, mode", &mut self.turned_on);
        name_all(&mut list, "turned off, mode", &mut self.turned_off);
        name_all(&mut list, "suppression ended, mode", &mut self.released);
        list.extend([
            ("pulses started".into(), &mut self.pulses),
            ("pulses used up".into(), &mut self.pulses_ended),
            ("locks taken".into(), &mut self.locked),
            ("locks cleared".into(), &mut self.unlocked),
            ("locks taken again at once".into(), &mut self.relocked),
            ("resets that end an error".into(), &mut self.resets_ending_error),
            ("lines with shown held off the result".into(), &mut self.held_shown),
        ]);
        name_all(&mut list, "telegrams of format", &mut self.formats);
        name_all(&mut list, "results with linearization", &mut self.curves);
        list.extend([
            ("telegrams in reverse".into(), &mut self.reverse),
            ("telegrams with round loop".into(), &mut self.round_loop),
        ]);
        list.extend(self.turntable.counters());
        name_all(&mut list, "moved on, linearization", &mut self.moved_on);
        list.extend([
            ("ran back, table forward".into(), &mut self.ran_back),
            ("ran back, table not forward".into(), &mut self.ran_back_otherwise),
        ]);
        let half = "with a half (scaling, linearization, analog)";
        name_all(&mut list, &format!("telegrams {half}"), &mut self.marked);
        name_all(&mut list, &format!("resets {half}"), &mut self.marked_by_reset);
        list.extend([
            ("results without a half".into(), &mut self.unmarked),
            ("results without a half, other ones upward".into(), &mut self.unmarked_apart),
            ("results with a half".into(), &mut self.halved),
            ("results with a half, other ones upward".into(), &mut self.halved_apart),
        ]);
        name_all(&mut list, "codes of analog format", &mut self.analog);
        name_all(&mut list, "codes within limits, format", &mut self.analog_within);
        list.extend([
            ("lines with active-low outputs".into(), &mut self.active_low),
            ("lines with a shared output".into(), &mut self.shared),
        ]);
        list
    }
}

impl Counts for Coverage {
    fn add(&mut self, other: &Coverage) {
        for (mine, theirs) in self.counters().into_iter().zip(other.clone().counters()) {
            *mine.1 += *theirs.1;
        }
    }
}

impl fmt::Display for Coverage {
    fn fmt(&self, f: &mut fmt::Formatter) -> fmt::Result {
        for (name, count) in self.clone().counters() {
            writeln!(f, "{name}: {count}")?;
        }
        Ok(())
    }
}

fn name_all<'a>(list: &mut Vec<(String, &'a mut u64)>, name: &str, counts: &'a mut [u64]) {
    let numbered = counts.iter_mut().enumerate();
    list.extend(numbered.map(|(i, count)| (format!("{name} {i}"), count)));
}

fn kind(event: Event) -> usize {
    match event {
        Event::Telegram(_) => 0,
        Event::Levels(_) => 1,
        Event::Tick(_) => 2,
    }
}

fn action_number(action: Action) -> usize {
    match action {
        Action::None => 0,
        Action::Reset => 1,
        Action::Freeze => 2,
        Action::ClearLocks => 3,
        Action::ClearExtremes => 4,
        Action::Teach(k) => 5 + k,
    }
}

/// A telegram at or past the position of the one accepted last, both without error. The result
/// before it has the offset in force: a reset works it out again.
fn moves_on(step: &Step) -> bool {
    let (Some(last), Event::Telegram(word)) = (step.before.telegram, step.event) else {
        return false;
    };
    let [last, now] = [last, word].map(|word| telegram::read(step.table, word));
    let clean = step.before.error == 0 && step.after.error == 0;
    clean && now.is_some_and(|now| last.is_some_and(|last| last.position <= now.position))
}

fn count_marks(counts: &mut [u64; 3], halves: Halves) {
    let Halves { scaling, linearization, analog } = halves;
    for (count, mark) in counts.iter_mut().zip([scaling, linearization, analog]) {
        *count += u64::from(mark);
    }
}

/// Whether halves rounded upward give another result or an error to a telegram without error.
fn upward_is_apart(step: &Step) -> Option<bool> {
    let Event::Telegram(word) = step.event else {
        return None;
    };
    telegram::read(step.table, word).filter(|_| step.after.error == 0)?;
    let place = panel::place(step.table, step.after);
    let upward = measure::measure_upward(step.table, step.after.offset, place);
    Some(upward != (step.after.result, 0))
}

/// Two preselections aim at one output.
pub fn shares_output(table: &Table) -> bool {
    let targets = table.preselections.map(|p| p.target);
    (1..=4).any(|output| targets.iter().filter(|&&target| target == output).count() > 1)
}
