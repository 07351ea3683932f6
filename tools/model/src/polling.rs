//! K12: what a text of poller meets, counted by name, and how long its panels wait.

use std::collections::BTreeMap;
use std::fmt;

use crate::console::LINE;
use crate::differ::Counts;
use crate::dispatcher::{Dispatcher, Group, FULL, HIGHEST, LOWEST, PANELS, PRESENT, STRANGE};
use crate::poller::{self, Command, Said, Wrong};

/// Numbers of panels that random and recorded texts are to bring to a wait of 2n picks.
pub const TIGHT: [usize; 6] = [2, 3, 4, 5, 6, PANELS];

/// How often texts meet what, and the longest wait with each number of panels.
#[derive(Clone, Debug, Default, PartialEq, Eq)]
pub struct Polling {
    counts: BTreeMap<String, u64>,
    longest: BTreeMap<usize, u64>,
}

/// Every name that texts are to meet.
pub fn names() -> Vec<String> {
    let mut names: Vec<String> = NUMBERS.map(String::from).into();
    names.extend(PICKS.map(String::from));
    names.extend(TIGHT.map(wait_of));
    names.extend(WAITS.map(String::from));
    names.extend(Wrong::ALL.map(|wrong| format!("line answered: {}", wrong.words())));
    names.extend(LINES.map(String::from));
    names
}

const NUMBERS: [&str; 20] = [
    "join 0",
    "join 0 of the 32nd panel",
    "join 32",
    "join 32 at 0",
    "join 32 at 248",
    "join 32 at an address whose low byte is 1 to 247",
    "join 32 with 32 panels",
    "join 29",
    "join 29 of a panel in error",
    "join 29 with 32 panels",
    "join 28",
    "report 0",
    "report of an error from an ordinary panel",
    "report of an error from a panel in error",
    "report of none from a panel in error",
    "report of none from an ordinary panel",
    "report 32",
    "report 32 with nobody registered",
    "report 32 from outside 1 to 247",
    "report 32 from an address whose low byte is registered",
];

const PICKS: [&str; 17] = [
    "pick of an ordinary panel",
    "pick of a panel in error",
    "pick of none",
    "pick: one in error barred since one in error was polled before",
    "pick: barred by a panel that joined in between",
    "pick: barred by a panel that reported none in between",
    "pick: barred by the panel that was polled before",
    "pick: in error twice in a row, no panel ordinary",
    "pick: the same panel in error twice in a row",
    "pick: in error behind one polled as ordinary, which reported the error then",
    "pick: ordinary, after the highest the lowest",
    "pick: in error, after the highest the lowest",
    "pick: ordinary, the one polled last changed group, and the next is not the lowest",
    "pick: in error, the one polled last changed group, and the next is not the lowest",
    "pick: ordinary, the turn kept while the group was empty",
    "pick: in error, the turn kept while the group was empty",
    "pick: a new panel before those that wait",
];

const WAITS: [&str; 2] = ["wait of 2n picks, ordinary", "wait of 2n picks, in error"];

const LINES: [&str; 9] = [
    "line: blank",
    "line: remark",
    "line with a carriage return",
    "line of 1024 bytes",
    "line of 1024 bytes and a carriage return",
    "line of 1025 bytes",
    "line of 1025 bytes and a carriage return",
    "remark of more than 1024 bytes",
    "last line without its newline",
];

/// The name of a wait that takes all picks it may.
pub fn wait_of(panels: usize) -> String {
    format!("wait of 2n picks, n = {panels}")
}

/// The name of waits that the paper does not allow.
pub const OVER: &str = "wait of more than 2n picks";

/// The text of an input and what it meets.
pub fn observe(input: &[u8]) -> (String, Polling) {
    let (text, mut met) = observe_from(&mut Dispatcher::default(), &mut Run::default(), input);
    met.count("texts");
    (text, met)
}

/// The same from a dispatcher on.
pub fn observe_from(dispatcher: &mut Dispatcher, run: &mut Run, input: &[u8]) -> (String, Polling) {
    let mut met = Polling::default();
    let few = dispatcher.count() < PANELS;
    let text = poller::run_with(dispatcher, input, |line, before, said, after| {
        met.see(run, line, before, said, after);
    });
    met.count_if(few && dispatcher.count() == PANELS, "texts with 32 panels");
    met.count_if(input.last().is_some_and(|&byte| byte != b'\n'), "last line without its newline");
    (text, met)
}

/// What is remembered of the lines before.
#[derive(Clone, Debug, Default, PartialEq, Eq)]
pub struct Run {
    /// Picks that each panel waits, since its last poll, its last change of group, or the last join.
    waits: BTreeMap<u16, u64>,
    /// The last poll.
    polled: Option<(u16, Group)>,
    /// What happened since the last poll.
    joined: Vec<u16>,
    reported: Vec<u16>,
    /// Groups that were empty since their last poll.
    emptied: Vec<Group>,
}

impl Polling {
    pub fn of(&self, name: &str) -> u64 {
        self.counts.get(name).copied().unwrap_or(0)
    }

    /// The longest wait with so many panels.
    pub fn longest(&self, panels: usize) -> u64 {
        self.longest.get(&panels).copied().unwrap_or(0)
    }

    fn count(&mut self, name: impl Into<String>) {
        *self.counts.entry(name.into()).or_default() += 1;
    }

    fn count_if(&mut self, met: bool, name: &str) {
        if met {
            self.count(name);
        }
    }

    fn see(
        &mut self,
        run: &mut Run,
        line: &[u8],
        before: &Dispatcher,
        said: Said,
        after: &Dispatcher,
    ) {
        self.see_line(line, said);
        match (poller::command(line), said) {
            (Ok(Command::Join(address)), Said::Join(number)) => {
                self.see_join(run, before, address, number);
            }
            (Ok(Command::Report(address, error)), Said::Report(number)) => {
                self.see_report(run, before, address, error, number);
            }
            (_, Said::Pick(polled)) => self.see_pick(run, before, polled, after),
            (_, Said::Wrong(wrong)) => self.count(format!("line answered: {}", wrong.words())),
            _ => {}
        }
        for group in [Group::Ordinary, Group::InError] {
            if after.turns(group).members.is_empty() && !run.emptied.contains(&group) {
                run.emptied.push(group);
            }
        }
    }

    fn see_line(&mut self, line: &[u8], said: Said) {
        self.count("lines");
        let bare = line.strip_suffix(b"\r").unwrap_or(line);
        let returned = bare.len() < line.len();
        self.count_if(returned, "line with a carriage return");
        self.count_if(poller::command(line) == Ok(Command::Blank), "line: blank");
        self.count_if(poller::command(line) == Ok(Command::Remark), "line: remark");
        self.count_if(!returned && bare.len() == LINE, "line of 1024 bytes");
        self.count_if(returned && bare.len() == LINE, "line of 1024 bytes and a carriage return");
        self.count_if(!returned && bare.len() == LINE + 1, "line of 1025 bytes");
        self.count_if(
            returned && bare.len() == LINE + 1,
            "line of 1025 bytes and a carriage return",
        );
        let long = said == Said::Wrong(Wrong::Long);
        self.count_if(long && line.starts_with(b"#"), "remark of more than 1024 bytes");
    }

    fn see_join(&mut self, run: &mut Run, before: &Dispatcher, address: u16, number: u8) {
        self.count(format!("join {number}"));
        let full = before.count() == PANELS;
        match number {
            STRANGE => {
                self.count_if(address == 0, "join 32 at 0");
                self.count_if(address == HIGHEST + 1, "join 32 at 248");
                let good = (LOWEST..=HIGHEST).contains(&(address % 256));
                self.count_if(good, "join 32 at an address whose low byte is 1 to 247");
                self.count_if(full, "join 32 with 32 panels");
            }
            PRESENT => {
                let failed = before.group_of(address) == Some(Group::InError);
                self.count_if(failed, "join 29 of a panel in error");
                self.count_if(full, "join 29 with 32 panels");
            }
            FULL => {}
            _ => {
                self.count_if(before.count() + 1 == PANELS, "join 0 of the 32nd panel");
                run.waits.insert(address, 0);
                run.waits.values_mut().for_each(|wait| *wait = 0);
                run.joined.push(address);
            }
        }
    }

    fn see_report(
        &mut self,
        run: &mut Run,
        before: &Dispatcher,
        address: u16,
        error: bool,
        number: u8,
    ) {
        self.count(format!("report {number}"));
        let Some(group) = before.group_of(address) else {
            self.count_if(before.count() == 0, "report 32 with nobody registered");
            let strange = !(LOWEST..=HIGHEST).contains(&address);
            self.count_if(strange, "report 32 from outside 1 to 247");
            let known = before.group_of(address % 256).is_some();
            self.count_if(known, "report 32 from an address whose low byte is registered");
            return;
        };
        self.count(match (error, group) {
            (true, Group::Ordinary) => "report of an error from an ordinary panel",
            (true, Group::InError) => "report of an error from a panel in error",
            (false, Group::InError) => "report of none from a panel in error",
            (false, Group::Ordinary) => "report of none from an ordinary panel",
        });
        if error == (group == Group::Ordinary) {
            run.waits.insert(address, 0);
            run.reported.push(address);
        }
    }

    fn see_pick(
        &mut self,
        run: &mut Run,
        before: &Dispatcher,
        polled: Option<u16>,
        after: &Dispatcher,
    ) {
        let (Some(address), Some(group)) = (polled, after.last) else {
            self.count("pick of none");
            return;
        };
        match group {
            Group::Ordinary => self.see_ordinary(run, before),
            Group::InError => self.see_in_error(run, address),
        }
        self.see_turn(run, before, address, group);
        self.see_wait(run, before, address, group);
        let fresh = run.joined.contains(&address);
        let others = before.turns(group).members.len() > 1;
        self.count_if(fresh && others, "pick: a new panel before those that wait");
        run.polled = Some((address, group));
        run.joined.clear();
        run.reported.clear();
        run.emptied.retain(|&empty| empty != group);
    }

    /// A poll of an ordinary panel, at times since one in error is barred.
    fn see_ordinary(&mut self, run: &Run, before: &Dispatcher) {
        self.count("pick of an ordinary panel");
        let (Some((last, Group::InError)), false) =
            (run.polled, before.in_error.members.is_empty())
        else {
            return;
        };
        self.count("pick: one in error barred since one in error was polled before");
        let bars = |panels: &[u16]| before.ordinary.members.iter().all(|a| panels.contains(a));
        self.count_if(bars(&run.joined), "pick: barred by a panel that joined in between");
        self.count_if(bars(&run.reported), "pick: barred by a panel that reported none in between");
        self.count_if(bars(&[last]), "pick: barred by the panel that was polled before");
    }

    fn see_in_error(&mut self, run: &Run, address: u16) {
        self.count("pick of a panel in error");
        match run.polled {
            Some((last, Group::InError)) => {
                self.count("pick: in error twice in a row, no panel ordinary");
                self.count_if(last == address, "pick: the same panel in error twice in a row");
            }
            Some((last, Group::Ordinary)) => self.count_if(
                last == address,
                "pick: in error behind one polled as ordinary, which reported the error then",
            ),
            None => {}
        }
    }

    /// How the turn went on.
    fn see_turn(&mut self, run: &Run, before: &Dispatcher, address: u16, group: Group) {
        let turns = before.turns(group);
        let Some(last) = turns.polled else {
            return;
        };
        let name = if group == Group::Ordinary { "ordinary" } else { "in error" };
        let around = turns.members.len() > 1 && address < last;
        self.count_if(around, &format!("pick: {name}, after the highest the lowest"));
        if address == turns.members[0] {
            return;
        }
        let changed = !turns.members.contains(&last);
        self.count_if(
            changed,
            &format!(
                "pick: {name}, the one polled last changed group, and the next is not the lowest"
            ),
        );
        let kept = run.emptied.contains(&group);
        self.count_if(kept, &format!("pick: {name}, the turn kept while the group was empty"));
    }

    /// How long the polled panel waited, and whether another one waits for too long.
    fn see_wait(&mut self, run: &mut Run, before: &Dispatcher, address: u16, group: Group) {
        let panels = before.count();
        let most = 2 * panels as u64;
        run.waits.values_mut().for_each(|wait| *wait += 1);
        let wait = run.waits.insert(address, 0).unwrap();
        let longest = self.longest.entry(panels).or_default();
        *longest = wait.max(*longest);
        if wait == most {
            self.count(wait_of(panels));
            let name = if group == Group::Ordinary { "ordinary" } else { "in error" };
            self.count(format!("wait of 2n picks, {name}"));
        }
        let over = wait > most || run.waits.values().any(|&wait| wait == most);
        self.count_if(over, OVER);
    }

    /// The names that were not met.
    pub fn missing(&self) -> Vec<String> {
        names().into_iter().filter(|name| self.of(name) == 0).collect()
    }
}

impl Counts for Polling {
    fn add(&mut self, other: &Polling) {
        for (name, count) in &other.counts {
            *self.counts.entry(name.clone()).or_default() += count;
        }
        for (&panels, &wait) in &other.longest {
            let longest = self.longest.entry(panels).or_default();
            *longest = wait.max(*longest);
        }
    }
}

impl fmt::Display for Polling {
    fn fmt(&self, f: &mut fmt::Formatter) -> fmt::Result {
        let first = ["texts", "texts with 32 panels", "lines"].map(String::from);
        for name in first.into_iter().chain(names()).chain([OVER.into()]) {
            writeln!(f, "{name}: {}", self.of(&name))?;
        }
        for (panels, wait) in &self.longest {
            writeln!(f, "longest wait, n = {panels}: {wait} of {} picks", 2 * panels)?;
        }
        Ok(())
    }
}
