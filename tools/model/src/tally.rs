//! What a text of console meets, counted by name: starts, events, frames, lines that are none.

use std::collections::BTreeMap;
use std::fmt;

use crate::bursts;
use crate::console::{self, Command, Console, Said, Wrong, LINE};
use crate::differ::Counts;
use crate::drives::{self, Mistake, Others};
use crate::fraction::Fraction;
use crate::measure;
use crate::mistaken;
use crate::modbus::{Addressee, Answered, Exception, Fault, Outcome, Place, Slave};
use crate::panel::{self, Burst, Event, Halves, State};
use crate::table::{self, slot, Action, Table};
use crate::turntable::{self, Move};

/// Counts by name.
#[derive(Clone, Debug, Default, PartialEq, Eq)]
pub struct Tally(BTreeMap<String, u64>);

/// Every name that sessions are to meet.
pub fn names() -> Vec<String> {
    let mut names: Vec<String> = vec!["start 0".into()];
    names.extend((2..=9).map(|number| format!("start {number}")));
    names.extend(["start 33", "start 33 with a table that does not load"].map(String::from));
    names.extend(["start refused beside a running panel", "start once more"].map(String::from));
    names.extend((10..=13).map(|note| format!("event with note {note}")));
    names.extend((1..=3).map(|error| format!("event with error {error}")));
    names.extend(FRAMES.map(String::from));
    names
        .extend((2..=9).map(|number| format!("exception 3: write refused by load check {number}")));
    names.extend(EXCEPTIONS.map(String::from));
    names.extend(HALVES.map(String::from));
    names.extend(ROUND_LOOPS.map(String::from));
    names.extend(RECORDS.map(String::from));
    let told = drives::ALL.into_iter().filter(|&mistake| mistake != Mistake::TickLeftOut);
    names.extend(told.map(Mistake::name));
    names.extend(bursts::NAMES.map(String::from));
    names.extend(bursts::BESIDE.map(bursts::ahead));
    names.extend(bursts::BESIDE.map(bursts::behind));
    names.extend(mistaken::ALL.map(mistaken::Mistake::name));
    names.extend(Wrong::ALL.map(|wrong| format!("line answered: {}", wrong.words())));
    names.extend(LINES.map(String::from));
    names
}

/// K5: names of long lines that random texts alone are to meet.
pub fn rare() -> Vec<String> {
    bursts::RARE.map(String::from).into()
}

const FRAMES: [&str; 22] = [
    "read of a slot",
    "read of the offset that a reset stored",
    "read of a preselection that was taught",
    "read of a slot that was written",
    "read of the shown value",
    "read of the shown value under freeze",
    "read of the shown value held off the result by freeze",
    "write carried out",
    "write of the word that stands there",
    "write that keeps a reset or a teach",
    "event 1 after a write",
    "command on a wire that was high before the write",
    "20: under 4 bytes",
    "20: over 256 bytes",
    "20: function 3, not 8 bytes",
    "20: function 16, under 9 bytes",
    "20: function 16, not 9 and its byte count",
    "20: wrong CRC",
    "20: for another node or for all",
    "no reply: another node",
    "no reply: to all, no write",
    "no reply: to all, write carried out",
];

const EXCEPTIONS: [&str; 10] = [
    "no reply: to all, write refused",
    "exception 1: function below hex 80",
    "exception 1: function from hex 80 on",
    "exception 1: a frame over 200 bytes",
    "exception 2: odd register",
    "exception 2: unmapped register",
    "exception 2: write to the shown value",
    "exception 3: quantity",
    "exception 3: byte count",
    "exception 3 before 2",
];

/// K7: what leads to the marks that are asked for.
const HALVES: [&str; 20] = [
    "halves where no panel runs yet",
    "halves before the first event",
    "halves with the mark of scaling",
    "halves with the mark of linearization",
    "halves with the mark of the analog value",
    "halves of a reset",
    "halves gone by a telegram",
    "halves gone by a refused event",
    "halves gone by an error",
    "halves gone by levels without a reset",
    "halves gone by a refused reset",
    "halves gone by a reset",
    "halves gone by a tick",
    "halves gone by a write",
    "halves gone by a start",
    "halves kept over a frame",
    "halves kept over a refused start",
    "halves of a burst",
    "halves gone by a burst",
    "halves gone by a burst that takes none",
];

/// K4: what happens to a panel with a round loop.
const ROUND_LOOPS: [&str; 9] = [
    "round loop: start",
    "round loop: encoder's end crossed forward",
    "round loop: encoder's end crossed backward",
    "round loop: exactly half a turn",
    "round loop: error 3 where the end is crossed",
    "round loop: reset after a crossing",
    "round loop: reset with p above Z",
    "round loop: read of the count that a reset stored after a crossing",
    "round loop: another count than without the write before",
];

/// K6: what is asked of the record, and what led to it.
const RECORDS: [&str; 25] = [
    "record where no panel runs yet",
    "record before the first event",
    "record empty",
    "record with lowest < present < highest",
    "record of a range in format 0",
    "record of a range in format 1",
    "record of a range in format 2",
    "record on both sides of 0 V",
    "record off, lowest and highest kept",
    "record off in format 2, lowest and highest kept",
    "record widened by a reset",
    "record cleared to the present drive",
    "record cleared under an error",
    "record cleared before the first telegram",
    "record cleared beside a refused command",
    "record of clear, then reset, in one event",
    "record of reset, then clear, in one event",
    "record kept over a tick",
    "record kept over a refused event",
    "record kept over a frame",
    "record kept over a refused start",
    "record emptied by a write",
    "record emptied by a start",
    "record widened on the way of a burst",
    "record kept over a burst that takes none",
];

const LINES: [&str; 7] = [
    "line: blank",
    "line: remark",
    "line with a carriage return",
    "line of 1024 bytes",
    "line of 1024 bytes and a carriage return",
    "frame of 300 bytes",
    "last line without its newline",
];

/// The text of an input and what it meets.
pub fn observe(input: &[u8]) -> (String, Tally) {
    observe_from(&mut Console::default(), input)
}

/// The same from a console on.
pub fn observe_from(console: &mut Console, input: &[u8]) -> (String, Tally) {
    let mut tally = Tally::default();
    let mut run = Run::default();
    let text = console::run_with(console, input, |line, before, said, after| {
        tally.see(&mut run, line, before, said, after);
    });
    tally
        .count_if(input.last().is_some_and(|&byte| byte != b'\n'), "last line without its newline");
    (text, tally)
}

/// What is remembered of the panel that runs.
#[derive(Default)]
struct Run {
    /// Slots written since the start.
    written: Vec<usize>,
    /// Levels before the write that began the run, where one did.
    high: Option<u8>,
    /// K7: what the last event, frame or start did to the marks.
    fate: Option<&'static str>,
    /// K4: the unrolled place before the write that began the run.
    place: Option<i64>,
    /// K4: the offset is the count of a reset after a crossing.
    stored: bool,
    /// K6: what the last event, frame or start did to the record.
    led: Vec<&'static str>,
    /// K6: the record by mistaken rules.
    others: Option<Others>,
    /// K5: the states around the telegrams that the last burst takes.
    way: Vec<State>,
    /// K5: what the last event is beside a burst, and whether it is one.
    beside: Vec<&'static str>,
    burst: bool,
    /// K5: the console by mistaken rules.
    mistaken: mistaken::Others,
}

impl Tally {
    pub fn of(&self, name: &str) -> u64 {
        self.0.get(name).copied().unwrap_or(0)
    }

    pub fn count(&mut self, name: impl Into<String>) {
        *self.0.entry(name.into()).or_default() += 1;
    }

    fn count_all(&mut self, names: &[&str]) {
        names.iter().for_each(|&name| self.count(name));
    }

    fn count_if(&mut self, met: bool, name: &str) {
        if met {
            self.count(name);
        }
    }

    fn see(&mut self, run: &mut Run, line: &[u8], before: &Console, said: &Said, after: &Console) {
        self.see_line(line, said);
        match said {
            Said::Start(refusal) => {
                self.see_start(run, before, refusal.map(|refusal| refusal.number))
            }
            Said::Event(number, _, answer) => {
                self.count("events");
                self.count_if(answer.note != 0, &format!("event with note {}", answer.note));
                self.count_if(answer.error != 0, &format!("event with error {}", answer.error));
                self.count_if(*number == 1 && run.high.is_some(), "event 1 after a write");
                self.see_wires(run, before, after);
                self.see_round_loop(run, before, said, after);
                self.see_beside(run, before, said, after);
            }
            Said::Burst(burst) => self.see_burst(run, line, before, burst),
            Said::Frame(answered) => {
                let (Some(before), Some(after)) = (&before.panel, &after.panel) else {
                    unreachable!()
                };
                self.see_frame(run, line, before, answered, after);
            }
            Said::Wrong(wrong) => self.count(format!("line answered: {}", wrong.words())),
            Said::Halves(_) | Said::Record(_) | Said::Nothing => {}
        }
        self.see_marks(run, line, before, said, after);
        self.see_record(run, line, before, said, after);
        for mistake in run.mistaken.see(line, before, said, after) {
            self.count(mistake.name());
        }
    }

    /// K7: what the marks are where they are asked for, and what led to them.
    fn see_marks(
        &mut self,
        run: &mut Run,
        line: &[u8],
        before: &Console,
        said: &Said,
        after: &Console,
    ) {
        match said {
            Said::Halves(halves) => {
                self.count_if(before.events == 0, "halves before the first event");
                self.count_if(halves.scaling, "halves with the mark of scaling");
                self.count_if(halves.linearization, "halves with the mark of linearization");
                self.count_if(halves.analog, "halves with the mark of the analog value");
                if let Some(fate) = run.fate {
                    self.count(fate);
                }
            }
            Said::Wrong(wrong) => {
                let asked = console::command(line) == Ok(Command::Halves);
                self.count_if(asked && *wrong == Wrong::NoPanel, "halves where no panel runs yet");
            }
            Said::Event(..) | Said::Burst(_) | Said::Frame(_) | Said::Start(_) => {
                run.fate = fate(before, said, after);
            }
            Said::Record(_) | Said::Nothing => {}
        }
    }

    /// K6: what the record is where it is asked for, what led to it, and which mistakes it tells.
    fn see_record(
        &mut self,
        run: &mut Run,
        line: &[u8],
        before: &Console,
        said: &Said,
        after: &Console,
    ) {
        match said {
            Said::Record(record) => {
                self.count_if(before.events == 0, "record before the first event");
                self.count_if(record.empty, "record empty");
                before.panel.iter().for_each(|panel| self.see_drives(panel));
                run.led.iter().for_each(|&led| self.count(led));
                for mistake in run.others.iter().flat_map(|others| others.told(record)) {
                    self.count(mistake.name());
                }
            }
            Said::Wrong(wrong) => {
                let asked = console::command(line) == Ok(Command::Record);
                self.count_if(asked && *wrong == Wrong::NoPanel, "record where no panel runs yet");
            }
            Said::Event(..) | Said::Burst(_) | Said::Frame(_) | Said::Start(_) => {
                run.led = led(before, said, after, &run.way);
                run.others = others(run.others.take(), before, said, after, &run.way);
            }
            Said::Halves(_) | Said::Nothing => {}
        }
    }

    /// K6: how present, lowest and highest lie.
    fn see_drives(&mut self, panel: &Slave) {
        let (Some(driven), now) = (panel.state.driven, panel::drive(&panel.table, &panel.state))
        else {
            return;
        };
        let format = panel.table.analog as usize;
        let between = now.is_some_and(|now| driven.lowest < now && now < driven.highest);
        self.count_if(between, "record with lowest < present < highest");
        let ranges = driven.lowest < driven.highest;
        self.count_if(ranges, &format!("record of a range in format {format}"));
        let zero = Fraction::whole(0);
        let both = driven.lowest < zero && zero < driven.highest;
        self.count_if(both, "record on both sides of 0 V");
        let off = now.is_none();
        self.count_if(off, "record off, lowest and highest kept");
        self.count_if(off && format == 2, "record off in format 2, lowest and highest kept");
    }

    fn see_line(&mut self, line: &[u8], said: &Said) {
        self.count("lines");
        let returned = line.ends_with(b"\r");
        self.count_if(returned, "line with a carriage return");
        let good = !matches!(said, Said::Wrong(_));
        self.count_if(good && line.len() == LINE, "line of 1024 bytes");
        let full = returned && line.len() == LINE + 1;
        self.count_if(good && full, "line of 1024 bytes and a carriage return");
        match console::command(line) {
            Ok(Command::Blank) => self.count("line: blank"),
            Ok(Command::Remark) => self.count("line: remark"),
            Ok(Command::Frame(frame)) => self.count_if(frame.len() == 300, "frame of 300 bytes"),
            Ok(Command::Burst(_)) => {
                let none = *said == Said::Wrong(Wrong::NoPanel);
                self.count_if(none, "burst where no panel runs yet");
            }
            _ => {}
        }
        if line.len() > LINE {
            self.count_all(&bursts::long_line(line, said));
        }
    }

    /// K5: how a burst ends, what happens on its way, and what comes right before it.
    fn see_burst(&mut self, run: &mut Run, line: &[u8], before: &Console, burst: &Burst) {
        let Some(panel) = &before.panel else { unreachable!() };
        let table = &panel.table;
        let words = bursts::telegrams(line);
        self.count("bursts");
        self.count_all(&bursts::extent(table, &words, burst));
        run.way = bursts::way(panel, &words[..burst.count]);
        if burst.count == 0 {
            return;
        }
        self.count_all(&bursts::on_its_way(table, &run.way));
        if table.counts() {
            let steps = run.way.windows(2).filter(|pair| pair[1].error != 3);
            steps.for_each(|pair| self.see_counted(run, table, &pair[0], &pair[1]));
        }
        run.beside.iter().for_each(|beside| self.count(bursts::ahead(beside)));
        run.beside.clear();
        run.burst = true;
    }

    /// K5: what an event is beside a burst.
    fn see_beside(&mut self, run: &mut Run, before: &Console, said: &Said, after: &Console) {
        let (Some(old), Some(new), Said::Event(_, event, answer)) =
            (&before.panel, &after.panel, said)
        else {
            return;
        };
        let beside = bursts::beside(old, *event, answer, new);
        if run.burst {
            beside.iter().for_each(|beside| self.count(bursts::behind(beside)));
        }
        run.beside = beside;
        run.burst = false;
    }

    fn see_start(&mut self, run: &mut Run, before: &Console, refusal: Option<u8>) {
        self.count(format!("start {}", refusal.unwrap_or(0)));
        self.count_if(
            refusal.is_some() && before.panel.is_some(),
            "start refused beside a running panel",
        );
        let loads = table::load(&before.words).is_ok();
        self.count_if(refusal == Some(33) && !loads, "start 33 with a table that does not load");
        if refusal.is_none() {
            let same = |panel: &Slave| {
                u16::from(panel.node) == before.node && *panel.loaded() == before.words
            };
            self.count_if(before.panel.as_ref().is_some_and(same), "start once more");
            self.count_if(before.words[slot::ROUND_LOOP] > 0, "round loop: start");
            *run = Run::default();
        }
    }

    /// K4: what an event does to the count.
    fn see_round_loop(&mut self, run: &mut Run, before: &Console, said: &Said, after: &Console) {
        let (Some(before), Some(after), Said::Event(_, event, _)) =
            (&before.panel, &after.panel, said)
        else {
            return;
        };
        if !after.table.counts() {
            return;
        }
        match *event {
            Event::Levels(levels) if turntable::resets(&before.table, &before.state, levels) => {
                let turned = before
                    .state
                    .unrolled
                    .is_some_and(|place| !(0..before.table.positions()).contains(&place));
                run.stored = turned;
                self.count_if(turned, "round loop: reset after a crossing");
                let above = turntable::above_z(&before.table, &before.state);
                self.count_if(above, "round loop: reset with p above Z");
            }
            Event::Telegram(_) if after.state.error != 3 => {
                self.see_counted(run, &after.table, &before.state, &after.state);
            }
            _ => {}
        }
    }

    /// K4: what a telegram without error 3 does to the count; a refused one leaves it.
    fn see_counted(&mut self, run: &Run, table: &Table, before: &State, after: &State) {
        let (from, Some(to)) = (before.unrolled, after.unrolled) else {
            return;
        };
        let Some(from) = from else {
            let count = |place| measure::count(table, place);
            let without = run.place.map(|place| measure::unrolled(table, Some(place), to));
            let other = without.is_some_and(|place| count(place) != count(to));
            self.count_if(other, "round loop: another count than without the write before");
            return;
        };
        let moved = turntable::moved(table, from, to);
        let crossed = matches!(moved, Move::Forward | Move::Backward);
        let half = matches!(moved, Move::HalfTurn(_));
        self.count_if(moved == Move::Forward, "round loop: encoder's end crossed forward");
        self.count_if(moved == Move::Backward, "round loop: encoder's end crossed backward");
        self.count_if(half, "round loop: exactly half a turn");
        let behind = before.error == 3;
        self.count_if(crossed && behind, "round loop: error 3 where the end is crossed");
    }

    /// A command that a wire asks for which was high before the write and rises anew.
    fn see_wires(&mut self, run: &mut Run, before: &Console, after: &Console) {
        let (Some(before), Some(after), Some(high)) = (&before.panel, &after.panel, run.high)
        else {
            return;
        };
        if before.state.levels == after.state.levels {
            return;
        }
        let risen = high & after.state.levels & !before.state.levels;
        let asked = panel::asked(&after.table, before.state.levels, before.state.levels | risen);
        let acts = asked.iter().any(|&action| action != Action::None);
        self.count_if(acts, "command on a wire that was high before the write");
        run.high = Some(0);
    }

    fn see_frame(
        &mut self,
        run: &mut Run,
        line: &[u8],
        before: &Slave,
        answered: &Answered,
        after: &Slave,
    ) {
        self.count("frames");
        match answered.outcome {
            Outcome::Broken(fault) => self.see_fault(line, before, fault),
            Outcome::Ignored(Addressee::Other) => self.count("no reply: another node"),
            Outcome::Ignored(_) => self.count("no reply: to all, no write"),
            Outcome::Read(place) => self.see_read(run, before, place),
            Outcome::Written(to, slot) => {
                self.count_if(to == Addressee::All, "no reply: to all, write carried out");
                self.count_if(to == Addressee::This, "write carried out");
                let (old, new) = (before.words(), after.words());
                self.count_if(old == new, "write of the word that stands there");
                let kept = (0..old.len()).any(|i| i != slot && old[i] != before.loaded()[i]);
                self.count_if(kept, "write that keeps a reset or a teach");
                run.written.push(slot);
                run.high = Some(before.state.levels);
                run.place = before.state.unrolled;
                run.beside.clear();
                run.burst = false;
                run.stored &= slot != slot::OFFSET;
            }
            Outcome::Refused(Addressee::This, exception) => self.see_exception(line, exception),
            Outcome::Refused(..) => self.count("no reply: to all, write refused"),
        }
    }

    fn see_fault(&mut self, line: &[u8], slave: &Slave, fault: Fault) {
        self.count(match fault {
            Fault::Under4 => "20: under 4 bytes",
            Fault::Over256 => "20: over 256 bytes",
            Fault::ReadNot8 => "20: function 3, not 8 bytes",
            Fault::WriteUnder9 => "20: function 16, under 9 bytes",
            Fault::WriteNotItsCount => "20: function 16, not 9 and its byte count",
            Fault::Crc => "20: wrong CRC",
        });
        if let Ok(Command::Frame(frame)) = console::command(line) {
            let others = frame.first().is_some_and(|&node| node != slave.node);
            self.count_if(others, "20: for another node or for all");
        }
    }

    fn see_read(&mut self, run: &Run, slave: &Slave, place: Place) {
        match place {
            Place::Slot(slot) => {
                self.count("read of a slot");
                let moved = slave.words()[slot] != slave.loaded()[slot];
                let offset = slot == slot::OFFSET;
                self.count_if(moved && offset, "read of the offset that a reset stored");
                self.count_if(moved && !offset, "read of a preselection that was taught");
                let counted = offset && run.stored && slave.table.counts();
                self.count_if(
                    counted,
                    "round loop: read of the count that a reset stored after a crossing",
                );
                self.count_if(run.written.contains(&slot), "read of a slot that was written");
            }
            Place::Shown => {
                self.count("read of the shown value");
                let frozen = panel::frozen(&slave.table, slave.state.levels);
                self.count_if(frozen, "read of the shown value under freeze");
                let held = slave.state.shown != slave.state.result;
                self.count_if(held, "read of the shown value held off the result by freeze");
            }
        }
    }

    fn see_exception(&mut self, line: &[u8], exception: Exception) {
        let Ok(Command::Frame(frame)) = console::command(line) else { unreachable!() };
        match exception {
            Exception::Function if frame[1] < 0x80 => {
                self.count("exception 1: function below hex 80");
                self.count_if(frame.len() > 200, "exception 1: a frame over 200 bytes");
            }
            Exception::Function => self.count("exception 1: function from hex 80 on"),
            Exception::Odd => self.count("exception 2: odd register"),
            Exception::Unmapped => self.count("exception 2: unmapped register"),
            Exception::Shown => self.count("exception 2: write to the shown value"),
            Exception::Quantity => self.count("exception 3: quantity"),
            Exception::ByteCount => self.count("exception 3: byte count"),
            Exception::Load(refusal) => {
                self.count(format!("exception 3: write refused by load check {}", refusal.number));
            }
        }
        if let Exception::Quantity | Exception::ByteCount = exception {
            self.count_if(frame[3] & 1 == 1, "exception 3 before 2");
        }
    }

    /// The names that were not met.
    pub fn missing(&self) -> Vec<String> {
        names().into_iter().filter(|name| self.of(name) == 0).collect()
    }
}

impl Counts for Tally {
    fn add(&mut self, other: &Tally) {
        for (name, count) in &other.0 {
            *self.0.entry(name.clone()).or_default() += count;
        }
    }
}

impl fmt::Display for Tally {
    fn fmt(&self, f: &mut fmt::Formatter) -> fmt::Result {
        let first = ["sessions", "lines", "events", "bursts", "frames"].map(String::from);
        for name in first.into_iter().chain(names()).chain(rare()) {
            writeln!(f, "{name}: {}", self.of(&name))?;
        }
        Ok(())
    }
}

/// What an event, a frame or a start did to the marks, where there were some; a reset's anyway.
fn fate(before: &Console, said: &Said, after: &Console) -> Option<&'static str> {
    let [had, has] = [before, after].map(|console| console.halves != Halves::default());
    match said {
        Said::Event(_, Event::Levels(_), _) if has => Some("halves of a reset"),
        Said::Burst(_) if has => Some("halves of a burst"),
        _ if !had => None,
        Said::Frame(_) if has => Some("halves kept over a frame"),
        Said::Start(_) if has => Some("halves kept over a refused start"),
        _ if has => None,
        Said::Event(_, event, answer) => Some(match event {
            _ if matches!(answer.note, 10 | 11) => "halves gone by a refused event",
            Event::Telegram(_) if answer.error != 0 => "halves gone by an error",
            Event::Telegram(_) => "halves gone by a telegram",
            Event::Levels(_) if answer.note == 12 => "halves gone by a refused reset",
            Event::Levels(levels) if resets(before, *levels) => "halves gone by a reset",
            Event::Levels(_) => "halves gone by levels without a reset",
            Event::Tick(_) => "halves gone by a tick",
        }),
        Said::Burst(burst) if burst.count == 0 => Some("halves gone by a burst that takes none"),
        Said::Burst(_) => Some("halves gone by a burst"),
        Said::Frame(_) => Some("halves gone by a write"),
        Said::Start(_) => Some("halves gone by a start"),
        _ => None,
    }
}

/// K6: what an event, a burst on its way, a frame or a start did to the record, where it was not empty;
/// a clear anyway.
fn led(before: &Console, said: &Said, after: &Console, way: &[State]) -> Vec<&'static str> {
    let (Some(old), Some(new)) = (&before.panel, &after.panel) else {
        return Vec::new();
    };
    let some = |met: bool, name| if met { vec![name] } else { Vec::new() };
    let had = old.state.driven.is_some();
    match said {
        Said::Event(_, event, answer) => match *event {
            _ if matches!(answer.note, 10 | 11) => some(had, "record kept over a refused event"),
            Event::Telegram(_) => Vec::new(),
            Event::Levels(levels) => led_by_levels(old, levels, answer.note, new),
            Event::Tick(_) => some(had, "record kept over a tick"),
        },
        Said::Burst(burst) if burst.count == 0 => {
            some(had, "record kept over a burst that takes none")
        }
        Said::Burst(_) => some(widened(way), "record widened on the way of a burst"),
        Said::Frame(answered) => match answered.outcome {
            Outcome::Written(..) => some(had, "record emptied by a write"),
            _ => some(had, "record kept over a frame"),
        },
        Said::Start(None) => some(had, "record emptied by a start"),
        Said::Start(_) => some(had, "record kept over a refused start"),
        _ => Vec::new(),
    }
}

/// K6: whether telegrams ahead of the last one changed the record.
fn widened(way: &[State]) -> bool {
    let ahead = &way[..way.len() - 1];
    ahead.windows(2).any(|pair| pair[0].driven != pair[1].driven)
}

/// K6: what accepted levels did to the record.
fn led_by_levels(old: &Slave, levels: u8, note: u8, new: &Slave) -> Vec<&'static str> {
    let asked = panel::asked(&old.table, old.state.levels, levels);
    let first = |wanted| asked.iter().position(|&action| action == wanted);
    let last = |wanted| asked.iter().rposition(|&action| action == wanted);
    let [was, is] = [old, new].map(|panel| panel::drive(&panel.table, &panel.state));
    let moved = was != is;
    let changed = old.state.driven != new.state.driven;
    let Some(cleared) = first(Action::ClearExtremes) else {
        return if changed { vec!["record widened by a reset"] } else { Vec::new() };
    };
    let behind = last(Action::Reset) > Some(cleared);
    let ahead = first(Action::Reset).is_some_and(|reset| Some(reset) < last(Action::ClearExtremes));
    let names = [
        (changed && is.is_some(), "record cleared to the present drive"),
        (changed && is.is_none(), "record cleared under an error"),
        (old.state.telegram.is_none(), "record cleared before the first telegram"),
        (changed && note != 0, "record cleared beside a refused command"),
        (moved && behind, "record of clear, then reset, in one event"),
        (moved && ahead, "record of reset, then clear, in one event"),
    ];
    names.into_iter().filter(|(met, _)| *met).map(|(_, name)| name).collect()
}

/// K6: the record by mistaken rules after an event, each telegram of a burst, a frame or a start; where
/// none are known yet, from the running panel on.
fn others(
    known: Option<Others>,
    before: &Console,
    said: &Said,
    after: &Console,
    way: &[State],
) -> Option<Others> {
    let (old, new) = (before.panel.as_ref(), after.panel.as_ref()?);
    let known = known.or(old.map(|panel| Others::new(&panel.table, &panel.state)));
    let fresh = Others::new(&new.table, &new.state);
    let (Some(mut others), Some(old)) = (known, old) else {
        return Some(fresh);
    };
    match said {
        Said::Start(None) => return Some(fresh),
        Said::Event(_, event, answer) => {
            others.see(&old.table, &old.state, *event, &new.state, answer.note);
        }
        Said::Burst(_) => {
            let word = |state: &State| Event::Telegram(state.telegram.unwrap());
            way.windows(2)
                .for_each(|pair| others.see(&old.table, &pair[0], word(&pair[1]), &pair[1], 0));
        }
        Said::Frame(answered) => {
            if let Outcome::Written(..) = answered.outcome {
                others.write();
            }
        }
        _ => {}
    }
    Some(others)
}

/// Whether levels ask a running panel for a reset.
fn resets(console: &Console, levels: u8) -> bool {
    let asks = |panel: &Slave| {
        panel::asked(&panel.table, panel.state.levels, levels).contains(&Action::Reset)
    };
    console.panel.as_ref().is_some_and(asks)
}
