//! Random texts of console: tables, starts, events, bursts, frames and lines that are none.

use super::bursts::{self, Long, LONG};
use super::tables::{self, Draft};
use super::theme::{self, Theme, Wish};
use super::{faults, frames, lines, logs};
use crate::console::Console;
use crate::modbus::{Place, Slave};
use crate::panel::{self, Event};
use crate::rng::Rng;
use crate::table::{self, slot, Action, SLOTS, Z};

/// K5: one of so many texts has a long burst, the kinds in turn.
const LONG_EVERY: u64 = 40;

/// How long the sessions of a text are.
#[derive(Clone, Copy, Debug, PartialEq, Eq)]
pub enum Size {
    /// Whole random tables.
    Long,
    /// Few slots, few lines.
    Short,
}

/// A text under way, and the console that it leaves.
pub struct Writer<'a> {
    rng: &'a mut Rng,
    size: Size,
    /// K5: a long burst that is still to come.
    pub long: Option<Long>,
    pub text: Vec<u8>,
    pub console: Console,
}

/// The text of one run of console, with the number of its sessions.
pub fn text(seed: u64, index: u64) -> (Vec<u8>, u64) {
    let mut rng = Rng::for_case(seed, index);
    let sessions = [1, 2, 3, 6][rng.weighted(&[60, 25, 10, 5])];
    let mut writer = Writer::new(&mut rng, Size::Long, Console::default());
    writer.long = long(index);
    if writer.rng.chance(20) {
        writer.before_a_start();
    }
    for _ in 0..sessions {
        writer.session();
    }
    writer.end();
    (writer.text, sessions)
}

/// K5: the long burst of a text, where it has one.
fn long(index: u64) -> Option<Long> {
    match index % LONG_EVERY {
        0 => Some(LONG[(index / LONG_EVERY) as usize % LONG.len()]),
        _ => None,
    }
}

impl<'a> Writer<'a> {
    pub fn new(rng: &'a mut Rng, size: Size, console: Console) -> Writer<'a> {
        Writer { rng, size, long: None, text: Vec::new(), console }
    }

    /// One session: a table, its start, and what follows up to the next.
    pub fn session(&mut self) {
        let theme = theme::draw(self.rng);
        let wish = theme.wish();
        let mut draft = match self.size {
            Size::Long if self.rng.chance(60) => tables::draft(self.rng, &wish),
            _ => small(self.rng),
        };
        set_clear(self.rng, &mut draft.words);
        self.refused_starts(&draft, theme);
        self.set_node();
        self.set_table(&draft.words);
        self.start();
        if self.console.panel.is_none() {
            return;
        }
        let most = if self.size == Size::Long { 12 } else { 4 };
        for _ in 0..self.rng.between(1, most) {
            self.events(&wish, &draft.anchors);
            self.long_burst(&wish, &draft.anchors);
            self.frames();
            if self.rng.chance(25) {
                self.odd();
            }
            if self.rng.chance(4) {
                self.start();
            }
            if self.rng.chance(4) {
                self.start_at_no_node();
                self.set_node();
            }
        }
    }

    /// Events, frames and questions before the first start.
    pub fn before_a_start(&mut self) {
        for _ in 0..self.rng.between(1, 5) {
            match self.rng.below(10) {
                0 => self.put("t 5"),
                1 => self.put("i 8"),
                2 => self.put("c 100"),
                3 => self.put("f 01 03 00 00 00 02 C4 0B"),
                4 => self.put("f"),
                5 => self.put_question("halves"),
                6 => self.put_question("record"),
                7 => self.put_burst(&[]),
                8 => self.put_burst(&[5, 6]),
                _ => self.odd(),
            }
        }
    }

    /// Now and then the last line goes without its newline, or with a carriage return in its place.
    pub fn end(&mut self) {
        if self.rng.chance(15) {
            self.text.pop();
            if self.rng.chance(30) {
                self.text.push(b'\r');
            }
        }
    }

    /// Starts that 33 or a load check refuses, the panel before it going on.
    fn refused_starts(&mut self, draft: &Draft, theme: Theme) {
        if self.rng.chance(15) {
            self.start_at_no_node();
        }
        if let Theme::Load(number @ 2..) = theme {
            let mut words = draft.words;
            faults::spoil(self.rng, &mut words, number);
            self.set_table(&words);
            self.start();
            self.some_frames(2);
        }
    }

    /// A start that 33 refuses, its table good or not.
    fn start_at_no_node(&mut self) {
        let node = self.rng.pick(&[0, 248, 249, 255, 256, 257, 503, 65_535]);
        self.put(&format!("node {node}"));
        if self.rng.chance(30) {
            self.put("slot 0 9");
        }
        self.start();
        self.some_frames(1);
    }

    fn set_node(&mut self) {
        let good = (1..=247).contains(&self.console.node);
        if !good || self.rng.chance(40) {
            let node = self.rng.ends(1, 247);
            self.put(&format!("node {node}"));
        }
    }

    /// The slots that differ, in any order, and some that do not.
    fn set_table(&mut self, words: &[i32; SLOTS]) {
        let mut slots: Vec<usize> =
            (0..SLOTS).filter(|&slot| words[slot] != self.console.words[slot]).collect();
        if self.rng.chance(20) {
            slots.push(self.rng.below(SLOTS as u64) as usize);
        }
        for i in (1..slots.len()).rev() {
            slots.swap(i, self.rng.below(i as u64 + 1) as usize);
        }
        for slot in slots {
            self.put(&format!("slot {slot} {}", words[slot]));
        }
    }

    fn events(&mut self, wish: &Wish, anchors: &[i64]) {
        let Some(panel) = &self.console.panel else {
            return;
        };
        let most = if self.size == Size::Long { 12 } else { 6 };
        let count = self.rng.between(0, most) as usize;
        let (table, state) = (panel.table.clone(), panel.state);
        for event in logs::events(self.rng, wish, &table, state, anchors, count) {
            self.put_event(event);
            if self.rng.chance(3) {
                let levels = self.rng.ends(8, 255) as u8;
                self.put_event(Event::Levels(levels));
            }
            if self.rng.chance(4) {
                self.turn_all_inputs();
            }
            if self.rng.chance(12) {
                self.burst(wish, anchors);
            }
        }
    }

    /// K5: a short burst.
    fn burst(&mut self, wish: &Wish, anchors: &[i64]) {
        let Some(panel) = &self.console.panel else {
            return;
        };
        let most = if self.size == Size::Long { 40 } else { 12 };
        let telegrams = bursts::short(self.rng, wish, panel, anchors, most);
        self.put_burst(&telegrams);
    }

    fn put_burst(&mut self, telegrams: &[u32]) {
        let words = match self.rng.chance(5) {
            true => bursts::misspelled(self.rng, telegrams),
            false => bursts::spelled(self.rng, telegrams),
        };
        let line = lines::spelled(self.rng, &words);
        self.put_bytes(&line);
        self.ask_after_a_burst();
    }

    /// K5: the long burst, where one is to come; of one digit each in a short session.
    fn long_burst(&mut self, wish: &Wish, anchors: &[i64]) {
        let (Some(panel), Some(kind)) = (&self.console.panel, self.long) else {
            return;
        };
        let one_digit = self.size == Size::Short || self.rng.chance(50);
        let telegrams = bursts::long(self.rng, kind, wish, panel, anchors, one_digit);
        let line = bursts::line(self.rng, kind, &telegrams);
        self.put_bytes(&line);
        self.ask_after_a_burst();
        self.long = None;
    }

    /// K6: a clear and a reset may meet.
    fn turn_all_inputs(&mut self) {
        if let Some(panel) = &self.console.panel {
            self.put_event(Event::Levels(panel.state.levels ^ 7));
        }
    }

    fn put_event(&mut self, event: Event) {
        let clears = self.console.panel.as_ref().is_some_and(|panel| clears(panel, event));
        let words = lines::event(self.rng, event);
        let line = lines::spelled(self.rng, &words);
        self.put_bytes(&line);
        self.ask();
        if clears && self.rng.chance(70) {
            self.put_question("record");
        }
    }

    fn frames(&mut self) {
        let most = if self.size == Size::Long { 6 } else { 3 };
        let count = self.rng.between(0, most);
        self.some_frames(count);
        if self.rng.chance(35) {
            self.read_back();
        }
    }

    fn some_frames(&mut self, count: i64) {
        for _ in 0..count {
            let Some(panel) = &self.console.panel else {
                return;
            };
            let frame = frames::frame(self.rng, panel);
            self.put_frame(&frame);
        }
    }

    /// Reads what resets, teaches and writes changed, or the shown value.
    fn read_back(&mut self) {
        let Some(panel) = &self.console.panel else {
            return;
        };
        let (now, loaded) = (panel.words(), self.console.words);
        let changed: Vec<usize> = (0..SLOTS).filter(|&slot| now[slot] != loaded[slot]).collect();
        let place = match changed.is_empty() || self.rng.chance(30) {
            true => Place::Shown,
            false => Place::Slot(self.rng.pick(&changed)),
        };
        let frame = frames::read(panel, place);
        self.put_frame(&frame);
    }

    fn start(&mut self) {
        self.put("start");
        self.ask();
    }

    fn put_frame(&mut self, frame: &[u8]) {
        let words = lines::frame(self.rng, frame);
        let line = lines::spelled(self.rng, &words);
        self.put_bytes(&line);
        self.ask();
    }

    /// Asks for the marks (K7) after a third of the events, frames and starts, for the record (K6) after
    /// a fifth.
    fn ask(&mut self) {
        self.ask_for(33, 20);
    }

    /// K5: more often after a burst.
    fn ask_after_a_burst(&mut self) {
        self.ask_for(50, 40);
    }

    /// Asks for the marks and for the record in so many of 100 cases.
    fn ask_for(&mut self, halves: u64, record: u64) {
        for (question, percent) in [("halves", halves), ("record", record)] {
            if self.rng.chance(percent) {
                self.put_question(question);
            }
        }
    }

    fn put_question(&mut self, question: &str) {
        let words = lines::question(self.rng, question);
        let line = lines::spelled(self.rng, &words);
        self.put_bytes(&line);
    }

    fn odd(&mut self) {
        let line = lines::odd(self.rng);
        self.put_bytes(&line);
    }

    pub fn put(&mut self, line: &str) {
        self.put_bytes(line.as_bytes());
    }

    fn put_bytes(&mut self, line: &[u8]) {
        self.console.line(line);
        self.text.extend(line);
        self.text.push(b'\n');
    }
}

/// Whether an event asks a panel for a clear.
fn clears(panel: &Slave, event: Event) -> bool {
    let Event::Levels(levels @ 0..=7) = event else {
        return false;
    };
    panel::asked(&panel.table, panel.state.levels, levels).contains(&Action::ClearExtremes)
}

/// The defaults with few slots set, so that positions up to some hundred switch and act.
fn small(rng: &mut Rng) -> Draft {
    let mut words = table::defaults();
    words[slot::FORMAT] = i32::from(rng.chance(70));
    let mut set = |rng: &mut Rng, percent, slot: usize, low, high| {
        if rng.chance(percent) {
            words[slot] = rng.between(low, high) as i32;
        }
    };
    set(rng, 40, slot::OFFSET, 0, 200);
    set(rng, 15, slot::DIRECTION, 1, 1);
    set(rng, 15, slot::FACTOR, 50_000, 200_000);
    set(rng, 20, slot::ADDITIVE, -200, 200);
    set(rng, 50, slot::ANALOG, 1, 2);
    set(rng, 60, slot::preselection(0), -50, 150);
    set(rng, 50, slot::mode(0), 0, 6);
    set(rng, 30, slot::hysteresis(0), 1, 20);
    set(rng, 25, slot::pulse(0), 1, 200);
    set(rng, 20, slot::lock(0), 1, 1);
    set(rng, 15, slot::suppression(0), 1, 1);
    set(rng, 20, slot::target(1), 0, 4);
    set_inputs(rng, &mut words);
    if rng.chance(50) {
        words[slot::ROUND_LOOP] = round_loop(rng) as i32;
    }
    set_halves(rng, &mut words);
    let reach = set_field(rng, &mut words);
    if rng.chance(30) {
        words[slot::LINEARIZATION] = rng.between(1, 2) as i32;
        let (x, y) = second_point(rng);
        words[slot::x(1)] = x as i32;
        words[slot::y(1)] = y as i32;
    }
    let anchors = (0..3).map(|_| rng.between(0, reach)).collect();
    Draft { words, anchors }
}

/// Actions and configs, most on a rise.
fn set_inputs(rng: &mut Rng, words: &mut [i32; SLOTS]) {
    for input in 0..3 {
        let action = rng.pick(&[0, 1, 1, 2, 3, 4, 5, 6, 7, 8]);
        words[slot::action(input)] = action;
        words[slot::config(input)] = match action {
            2 => rng.between(0, 1),
            _ => rng.pick(&[2, 2, 2, 0, 1, 3]),
        } as i32;
    }
}

/// K6: often a clear, and beside it a reset on the same edge, in either order.
fn set_clear(rng: &mut Rng, words: &mut [i32; SLOTS]) {
    if rng.chance(60) {
        return;
    }
    let clear = rng.below(3) as usize;
    let config = rng.pick(&[2, 2, 2, 0, 1, 3]);
    words[slot::action(clear)] = 4;
    words[slot::config(clear)] = config;
    if rng.chance(60) {
        let reset = (clear + rng.between(1, 2) as usize) % 3;
        words[slot::action(reset)] = 1;
        words[slot::config(reset)] = config;
    }
}

/// K4: a round loop in reach of the events, most of which do not divide M.
fn round_loop(rng: &mut Rng) -> i64 {
    match rng.below(8) {
        0 => rng.pick(&[1, Z.into()]),
        1 => 1 << rng.between(1, 9),
        2 | 3 => rng.pick(&[360, 3_600]),
        _ => rng.between(30, 360),
    }
}

/// Error bit, all 32 bits and often a reset, results near ±Z, or with a round loop few positions; how
/// far distances reach.
fn set_field(rng: &mut Rng, words: &mut [i32; SLOTS]) -> i64 {
    match rng.below(10) {
        0 | 1 => {
            words[slot::HIGH_BIT] = 24;
            words[slot::ERROR_BIT] = 25;
        }
        2 | 3 => {
            words[slot::RESOLUTION] = 32;
            words[slot::HIGH_BIT] = 32;
            words[slot::FACTOR] = rng.pick(&[50_000, 100_000]);
            if rng.chance(50) {
                words[slot::action(0)] = 1;
                words[slot::config(0)] = 2;
            }
            return 2 * i64::from(Z);
        }
        4 => words[slot::ADDITIVE] = rng.pick(&[-1, 1]) * (Z - rng.between(0, 99) as i32),
        5 if words[slot::ROUND_LOOP] > 0 => {
            words[slot::HIGH_BIT] = rng.pick(&[1, 2, 8]);
            words[slot::ERROR_BIT] = 25;
        }
        _ => {}
    }
    150
}

/// K7: at times a factor and an analog span that give a half at every other distance and result.
fn set_halves(rng: &mut Rng, words: &mut [i32; SLOTS]) {
    if rng.chance(35) {
        words[slot::FACTOR] = rng.pick(&[50_000, 150_000, 250_000]);
    }
    if rng.chance(35) {
        // Twice a divisor of 32,767 or of 65,535.
        let span = match words[slot::ANALOG] {
            0 => rng.pick(&[2, 14, 62, 302, 434]),
            _ => rng.pick(&[2, 6, 10, 34, 170, 510]),
        };
        let start = rng.between(-20, 120) as i32;
        words[slot::ANALOG_START] = start;
        words[slot::ANALOG_END] = start + span * rng.pick(&[-1, 1]);
    }
}

/// The end of a line from (0, 0): anywhere, or so that every odd v gives a half.
fn second_point(rng: &mut Rng) -> (i64, i64) {
    if rng.chance(50) {
        return (rng.between(1, 200), rng.between(-300, 300));
    }
    let half = rng.between(1, 100);
    (2 * half, half * rng.pick(&[-3, -1, 1, 3]))
}
