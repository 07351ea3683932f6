//! K12: random texts of poller from a seed: panels that join and report, picks, and lines that are none.

use super::lines;
use crate::console::LINE;
use crate::dispatcher::{Dispatcher, Group, HIGHEST, LOWEST, PANELS};
use crate::poller;
use crate::rng::Rng;

/// Lines that are none.
const WRONG: [&str; 58] = [
    "x",
    "Pick",
    "PICK",
    "picks",
    "pic",
    "pick\t",
    "pick\r\r",
    "pick#",
    "Join 1",
    "joins 1",
    "join1",
    "join\t1",
    "Report 1 0",
    "reports 1 0",
    "repor 1 0",
    "leave 1",
    "none",
    "?",
    "0",
    "-",
    " #",
    " # pick",
    "\t",
    "\u{a0}pick",
    "join",
    "join x",
    "join 65536",
    "join 65537",
    "join 4294967297",
    "join 18446744073709551617",
    "join 99999999999999999999999999",
    "join -1",
    "join -0",
    "join +1",
    "join 01",
    "join 00",
    "join 1 2",
    "join 1 1",
    "join 1.",
    "join 0x1",
    "join 1\t",
    "join 1 #",
    "report",
    "report 1",
    "report 1 2",
    "report 1 x",
    "report 1 00",
    "report 1 01",
    "report 1 10",
    "report 1 -0",
    "report 1 0 0",
    "report 1 1 1",
    "report 65536 0",
    "report 01 1",
    "report -1 1",
    "report 1\t1",
    "pick 1",
    "pick pick",
];

/// Addresses of few panels: neighbours, ends, and the borders between 64 of them.
const FEW: [[u16; 6]; 6] = [
    [1, 2, 3, 4, 5, 6],
    [1, 2, 3, 245, 246, 247],
    [5, 9, 17, 100, 200, 247],
    [62, 63, 64, 65, 127, 128],
    [128, 191, 192, 193, 246, 247],
    [1, 64, 128, 192, 240, 247],
];

/// What a text is about.
#[derive(Clone, Copy, Debug, PartialEq, Eq)]
pub enum Theme {
    Few,
    Waits,
    Many,
    Full,
    Nobody,
}

impl Theme {
    pub const ALL: [Theme; 5] = [Theme::Few, Theme::Waits, Theme::Many, Theme::Full, Theme::Nobody];

    pub fn name(self) -> &'static str {
        match self {
            Theme::Few => "few panels",
            Theme::Waits => "long waits",
            Theme::Many => "many panels",
            Theme::Full => "32 panels",
            Theme::Nobody => "hardly a panel",
        }
    }
}

/// A text under way, and the dispatcher that it leaves.
pub struct Writer<'a> {
    rng: &'a mut Rng,
    /// Addresses that panels join at.
    pub addresses: Vec<u16>,
    pub text: Vec<u8>,
    pub dispatcher: Dispatcher,
}

/// A text of a seed.
pub fn text(seed: u64, index: u64) -> (Theme, Vec<u8>) {
    let mut rng = Rng::for_case(seed, index);
    let theme = Theme::ALL[rng.weighted(&[50, 18, 14, 12, 6])];
    let addresses = match theme {
        Theme::Few | Theme::Nobody => rng.pick(&FEW).into(),
        Theme::Waits if rng.chance(85) => rng.pick(&FEW).into(),
        _ => (LOWEST..=HIGHEST).collect(),
    };
    let mut writer = Writer::new(&mut rng, addresses, Dispatcher::default());
    writer.write(theme);
    writer.end();
    (theme, writer.text)
}

impl<'a> Writer<'a> {
    pub fn new(rng: &'a mut Rng, addresses: Vec<u16>, dispatcher: Dispatcher) -> Writer<'a> {
        Writer { rng, addresses, text: Vec::new(), dispatcher }
    }

    fn write(&mut self, theme: Theme) {
        match theme {
            Theme::Few => {
                let (joins, count) = (self.rng.between(2, 25) as u64, self.rng.between(5, 150));
                self.steps(joins, count);
            }
            Theme::Waits => {
                let panels = self.rng.between(1, 6.max(self.addresses.len() as i64 / 8)) as usize;
                self.grow(panels);
                for _ in 0..self.rng.between(1, 4) {
                    self.wait();
                    let count = self.rng.between(0, 10);
                    self.steps(2, count);
                }
            }
            Theme::Many => {
                let panels = self.rng.between(6, 31) as usize;
                self.grow(panels);
                let count = self.rng.between(20, 200);
                self.steps(3, count);
            }
            Theme::Full => self.full(),
            Theme::Nobody => {
                let count = self.rng.between(0, 12);
                self.steps(5, count);
            }
        }
    }

    /// 32 panels, in order of their addresses, against it or in any, and some that are too many.
    fn full(&mut self) {
        let panels = self.rng.between(28, 32) as usize;
        let mut addresses = self.some_addresses(panels);
        match self.rng.below(4) {
            0 => addresses.sort_unstable(),
            1 => addresses.sort_unstable_by(|a, b| b.cmp(a)),
            _ => {}
        }
        for address in addresses {
            self.join(address);
            if self.rng.chance(5) {
                self.step(0);
            }
        }
        self.grow(PANELS);
        let count = self.rng.between(5, 60);
        self.steps(25, count);
        if self.rng.chance(50) {
            self.wait();
        }
        for _ in 0..self.rng.between(0, 80) {
            self.put("pick");
        }
    }

    /// Panels join until there are so many.
    pub fn grow(&mut self, panels: usize) {
        while self.dispatcher.count() < panels {
            let address = self.rng.pick(&self.addresses);
            if self.dispatcher.group_of(address).is_none() || self.rng.chance(5) {
                self.join(address);
            }
            if self.rng.chance(15) {
                self.step(0);
            }
        }
    }

    /// So many different addresses in any order.
    fn some_addresses(&mut self, count: usize) -> Vec<u16> {
        let mut all = self.addresses.clone();
        for i in 0..count {
            let other = i as u64 + self.rng.below((all.len() - i) as u64);
            all.swap(i, other as usize);
        }
        all.truncate(count);
        all
    }

    /// Steps of any kind, so many of 100 joins.
    pub fn steps(&mut self, joins: u64, count: i64) {
        for _ in 0..count {
            self.step(joins);
        }
    }

    fn step(&mut self, joins: u64) {
        match self.rng.weighted(&[joins, 35, 40, 3, 5]) {
            0 => {
                let address = self.address();
                self.join(address);
            }
            1 => {
                let (address, error) = (self.reporter(), self.rng.chance(55));
                self.report(address, error);
            }
            2 => self.put_words(&["pick".into()]),
            3 => self.all_report(),
            _ => self.odd(),
        }
    }

    /// A short session that leaves so many panels.
    pub fn session(&mut self, panels: usize) {
        let before = self.rng.between(0, 8);
        self.few_steps(before);
        self.grow(panels);
        let behind = self.rng.between(3, 14);
        self.few_steps(behind);
    }

    /// Steps after which there are as many panels as before.
    fn few_steps(&mut self, count: i64) {
        for _ in 0..count {
            match self.rng.chance(15) {
                true => self.join_in_vain(),
                false => self.step(0),
            }
        }
    }

    /// A join that is refused.
    fn join_in_vain(&mut self) {
        let registered = self.dispatcher.addresses();
        let address = match self.rng.below(3) {
            1 if !registered.is_empty() => self.rng.pick(&registered),
            2 if registered.len() == PANELS => self.rng.between(1, 247) as u16,
            _ => self.strange(),
        };
        self.join(address);
    }

    /// An address to join at, now and then one that is none.
    fn address(&mut self) -> u16 {
        match self.rng.below(8) {
            0 => self.strange(),
            _ => self.rng.pick(&self.addresses),
        }
    }

    /// An address that reports, most often a registered one.
    fn reporter(&mut self) -> u16 {
        let registered = self.dispatcher.addresses();
        match self.rng.below(20) {
            0 => self.strange(),
            1 | 2 => self.rng.pick(&self.addresses),
            _ if registered.is_empty() => self.rng.pick(&self.addresses),
            _ => self.rng.pick(&registered),
        }
    }

    /// An address outside 1 to 247, at times 256 above a good one.
    fn strange(&mut self) -> u16 {
        match self.rng.below(3) {
            0 => 256 + self.rng.pick(&self.addresses),
            _ => self.rng.pick(&[0, 0, 248, 248, 249, 255, 256, 257, 503, 32_768, 65_535]),
        }
    }

    /// All panels report an error, or none, and some picks follow.
    fn all_report(&mut self) {
        let error = self.rng.chance(60);
        let but = if self.rng.chance(40) { Some(self.reporter()) } else { None };
        let mut registered = self.dispatcher.addresses();
        registered.sort_unstable();
        for address in registered.into_iter().filter(|&address| Some(address) != but) {
            self.report(address, error);
        }
        let most = self.dispatcher.count() as i64 + 2;
        for _ in 0..self.rng.between(1, most) {
            self.put("pick");
        }
    }

    /// One panel is kept waiting as long as it can be. The panel ahead of it in turn is in the other group,
    /// so that each poll of their group waits for one of the other, but for its own turn among them.
    pub fn wait(&mut self) {
        let mut registered = self.dispatcher.addresses();
        registered.sort_unstable();
        let count = registered.len();
        if count < 2 {
            (0..3).for_each(|_| self.put("pick"));
            return;
        }
        let place = self.rng.below(count as u64) as usize;
        let (waits, ahead) = (registered[place], registered[(place + count - 1) % count]);
        let group = self.rng.pick(&[Group::Ordinary, Group::InError]);
        for &address in &registered {
            self.report_into(address, if address == ahead { other(group) } else { group });
        }
        if (0..2 * count).any(|_| self.polls(waits, group)) {
            self.keep_waiting(waits, ahead, group);
        }
    }

    /// Picks until the panel is polled again; now and then another line comes in between.
    fn keep_waiting(&mut self, waits: u16, ahead: u16, group: Group) {
        for _ in 0..2 * self.dispatcher.count() {
            let turns = self.dispatcher.turns(group);
            let its_turn = turns.next() == Some(waits) && turns.polled != Some(ahead);
            let goes_first = its_turn && self.dispatcher.last == Some(other(group));
            self.report_into(ahead, if goes_first { group } else { other(group) });
            if self.rng.chance(1) {
                self.step(0);
            }
            if self.polls(waits, group) {
                return;
            }
        }
    }

    /// A pick; whether it polls this panel in this group.
    fn polls(&mut self, address: u16, group: Group) -> bool {
        self.put("pick");
        let dispatcher = &self.dispatcher;
        dispatcher.last == Some(group) && dispatcher.turns(group).polled == Some(address)
    }

    /// A report where it changes the group, and now and then where it does not.
    fn report_into(&mut self, address: u16, group: Group) {
        if self.dispatcher.group_of(address) != Some(group) || self.rng.chance(2) {
            self.report(address, group == Group::InError);
        }
    }

    pub fn join(&mut self, address: u16) {
        self.put_words(&["join".into(), address.to_string()]);
    }

    pub fn report(&mut self, address: u16, error: bool) {
        self.put_words(&["report".into(), address.to_string(), u8::from(error).to_string()]);
    }

    /// Now and then the last line goes without its newline, or with a carriage return in its place.
    fn end(&mut self) {
        if self.rng.chance(15) {
            self.text.pop();
            if self.rng.chance(30) {
                self.text.push(b'\r');
            }
        }
    }

    /// A line that is none, or one that says nothing.
    pub fn odd(&mut self) {
        let line = match self.rng.weighted(&[50, 15, 15, 14, 6]) {
            0 => self.rng.pick(&WRONG).into(),
            1 => self.rng.pick(&["", " ", "   ", "\r", "  \r", "#", "# pick", "#join 1\r"]).into(),
            2 => torn(self.rng),
            3 => around_the_longest(self.rng),
            _ => lines::bytes(self.rng),
        };
        self.put_bytes(&line);
    }

    fn put_words(&mut self, words: &[String]) {
        let line = lines::spelled(self.rng, words);
        self.put_bytes(&line);
    }

    pub fn put(&mut self, line: &str) {
        self.put_bytes(line.as_bytes());
    }

    fn put_bytes(&mut self, line: &[u8]) {
        poller::line(&mut self.dispatcher, line);
        self.text.extend(line);
        self.text.push(b'\n');
    }
}

fn other(group: Group) -> Group {
    match group {
        Group::Ordinary => Group::InError,
        Group::InError => Group::Ordinary,
    }
}

/// A good line with one byte changed, left out or put in.
fn torn(rng: &mut Rng) -> Vec<u8> {
    let mut line: Vec<u8> =
        rng.pick(&["join 1", "join 247", "report 1 1", "report 5 0", "pick"]).into();
    let at = rng.below(line.len() as u64) as usize;
    let byte = rng.pick(b" \t#-+0129jpx\r\0");
    match rng.below(3) {
        0 => line[at] = byte,
        1 => line.insert(at, byte),
        _ => {
            line.remove(at);
        }
    }
    line
}

/// A line of about 1,024 bytes, or far more: good, blank, a remark or none, with 0 to 2 carriage
/// returns.
fn around_the_longest(rng: &mut Rng) -> Vec<u8> {
    let starts = ["join 5", "report 5 1", "pick", "", "#", "x", "pick 1", "report 5"];
    let mut line: Vec<u8> = rng.pick(&starts).into();
    let filler = if line == b"#" || line == b"x" { rng.pick(b" x#") } else { b' ' };
    let length = match rng.below(8) {
        0 => rng.between(1_100, 9_000) as usize,
        _ => (LINE as i64 + rng.between(-1, 2)) as usize,
    };
    line.resize(length, filler);
    if rng.chance(20) && line[0] != b'#' {
        line.rotate_right(length / 2);
    }
    line.extend(vec![b'\r'; rng.weighted(&[50, 40, 10])]);
    line
}
