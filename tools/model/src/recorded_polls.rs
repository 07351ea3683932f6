//! K12: recorded sessions of poller: one text with what the model writes for it, and a remark over each
//! session that says what it is for. Nobody leaves, so the line grows from nobody to 32 panels.

use crate::console;
use crate::differ::Counts;
use crate::dispatcher::{Dispatcher, HIGHEST, LOWEST, PANELS};
use crate::generate::polls::Writer;
use crate::polling::{self, Polling, Run};
use crate::record::Recording;
use crate::rng::Rng;
use crate::sessions;

/// How many panels sessions leave, the first to the last of them.
const GROWTH: [usize; 50] = [
    0, 0, 0, 1, 1, 1, 2, 2, 2, 2, 2, 2, 3, 3, 3, 3, 3, 3, 4, 4, 4, 4, 4, 5, 5, 5, 5, 6, 6, 6, 6, 7,
    9, 12, 16, 20, 24, 28, 31, 32, 32, 32, 32, 32, 32, 32, 32, 32, 32, 32,
];
/// Some of the 32 addresses: the ends, and the borders between 64 of them.
const BORDERS: [u16; 8] = [1, 63, 64, 127, 128, 191, 192, 247];

/// Texts tried for a session.
const TRIES: u64 = 20_000;
/// Most lines and bytes of a session, unless a wait or a long line is what it is for.
const LINES: usize = 50;
const WAIT_LINES: usize = 240;
const BYTES: usize = 900;
const LONG_BYTES: usize = 2_600;

/// The sessions so far, and what they leave.
struct Sessions {
    addresses: Vec<u16>,
    dispatcher: Dispatcher,
    run: Run,
    met: Polling,
    purposes: Vec<String>,
    recording: Recording,
}

/// A session to come.
struct Wish {
    panels: usize,
    purpose: String,
    last: bool,
}

/// The sessions of a seed; the last without its newline.
pub fn recording(seed: u64, count: u64) -> Recording {
    let mut sessions = Sessions {
        addresses: addresses(&mut Rng::for_case(seed, count)),
        dispatcher: Dispatcher::default(),
        run: Run::default(),
        met: Polling::default(),
        purposes: Vec::new(),
        recording: Recording::new("polls"),
    };
    for index in 0..count {
        let wish = sessions.wish(index, count);
        let head = format!("# {}. {}", index + 1, wish.purpose);
        sessions.add(&mut Rng::for_case(seed, index), &wish, &head);
    }
    sessions.recording
}

/// 32 addresses in any order.
fn addresses(rng: &mut Rng) -> Vec<u16> {
    let mut addresses = BORDERS.to_vec();
    while addresses.len() < PANELS {
        let address = rng.between(LOWEST.into(), HIGHEST.into()) as u16;
        if !addresses.contains(&address) {
            let place = rng.below(addresses.len() as u64 + 1);
            addresses.insert(place as usize, address);
        }
    }
    addresses
}

impl Sessions {
    /// What the next session is for; the last name is the last session's.
    fn wish(&self, index: u64, count: u64) -> Wish {
        let panels = GROWTH[index as usize * GROWTH.len() / count as usize];
        let last = index + 1 == count;
        let before = self.dispatcher.count();
        let mut names = polling::names();
        let end = names.pop().unwrap();
        names.retain(|name| can_meet(before, panels, name));
        names.retain(|name| self.met.of(name) == 0 || !is_of_a_line(name));
        let first = names.into_iter().min_by_key(|name| self.urgency(panels, name));
        Wish { panels, purpose: if last { end } else { first.unwrap() }, last }
    }

    /// Names that are not met come first, and of them those that one panel more would not meet; then
    /// those that fewest sessions were for, and that were met least.
    fn urgency(&self, panels: usize, name: &String) -> (bool, bool, usize, u64) {
        let met = self.met.of(name);
        let later = met == 0 && can_meet(panels, panels + 1, name);
        let sessions = self.purposes.iter().filter(|&purpose| purpose == name).count();
        (met > 0, later, sessions, met)
    }

    /// Adds the first session tried that meets its purpose.
    fn add(&mut self, rng: &mut Rng, wish: &Wish, head: &str) {
        for _ in 0..TRIES {
            let text = self.draft(rng, wish, head);
            let (mut dispatcher, mut run) = (self.dispatcher.clone(), self.run.clone());
            let (output, met) = polling::observe_from(&mut dispatcher, &mut run, &text);
            let grown = dispatcher.count() == wish.panels && met.of(&wish.purpose) > 0;
            if grown && short(&text, &wish.purpose) && sessions::shows(&text) {
                self.dispatcher = dispatcher;
                self.run = run;
                self.met.add(&met);
                self.purposes.push(wish.purpose.clone());
                self.recording.input.extend(text);
                self.recording.output.push_str(&output);
                return;
            }
        }
        panic!("no session for {}", wish.purpose);
    }

    fn draft(&self, rng: &mut Rng, wish: &Wish, head: &str) -> Vec<u8> {
        let mut writer = Writer::new(rng, self.addresses.clone(), self.dispatcher.clone());
        writer.put(head);
        writer.session(wish.panels);
        if waits(&wish.purpose) {
            writer.wait();
        }
        if wish.last {
            writer.text.pop();
        }
        writer.text
    }
}

/// Whether a session that leaves so many panels, as many before, can meet a name.
fn can_meet(before: usize, panels: usize, name: &str) -> bool {
    match name {
        "pick of none" | "report 32 with nobody registered" => panels == 0,
        "join 0" => before < panels,
        "join 0 of the 32nd panel" => before < panels && panels == PANELS,
        "join 28" => panels == PANELS,
        "pick: the same panel in error twice in a row" => panels == 1,
        "pick: barred by a panel that joined in between"
        | "pick: a new panel before those that wait" => before < panels && (2..6).contains(&panels),
        _ if name.ends_with("with 32 panels") => panels == PANELS,
        _ if name.starts_with("wait of 2n picks, n") => name == polling::wait_of(panels),
        _ if name.starts_with("wait") => panels > 1,
        "pick: barred by a panel that reported none in between"
        | "pick: barred by the panel that was polled before" => (2..6).contains(&panels),
        _ if name.ends_with("group was empty") => (3..10).contains(&panels),
        _ if name.starts_with("pick:") => panels > 2,
        _ if is_of_a_line(name) => true,
        "join 32" | "join 32 at 0" | "join 32 at 248" | "report 32" => true,
        "join 32 at an address whose low byte is 1 to 247" => true,
        _ => panels > 0,
    }
}

fn is_of_a_line(name: &str) -> bool {
    name.starts_with("line") || name.starts_with("remark")
}

fn waits(purpose: &str) -> bool {
    purpose.starts_with("wait")
}

/// Whether a session is short enough for its purpose.
fn short(text: &[u8], purpose: &str) -> bool {
    let long = ["1024", "1025"].iter().any(|length| purpose.contains(length));
    let lines = if waits(purpose) { WAIT_LINES } else { LINES };
    let bytes = match long {
        true => LONG_BYTES,
        false if waits(purpose) => LONG_BYTES,
        false => BYTES,
    };
    text.len() <= bytes && console::lines(text).count() <= lines
}
