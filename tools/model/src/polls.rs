//! K12: a plain fast dispatcher to time, and the steps that are timed.

use crate::dispatcher::{Dispatcher, FULL, HIGHEST, PANELS, PRESENT, STRANGE};
use crate::rng::Rng;

/// The kinds of steps that are timed.
pub const KINDS: [&str; 5] = ["ordinary", "errors", "reports", "spread", "mixed"];

/// Most steps that are taken, and those that are run once.
pub const STEPS: usize = 4_096;
pub const ONCE: usize = 64;

/// What a step is, its first byte; the second is the address. Other bytes are no step.
pub const PICK: u8 = 0;
pub const JOIN: u8 = 1;
pub const NO_ERROR: u8 = 2;
pub const ERROR: u8 = 3;

/// Addresses as bits.
#[derive(Clone, Copy, Default)]
struct Set([u64; 4]);

impl Set {
    fn place(address: u8) -> (usize, u64) {
        (usize::from(address / 64), 1 << (address % 64))
    }

    #[inline]
    fn has(&self, address: u8) -> bool {
        let (word, bit) = Set::place(address);
        self.0[word] & bit != 0
    }

    #[inline]
    fn add(&mut self, address: u8) {
        let (word, bit) = Set::place(address);
        self.0[word] |= bit;
    }

    #[inline]
    fn remove(&mut self, address: u8) {
        let (word, bit) = Set::place(address);
        self.0[word] &= !bit;
    }

    #[inline]
    fn is_empty(&self) -> bool {
        self.0 == [0; 4]
    }

    /// The next higher address, behind the highest the lowest; 0 where there is none.
    #[inline]
    fn after(&self, address: u8) -> u8 {
        let (first, bit) = Set::place(address);
        let above = self.0[first] & !(bit | (bit - 1));
        if above != 0 {
            return lowest(first, above);
        }
        for i in 1..=4 {
            let word = (first + i) % 4;
            if self.0[word] != 0 {
                return lowest(word, self.0[word]);
            }
        }
        0
    }
}

/// The address of the lowest bit of a word.
#[inline]
fn lowest(word: usize, bits: u64) -> u8 {
    (64 * word) as u8 + bits.trailing_zeros() as u8
}

/// Up to 32 panels; nothing is registered or polled at address 0.
#[derive(Clone, Default)]
pub struct Polls {
    ordinary: Set,
    in_error: Set,
    count: usize,
    last_ordinary: u8,
    last_in_error: u8,
    error_last: bool,
}

impl Polls {
    #[inline]
    pub fn join(&mut self, address: u8) -> u8 {
        if address == 0 || u16::from(address) > HIGHEST {
            return STRANGE;
        }
        if self.has(address) {
            return PRESENT;
        }
        if self.count == PANELS {
            return FULL;
        }
        self.ordinary.add(address);
        self.count += 1;
        0
    }

    #[inline]
    pub fn report(&mut self, address: u8, error: bool) -> u8 {
        if !self.has(address) {
            return STRANGE;
        }
        let (to, from) = match error {
            true => (&mut self.in_error, &mut self.ordinary),
            false => (&mut self.ordinary, &mut self.in_error),
        };
        from.remove(address);
        to.add(address);
        0
    }

    /// The address that is polled, 0 for none.
    #[inline]
    pub fn pick(&mut self) -> u8 {
        let no_ordinary = self.ordinary.is_empty();
        if !self.in_error.is_empty() && (no_ordinary || !self.error_last) {
            self.error_last = true;
            self.last_in_error = self.in_error.after(self.last_in_error);
            return self.last_in_error;
        }
        if no_ordinary {
            return 0;
        }
        self.error_last = false;
        self.last_ordinary = self.ordinary.after(self.last_ordinary);
        self.last_ordinary
    }

    #[inline]
    fn has(&self, address: u8) -> bool {
        self.ordinary.has(address) || self.in_error.has(address)
    }

    /// The answer of a step, where it is one.
    #[inline]
    pub fn step(&mut self, kind: u8, address: u8) -> Option<u8> {
        match kind {
            PICK => Some(self.pick()),
            JOIN => Some(self.join(address)),
            NO_ERROR => Some(self.report(address, false)),
            ERROR => Some(self.report(address, true)),
            _ => None,
        }
    }
}

/// Runs the first steps of an input once and the others again and again; a sum over all answers.
pub fn sum(input: &[u8], rounds: u64) -> u64 {
    let steps: Vec<(u8, u8)> =
        input.chunks_exact(2).take(STEPS).map(|step| (step[0], step[1])).collect();
    let (once, again) = steps.split_at(ONCE.min(steps.len()));
    let mut polls = Polls::default();
    let mut sum = run(&mut polls, once, 0);
    for _ in 0..rounds {
        sum = run(&mut polls, again, sum);
    }
    sum
}

/// The sum after one more run of steps.
#[inline]
fn run(polls: &mut Polls, steps: &[(u8, u8)], mut sum: u64) -> u64 {
    for &(kind, address) in steps {
        if let Some(answer) = polls.step(kind, address) {
            sum = sum.wrapping_mul(31).wrapping_add(answer.into());
        }
    }
    sum
}

/// So many timed steps, 2 bytes each, but for `mixed` behind 32 joins and a report of each panel.
pub fn input(kind: &str, count: usize) -> Vec<u8> {
    let mut rng = Rng::new(1);
    let steps = match kind {
        "mixed" => mixed(&mut rng, count),
        _ => prepared(&mut rng, kind, count),
    };
    steps.into_iter().flatten().collect()
}

/// 32 joins, 32 reports, and the steps behind them.
fn prepared(rng: &mut Rng, kind: &str, count: usize) -> Vec<[u8; 2]> {
    let addresses: Vec<u8> = match kind {
        "spread" => (216..=247).collect(),
        _ => (1..=218).step_by(7).collect(),
    };
    let fails = |i: usize| match kind {
        "ordinary" => false,
        "spread" => i % 4 == 3,
        _ => i % 2 == 1,
    };
    let joins = addresses.iter().map(|&address| [JOIN, address]);
    let reports = addresses.iter().enumerate().map(|(i, &address)| [report(fails(i)), address]);
    let mut steps: Vec<[u8; 2]> = joins.chain(reports).collect();
    steps.extend((0..count).map(|i| match kind == "reports" && i % 2 == 1 {
        true => [report(rng.chance(50)), rng.pick(&addresses)],
        false => [PICK, 0],
    }));
    steps
}

fn report(error: bool) -> u8 {
    if error {
        ERROR
    } else {
        NO_ERROR
    }
}

/// Steps of every kind, and bytes that are none; most reports are from registered panels, and some
/// joins are at their addresses.
fn mixed(rng: &mut Rng, count: usize) -> Vec<[u8; 2]> {
    let mut dispatcher = Dispatcher::default();
    let mut step = || {
        let kind = [PICK, JOIN, NO_ERROR, ERROR, 4, 255][rng.weighted(&[40, 20, 18, 18, 2, 2])];
        let registered = dispatcher.addresses();
        let known = !registered.is_empty() && rng.chance(if kind == JOIN { 20 } else { 80 });
        let address = match kind {
            PICK => 0,
            _ if known => rng.pick(&registered) as u8,
            _ => rng.below(256) as u8,
        };
        if kind == JOIN {
            dispatcher.join(address.into());
        }
        [kind, address]
    };
    (0..count).map(|_| step()).collect()
}
