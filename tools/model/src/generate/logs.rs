//! Random logs that move around the anchors of a table.

use super::tables::Draft;
use super::theme::Wish;
use crate::log;
use crate::measure;
use crate::panel::{self, Event, State};
use crate::rng::Rng;
use crate::table::{self, Format, Table, Z};
use crate::telegram;

/// The words of a log; a table that does not load is taken as the defaults.
pub fn words(rng: &mut Rng, wish: &Wish, draft: &Draft, events: usize) -> Vec<u32> {
    let table = table::load(&draft.words).unwrap_or_else(|_| Table::from_words(&table::defaults()));
    let mut words = Vec::new();
    for event in self::events(rng, wish, &table, panel::fresh(&table), &draft.anchors, events) {
        log::write(&mut words, event);
    }
    words
}

/// Events of a table from a state on.
pub fn events(
    rng: &mut Rng,
    wish: &Wish,
    table: &Table,
    state: State,
    anchors: &[i64],
    count: usize,
) -> Vec<Event> {
    let mut walk = Walk::new(rng, wish, table, state, anchors);
    let mut next = |_| {
        let event = walk.event();
        walk.state = panel::step(table, &walk.state, event).0;
        event
    };
    (0..count).map(&mut next).collect()
}

/// K5: telegrams of a table from a state on, none refused.
pub fn telegrams(
    rng: &mut Rng,
    wish: &Wish,
    table: &Table,
    state: State,
    anchors: &[i64],
    count: usize,
) -> Vec<u32> {
    let mut walk = Walk { refused: 0, ..Walk::new(rng, wish, table, state, anchors) };
    let mut next = |_| {
        let word = walk.telegram();
        walk.state = panel::step(table, &walk.state, Event::Telegram(word)).0;
        word
    };
    (0..count).map(&mut next).collect()
}

/// A random walk of events.
struct Walk<'a> {
    rng: &'a mut Rng,
    table: &'a Table,
    anchors: &'a [i64],
    state: State,
    /// p after direction.
    place: i64,
    /// Positions for one step of the result.
    stride: i64,
    /// Of 100 telegrams, those at the error level and those with a bit above N.
    faulty: u64,
    refused: u64,
    /// K4: of 100 telegrams with a round loop, those around the encoder's end.
    turning: u64,
    /// Weights of telegrams, levels and ticks.
    kinds: [u64; 3],
}

impl<'a> Walk<'a> {
    fn new(
        rng: &'a mut Rng,
        wish: &Wish,
        table: &'a Table,
        state: State,
        anchors: &'a [i64],
    ) -> Walk<'a> {
        let faulty = if wish.error_bit { 20 } else { rng.pick(&[0, 4, 10]) };
        let refused = if wish.refused_telegrams { 15 } else { rng.pick(&[0, 0, 4]) };
        let turning = if wish.turns { 70 } else { rng.pick(&[10, 30, 60]) };
        let kinds = rng.pick(&[[60, 25, 15], [80, 15, 5], [40, 50, 10], [45, 20, 35]]);
        Walk {
            rng,
            table,
            anchors,
            state,
            place: reached(table, &state),
            stride: (table.divider / table.factor).max(1),
            faulty,
            refused,
            turning: if table.counts() { turning } else { 0 },
            kinds,
        }
    }

    fn event(&mut self) -> Event {
        match self.rng.weighted(&self.kinds) {
            0 => Event::Telegram(self.telegram()),
            1 => Event::Levels(self.levels()),
            _ => Event::Tick(self.ms()),
        }
    }

    fn telegram(&mut self) -> u32 {
        let word = if self.rng.chance(4) {
            self.rng.draw() as u32 & bits(self.table.resolution)
        } else {
            self.next_place();
            self.word()
        };
        if self.table.resolution < 32 && self.rng.chance(self.refused) {
            return refused(self.rng, self.table, word);
        }
        word
    }

    /// Moves on; K4: with a round loop often around the encoder's end.
    fn next_place(&mut self) {
        let next = if self.rng.chance(self.turning) { self.turn() } else { self.step() };
        self.place = next.rem_euclid(self.table.positions());
    }

    /// K4: at the encoder's end, near it, half a turn or just about, or a short step.
    fn turn(&mut self) -> i64 {
        let half = self.table.positions() / 2;
        match self.rng.weighted(&[25, 25, 15, 35]) {
            0 => self.rng.between(-4, 3),
            1 => self.rng.between(-300, 299),
            2 => self.state.unrolled.unwrap_or(0) + half + self.rng.pick(&[0, 0, 0, -1, 1]),
            _ => self.place + self.rng.between(-300, 300),
        }
    }

    /// A small step, a step over a hysteresis, a jump to an anchor or to Z, or any place.
    fn step(&mut self) -> i64 {
        let small = self.rng.between(-4, 4);
        let k = self.rng.below(4) as usize;
        let hysteresis = self.table.preselections[k].hysteresis;
        match self.rng.weighted(&[35, 10, 15, 34, 2, 4]) {
            0 => self.place + small * self.stride,
            1 => self.place + small,
            2 => self.place + (hysteresis + small) * self.stride * self.rng.pick(&[-1, 1]),
            3 => {
                let anchor = self.rng.pick(self.anchors);
                self.at(anchor) + small * 3 * self.stride
            }
            4 => i64::from(Z) + self.rng.between(0, 1),
            _ => self.rng.ends(0, self.table.positions() - 1),
        }
    }

    /// The place of a distance; K4: with a round loop on from the place that is counted.
    fn at(&self, distance: i64) -> i64 {
        match self.state.unrolled {
            None => self.state.offset + distance,
            Some(place) => {
                let round = self.table.round_loop;
                let now = measure::distance(self.table, self.state.offset, place);
                place + distance.rem_euclid(round) - now
            }
        }
    }

    /// A telegram of the place, other bits random at times.
    fn word(&mut self) -> u32 {
        let table = self.table;
        let position = if table.reverse {
            (table.positions() - self.place) % table.positions()
        } else {
            self.place
        };
        let faulty = table.error_bit > 0 && self.rng.chance(self.faulty);
        let anywhere = faulty && table.counts() && self.rng.chance(50);
        let position = if anywhere { self.rng.ends(0, table.positions() - 1) } else { position };
        let word = telegram::build(table, position as u64, faulty).unwrap();
        if self.rng.chance(60) {
            return word;
        }
        let mut free = bits(table.resolution) & !field(table);
        if table.error_bit > 0 {
            free &= !(1 << (table.error_bit - 1));
        }
        let others = self.rng.draw() as u32 & free;
        let above = (u64::from(others) >> table.high_bit).count_ones();
        let turned = if table.format == Format::Gray { above & 1 } else { 0 };
        word ^ turned << (table.high_bit - 1) | others
    }

    fn levels(&mut self) -> u8 {
        let old = self.state.levels;
        match self.rng.weighted(&[60, 15, 20, 5]) {
            0 => old ^ 1 << self.rng.below(3),
            1 => old ^ 7,
            2 => self.rng.below(8) as u8,
            _ => old,
        }
    }

    /// The rest of a pulse, just about, or any time.
    fn ms(&mut self) -> u16 {
        let k = self.rng.below(4) as usize;
        let left = i64::from(self.state.switches[k].pulse_left);
        let ms = match self.rng.weighted(&[10, 40, 30, 20]) {
            0 => 0,
            1 => left + self.rng.between(-1, 1),
            2 => self.rng.between(1, 60),
            _ => self.rng.ends(0, 65_535),
        };
        ms.clamp(0, 65_535) as u16
    }
}

/// A telegram with a bit above N, where there is room for one.
pub fn refused(rng: &mut Rng, table: &Table, word: u32) -> u32 {
    match table.resolution {
        32 => word,
        resolution => word | 1 << rng.ends(resolution.into(), 31),
    }
}

/// p after direction of the last telegram, 0 before the first.
fn reached(table: &Table, state: &State) -> i64 {
    let reading = state.telegram.and_then(|word| telegram::read(table, word));
    reading.map_or(0, |reading| measure::directed(table, reading.position))
}

fn bits(count: u32) -> u32 {
    u32::MAX >> (32 - count)
}

fn field(table: &Table) -> u32 {
    bits(table.field_width()) << (table.low_bit - 1)
}
