//! The parameter table: 104 signed words, their ranges and defaults, and load checks 1 to 9.
//! Paper: "The parameter table" and the load rows of "Where each check sits"; K1 gives hysteresis its default.

/// Words of a table.
pub const SLOTS: usize = 104;
/// Largest value that can be shown.
pub const Z: i32 = 99_999_999;

/// Slot numbers by meaning.
pub mod slot {
    pub const RESOLUTION: usize = 0;
    pub const BITS_PER_TURN: usize = 1;
    pub const FORMAT: usize = 2;
    pub const HIGH_BIT: usize = 3;
    pub const LOW_BIT: usize = 4;
    pub const OFFSET: usize = 5;
    pub const DIRECTION: usize = 6;
    pub const ROUND_LOOP: usize = 7;
    pub const ERROR_BIT: usize = 8;
    pub const ERROR_LEVEL: usize = 9;
    pub const FACTOR: usize = 10;
    pub const DIVIDER: usize = 11;
    pub const ADDITIVE: usize = 12;
    pub const LINEARIZATION: usize = 13;
    pub const ANALOG: usize = 14;
    pub const ANALOG_START: usize = 15;
    pub const ANALOG_END: usize = 16;
    pub const POINTS_IN_USE: usize = 55;

    pub const fn preselection(k: usize) -> usize {
        17 + 8 * k
    }
    pub const fn mode(k: usize) -> usize {
        18 + 8 * k
    }
    pub const fn hysteresis(k: usize) -> usize {
        19 + 8 * k
    }
    pub const fn pulse(k: usize) -> usize {
        20 + 8 * k
    }
    pub const fn target(k: usize) -> usize {
        21 + 8 * k
    }
    pub const fn polarity(k: usize) -> usize {
        22 + 8 * k
    }
    pub const fn lock(k: usize) -> usize {
        23 + 8 * k
    }
    pub const fn suppression(k: usize) -> usize {
        24 + 8 * k
    }
    pub const fn action(input: usize) -> usize {
        49 + 2 * input
    }
    pub const fn config(input: usize) -> usize {
        50 + 2 * input
    }
    pub const fn x(point: usize) -> usize {
        56 + 2 * point
    }
    pub const fn y(point: usize) -> usize {
        57 + 2 * point
    }
}

/// Range and default of one slot.
#[derive(Clone, Copy, Debug, PartialEq, Eq)]
pub struct Row {
    pub low: i32,
    pub high: i32,
    pub default: i32,
}

impl Row {
    pub fn holds(&self, word: i32) -> bool {
        self.low <= word && word <= self.high
    }
}

/// The row of a slot.
pub const fn row(slot: usize) -> Row {
    let (low, high, default) = match slot {
        0 => (10, 32, 25),
        1 => (10, 16, 13),
        2 => (0, 1, 0),
        3 => (1, 32, 25),
        4 => (1, 32, 1),
        5 => (-Z, Z, 0),
        6 => (0, 1, 0),
        7 => (0, Z, 0),
        8 => (0, 32, 0),
        9 => (0, 1, 1),
        10 | 11 => (1, 9_999_999, 100_000),
        12 => (-Z, Z, 0),
        13 | 14 => (0, 2, 0),
        15 => (-Z, Z, 0),
        16 => (-Z, Z, 10_000),
        17..=48 => preselection_row((slot - 17) / 8, (slot - 17) % 8),
        49 | 51 | 53 => (0, 8, 0),
        50 | 52 | 54 => (0, 3, 2),
        55 => (2, 24, 2),
        _ => (-Z, Z, 0),
    };
    Row { low, high, default }
}

/// The eight rows of preselection k + 1.
const fn preselection_row(k: usize, place: usize) -> (i32, i32, i32) {
    let number = k as i32 + 1;
    match place {
        0 => (-Z, Z, 1_000 * number),
        1 => (0, 6, 0),
        2 => (0, 9_999, 2), // K1
        3 => (0, 60_000, 0),
        4 => (0, 4, number),
        _ => (0, 1, 0),
    }
}

/// The rows of all slots, worked out once.
static ROWS: [Row; SLOTS] = {
    let mut rows = [row(0); SLOTS];
    let mut slot = 1;
    while slot < SLOTS {
        rows[slot] = row(slot);
        slot += 1;
    }
    rows
};

/// The table of defaults.
pub fn defaults() -> [i32; SLOTS] {
    std::array::from_fn(|slot| row(slot).default)
}

/// How the position is written in a telegram.
#[derive(Clone, Copy, Debug, PartialEq, Eq)]
pub enum Format {
    Gray,
    Binary,
}

/// Use of the control points.
#[derive(Clone, Copy, Debug, PartialEq, Eq)]
pub enum Linearization {
    Off,
    OneQuadrant,
    FourQuadrants,
}

/// Range of the analog output.
#[derive(Clone, Copy, Debug, PartialEq, Eq)]
pub enum AnalogFormat {
    /// ±10 V
    Volts,
    /// 0..20 mA
    MilliampsFrom0,
    /// 4..20 mA
    MilliampsFrom4,
}

/// What an input does.
#[derive(Clone, Copy, Debug, PartialEq, Eq)]
pub enum Action {
    None,
    Reset,
    Freeze,
    ClearLocks,
    ClearExtremes,
    /// The preselection of this index takes the result.
    Teach(usize),
}

/// When an input acts.
#[derive(Clone, Copy, Debug, PartialEq, Eq)]
pub enum Config {
    Low,
    High,
    Rising,
    Falling,
}

/// Action and config of one input.
#[derive(Clone, Copy, Debug, PartialEq, Eq)]
pub struct Input {
    pub action: Action,
    pub config: Config,
}

/// One preselection as set up.
#[derive(Clone, Copy, Debug, PartialEq, Eq)]
pub struct Preselection {
    pub value: i64,
    /// 0 to 6, as the paper numbers the modes.
    pub mode: u8,
    pub hysteresis: i64,
    /// ms, 0 for none.
    pub pulse: u32,
    /// Output 1 to 4, 0 for none.
    pub target: usize,
    pub active_low: bool,
    pub lock: bool,
    pub suppression: bool,
}

/// One control point.
#[derive(Clone, Copy, Debug, PartialEq, Eq)]
pub struct Point {
    pub x: i64,
    pub y: i64,
}

/// A table by meaning.
#[derive(Clone, Debug, PartialEq, Eq)]
pub struct Table {
    pub resolution: u32,
    pub bits_per_turn: u32,
    pub format: Format,
    pub high_bit: u32,
    pub low_bit: u32,
    pub offset: i64,
    pub reverse: bool,
    pub round_loop: i64,
    /// K4: a round loop is followed by a count; only `before_k4` unsets it.
    pub counted: bool,
    /// 1 to 32, 0 for none.
    pub error_bit: u32,
    pub error_level: bool,
    pub factor: i64,
    pub divider: i64,
    pub additive: i64,
    pub linearization: Linearization,
    pub analog: AnalogFormat,
    pub analog_start: i64,
    pub analog_end: i64,
    pub preselections: [Preselection; 4],
    pub inputs: [Input; 3],
    /// The used points.
    pub points: Vec<Point>,
}

/// Number and slot of a refused load.
#[derive(Clone, Copy, Debug, PartialEq, Eq)]
pub struct LoadRefusal {
    pub number: u8,
    pub slot: usize,
}

/// Checks 1 to 9 in order, then the table by meaning.
pub fn load(words: &[i32]) -> Result<Table, LoadRefusal> {
    if words.len() != SLOTS {
        return Err(LoadRefusal { number: 1, slot: 0 });
    }
    if let Some(slot) = (0..SLOTS).find(|&slot| !ROWS[slot].holds(words[slot])) {
        return Err(LoadRefusal { number: 2, slot });
    }
    let table = Table::from_words(words);
    match CHECKS.iter().find(|(_, wrong)| wrong(&table)) {
        Some(&(number, _)) => Err(LoadRefusal { number, slot: 0 }),
        None => Ok(table),
    }
}

type Wrong = fn(&Table) -> bool;

/// The checks that look at several slots, in order.
const CHECKS: [(u8, Wrong); 7] = [
    (3, field_misplaced),
    (4, error_bit_misplaced),
    (5, analog_span_empty),
    (6, points_not_rising),
    (7, first_point_not_origin),
    (8, freeze_on_an_edge),
    (9, polarities_differ),
];

fn field_misplaced(table: &Table) -> bool {
    table.low_bit > table.high_bit || table.high_bit > table.resolution
}

fn error_bit_misplaced(table: &Table) -> bool {
    let bit = table.error_bit;
    bit > table.resolution || (table.low_bit..=table.high_bit).contains(&bit)
}

fn analog_span_empty(table: &Table) -> bool {
    table.analog_start == table.analog_end
}

fn points_not_rising(table: &Table) -> bool {
    table.linearization != Linearization::Off
        && !table.points.windows(2).all(|pair| pair[0].x < pair[1].x)
}

fn first_point_not_origin(table: &Table) -> bool {
    table.linearization == Linearization::OneQuadrant && table.points[0] != Point { x: 0, y: 0 }
}

fn freeze_on_an_edge(table: &Table) -> bool {
    table.inputs.iter().any(|input| {
        input.action == Action::Freeze && matches!(input.config, Config::Rising | Config::Falling)
    })
}

fn polarities_differ(table: &Table) -> bool {
    (1..=4).any(|output| {
        let aimed = || table.preselections.iter().filter(move |p| p.target == output);
        aimed().any(|p| p.active_low) && aimed().any(|p| !p.active_low)
    })
}

impl Table {
    /// The table by meaning, for words in range.
    pub fn from_words(words: &[i32]) -> Table {
        let used = words[slot::POINTS_IN_USE] as usize;
        Table {
            resolution: words[slot::RESOLUTION] as u32,
            bits_per_turn: words[slot::BITS_PER_TURN] as u32,
            format: if words[slot::FORMAT] == 0 { Format::Gray } else { Format::Binary },
            high_bit: words[slot::HIGH_BIT] as u32,
            low_bit: words[slot::LOW_BIT] as u32,
            offset: words[slot::OFFSET].into(),
            reverse: words[slot::DIRECTION] == 1,
            round_loop: words[slot::ROUND_LOOP].into(),
            counted: true,
            error_bit: words[slot::ERROR_BIT] as u32,
            error_level: words[slot::ERROR_LEVEL] == 1,
            factor: words[slot::FACTOR].into(),
            divider: words[slot::DIVIDER].into(),
            additive: words[slot::ADDITIVE].into(),
            linearization: linearization(words[slot::LINEARIZATION]),
            analog: analog_format(words[slot::ANALOG]),
            analog_start: words[slot::ANALOG_START].into(),
            analog_end: words[slot::ANALOG_END].into(),
            preselections: std::array::from_fn(|k| preselection(words, k)),
            inputs: std::array::from_fn(|input| Input {
                action: action(words[slot::action(input)]),
                config: config(words[slot::config(input)]),
            }),
            points: (0..used).map(|i| point(words, i)).collect(),
        }
    }

    /// Bits of the position field.
    pub fn field_width(&self) -> u32 {
        self.high_bit + 1 - self.low_bit
    }

    /// M, the number of positions.
    pub fn positions(&self) -> i64 {
        1 << self.field_width()
    }

    /// K4: whether d is taken from a count.
    pub fn counts(&self) -> bool {
        self.counted && self.round_loop > 0
    }

    /// The same table by the rule before K4, for comparisons only: d = (p − O) modulo R, a reset
    /// stores p, and 12 applies.
    pub fn before_k4(&self) -> Table {
        Table { counted: false, ..self.clone() }
    }
}

fn linearization(word: i32) -> Linearization {
    match word {
        0 => Linearization::Off,
        1 => Linearization::OneQuadrant,
        _ => Linearization::FourQuadrants,
    }
}

fn analog_format(word: i32) -> AnalogFormat {
    match word {
        0 => AnalogFormat::Volts,
        1 => AnalogFormat::MilliampsFrom0,
        _ => AnalogFormat::MilliampsFrom4,
    }
}

fn action(word: i32) -> Action {
    match word {
        0 => Action::None,
        1 => Action::Reset,
        2 => Action::Freeze,
        3 => Action::ClearLocks,
        4 => Action::ClearExtremes,
        _ => Action::Teach(word as usize - 5),
    }
}

fn config(word: i32) -> Config {
    match word {
        0 => Config::Low,
        1 => Config::High,
        2 => Config::Rising,
        _ => Config::Falling,
    }
}

fn preselection(words: &[i32], k: usize) -> Preselection {
    Preselection {
        value: words[slot::preselection(k)].into(),
        mode: words[slot::mode(k)] as u8,
        hysteresis: words[slot::hysteresis(k)].into(),
        pulse: words[slot::pulse(k)] as u32,
        target: words[slot::target(k)] as usize,
        active_low: words[slot::polarity(k)] == 1,
        lock: words[slot::lock(k)] == 1,
        suppression: words[slot::suppression(k)] == 1,
    }
}

fn point(words: &[i32], i: usize) -> Point {
    Point { x: words[slot::x(i)].into(), y: words[slot::y(i)].into() }
}
