//! What a case is for, what it asks of its table and log, and whether it meets that.

use crate::coverage::Coverage;
use crate::rng::Rng;
use crate::turntable;

/// The purpose of a case.
#[derive(Clone, Copy, Debug, PartialEq, Eq)]
pub enum Theme {
    Any,
    /// Load refusal 1 to 9.
    Load(u8),
    /// Log refusal 14 to 16.
    Log(u8),
    /// Note 11 to 13.
    Note(u8),
    /// Error 1 to 3.
    Error(u8),
    /// A condition of this mode turns on and off.
    Mode(u8),
    /// Suppression of this mode ends.
    Suppression(u8),
    Pulse,
    Lock,
    Relock,
    /// Freeze holds the shown value, by config.
    Freeze(u8),
    /// An input action 1 to 8 other than freeze.
    Action(u8),
    ResetEndsError,
    /// Telegram format.
    Format(u8),
    Reverse,
    RoundLoop,
    /// K4: the encoder's end is crossed.
    CrossedForward,
    CrossedBackward,
    /// K4: a step of exactly half a turn, 0 from the lower half of the positions, 1 from the upper.
    HalfTurn(u8),
    /// K4: telegrams with error 3 are not counted.
    ErrorBetween,
    ResetAfterCrossing,
    ResetAboveZ,
    /// K4: the rule before it gives another distance.
    OtherDistance,
    /// Linearization 0 to 2.
    Curve(u8),
    Analog(u8),
    ActiveLow,
    Shared,
}

/// Width of the position field.
#[derive(Clone, Copy, Debug, PartialEq, Eq)]
pub enum Width {
    Narrow,
    Middle,
    Wide,
}

/// What a theme asks of table and log; what it leaves open is random.
#[derive(Clone, Debug, Default)]
pub struct Wish {
    pub width: Option<Width>,
    pub format: Option<i32>,
    pub reverse: bool,
    pub round_loop: Option<bool>,
    /// K4: telegrams around the encoder's end, and half turns.
    pub turns: bool,
    pub error_bit: bool,
    /// Results near ±Z, with this sign.
    pub limit: Option<i64>,
    pub linearization: Option<i32>,
    pub analog: Option<i32>,
    pub mode: Option<i32>,
    pub suppression: bool,
    pub pulse: Option<bool>,
    pub lock: bool,
    pub active_low: bool,
    pub shared: bool,
    pub action: Option<i32>,
    pub config: Option<i32>,
    /// Telegrams with bits above N.
    pub refused_telegrams: bool,
}

/// All themes but `Any`, in the paper's order.
pub fn all() -> Vec<Theme> {
    let mut list: Vec<Theme> = (1..=9).map(Theme::Load).collect();
    list.extend((0..=1).map(Theme::Format));
    list.extend([Theme::Reverse, Theme::RoundLoop]);
    list.extend([Theme::CrossedForward, Theme::CrossedBackward]);
    list.extend((0..=1).map(Theme::HalfTurn));
    list.extend([Theme::ErrorBetween, Theme::ResetAfterCrossing]);
    list.extend([Theme::ResetAboveZ, Theme::OtherDistance]);
    list.extend((0..=2).map(Theme::Curve));
    list.extend((1..=3).map(Theme::Error));
    list.extend((11..=13).map(Theme::Note));
    list.extend([1, 3, 4, 5, 6, 7, 8].map(Theme::Action));
    list.push(Theme::ResetEndsError);
    list.extend((0..=1).map(Theme::Freeze));
    list.extend((0..=6).map(Theme::Mode));
    list.extend([1, 4].map(Theme::Suppression));
    list.extend([Theme::Pulse, Theme::Lock, Theme::Relock, Theme::ActiveLow, Theme::Shared]);
    list.extend((0..=2).map(Theme::Analog));
    list.extend((14..=16).map(Theme::Log));
    list
}

/// A random theme; most cases load and run to their end.
pub fn draw(rng: &mut Rng) -> Theme {
    match rng.weighted(&[45, 12, 13, 30]) {
        0 => Theme::Any,
        1 => Theme::Load(rng.between(1, 9) as u8),
        2 => Theme::Log(rng.between(14, 16) as u8),
        _ => rng.pick(&all()),
    }
}

impl Theme {
    pub fn wish(self) -> Wish {
        let open = Wish::default();
        match self {
            Theme::Any | Theme::Load(_) | Theme::Log(_) => open,
            Theme::Note(11) => Wish { refused_telegrams: true, ..open },
            Theme::Note(12) => Wish { round_loop: Some(false), ..above_z() },
            Theme::Note(_) => Wish { action: Some(1), error_bit: true, ..open },
            Theme::Error(3) => Wish { error_bit: true, ..open },
            Theme::Error(number) => near_limit(number),
            Theme::ResetEndsError => Wish { action: Some(1), ..near_limit(1) },
            Theme::Mode(mode) => Wish { mode: Some(mode.into()), ..open },
            Theme::Suppression(mode) => Wish { mode: Some(mode.into()), suppression: true, ..open },
            Theme::Pulse => Wish { pulse: Some(true), ..open },
            Theme::Lock | Theme::Relock => Wish { lock: true, action: Some(3), ..open },
            Theme::Freeze(config) => Wish { action: Some(2), config: Some(config.into()), ..open },
            Theme::Action(action) => Wish { action: Some(action.into()), ..open },
            Theme::Format(format) => Wish { format: Some(format.into()), ..open },
            Theme::Reverse => Wish { reverse: true, ..open },
            Theme::RoundLoop => Wish { round_loop: Some(true), ..open },
            Theme::CrossedForward
            | Theme::CrossedBackward
            | Theme::HalfTurn(_)
            | Theme::OtherDistance => turning(),
            Theme::ErrorBetween => Wish { error_bit: true, ..turning() },
            Theme::ResetAfterCrossing => Wish { action: Some(1), ..turning() },
            Theme::ResetAboveZ => Wish { round_loop: Some(true), ..above_z() },
            Theme::Curve(curve) => Wish { linearization: Some(curve.into()), ..open },
            Theme::Analog(format) => Wish { analog: Some(format.into()), ..open },
            Theme::ActiveLow => Wish { active_low: true, ..open },
            Theme::Shared => Wish { shared: true, ..open },
        }
    }

    /// Whether a run does what the theme is for.
    pub fn met(self, seen: &Coverage) -> bool {
        match self {
            Theme::Any => true,
            Theme::Load(number) | Theme::Log(number) | Theme::Note(number) => {
                seen.numbers[number as usize] > 0
            }
            Theme::Error(number) => seen.errors[number as usize] > 0,
            Theme::Mode(mode) => {
                seen.turned_on[mode as usize] > 0 && seen.turned_off[mode as usize] > 0
            }
            Theme::Suppression(mode) => {
                seen.released[mode as usize] > 0 && seen.turned_on[mode as usize] > 0
            }
            Theme::Pulse => seen.pulses_ended > 0,
            Theme::Lock => seen.unlocked > 0,
            Theme::Relock => seen.relocked > 0,
            Theme::Freeze(_) => seen.held_shown > 0,
            Theme::Action(action) => seen.actions[action as usize] > 0,
            Theme::ResetEndsError => seen.resets_ending_error > 0,
            Theme::Format(format) => seen.formats[format as usize] > 0,
            Theme::Reverse => seen.reverse > 0,
            Theme::RoundLoop => seen.round_loop > 0,
            Theme::CrossedForward => seen.turntable.told[turntable::FORWARD] > 0,
            Theme::CrossedBackward => seen.turntable.told[turntable::BACKWARD] > 0,
            Theme::HalfTurn(half) => seen.turntable.told[turntable::HALF_TURN + half as usize] > 0,
            Theme::ErrorBetween => seen.turntable.told[turntable::ERROR_COUNTED] > 0,
            Theme::ResetAfterCrossing => seen.turntable.told[turntable::P_STORED] > 0,
            Theme::ResetAboveZ => seen.turntable.resets_above_z > 0,
            Theme::OtherDistance => seen.turntable.other_distance > 0,
            Theme::Curve(curve) => seen.curves[curve as usize] > 0,
            Theme::Analog(format) => seen.analog_within[format as usize] > 0,
            Theme::ActiveLow => seen.active_low > 0,
            Theme::Shared => seen.shared > 0,
        }
    }

    /// One line that says what a case is for.
    pub fn purpose(self) -> String {
        match self {
            Theme::Any => "anything".into(),
            Theme::Load(number) => format!("load refusal {number}"),
            Theme::Log(number) => format!("log refusal {number}"),
            Theme::Note(number) => format!("note {number}"),
            Theme::Error(number) => format!("error {number}"),
            Theme::Mode(mode) => format!("mode {mode} turns on and off"),
            Theme::Suppression(mode) => format!("start-up suppression ends, mode {mode}"),
            Theme::Pulse => "a pulse is used up".into(),
            Theme::Lock => "a lock is cleared".into(),
            Theme::Relock => "a still active signal locks again".into(),
            Theme::Freeze(config) => format!("freeze holds the shown value, config {config}"),
            Theme::Action(action) => format!("input action {action}"),
            Theme::ResetEndsError => "a reset ends an error".into(),
            Theme::Format(format) => format!("telegram format {format}"),
            Theme::Reverse => "reverse direction".into(),
            Theme::RoundLoop => "round loop".into(),
            Theme::CrossedForward => "round loop, encoder's end crossed forward".into(),
            Theme::CrossedBackward => "round loop, encoder's end crossed backward".into(),
            Theme::HalfTurn(0) => "round loop, half a turn from the lower half".into(),
            Theme::HalfTurn(_) => "round loop, half a turn from the upper half".into(),
            Theme::ErrorBetween => "round loop, error 3 is not counted".into(),
            Theme::ResetAfterCrossing => "round loop, reset after a crossing".into(),
            Theme::ResetAboveZ => "round loop, reset with p above Z".into(),
            Theme::OtherDistance => "round loop, other distance than by p alone".into(),
            Theme::Curve(curve) => format!("linearization {curve}"),
            Theme::Analog(format) => format!("analog format {format} within its limits"),
            Theme::ActiveLow => "active-low output".into(),
            Theme::Shared => "two preselections on one output".into(),
        }
    }
}

/// Results on both sides of Z (error 1) or −Z (error 2, for which d must be negative).
fn near_limit(error: u8) -> Wish {
    let open = Wish { linearization: Some(0), ..Wish::default() };
    match error {
        1 => Wish { limit: Some(1), ..open },
        _ => Wish { limit: Some(-1), round_loop: Some(false), ..open },
    }
}

/// K4: a round loop, and telegrams around the encoder's end.
fn turning() -> Wish {
    Wish { round_loop: Some(true), turns: true, ..Wish::default() }
}

/// A reset, and positions above Z.
fn above_z() -> Wish {
    Wish { width: Some(Width::Wide), action: Some(1), ..Wish::default() }
}
