//! What the last event of a short log does to least and greatest, and what that asks of the table.

use super::theme::{Theme, Wish};
use crate::panel::{self, Event, Extremes};
use crate::panelrun::Step;
use crate::rng::Rng;
use crate::table::Action;

/// One thing that can happen to least and greatest.
#[derive(Clone, Copy, Debug, PartialEq, Eq)]
pub enum Moment {
    First,
    Lower,
    Higher,
    Between,
    /// A telegram with a bit above N.
    Refused,
    ErrorBeforeAny,
    /// Where 0, the result under an error, would show.
    ErrorLeftOut,
    Reset,
    ResetRefused,
    ResetEndsError,
    Clear,
    ClearUnderError,
    ClearBeforeTelegram,
    ClearThenReset,
    ResetThenClear,
}

/// Each moment once.
pub const ALL: [Moment; 15] = [
    Moment::First,
    Moment::Lower,
    Moment::Higher,
    Moment::Between,
    Moment::Refused,
    Moment::ErrorBeforeAny,
    Moment::ErrorLeftOut,
    Moment::Reset,
    Moment::ResetRefused,
    Moment::ResetEndsError,
    Moment::Clear,
    Moment::ClearUnderError,
    Moment::ClearBeforeTelegram,
    Moment::ClearThenReset,
    Moment::ResetThenClear,
];

impl Moment {
    /// What the moment asks of table and log; an error by any of its three numbers.
    pub fn wish(self, rng: &mut Rng) -> Wish {
        let error = |rng: &mut Rng| Theme::Error(rng.between(1, 3) as u8).wish();
        match self {
            Moment::First | Moment::Lower | Moment::Higher | Moment::Between => Wish::default(),
            Moment::Refused => Theme::Note(11).wish(),
            Moment::ErrorBeforeAny | Moment::ErrorLeftOut => error(rng),
            Moment::Reset => Theme::Action(1).wish(),
            Moment::ResetRefused => Theme::Note(13).wish(),
            Moment::ResetEndsError => Theme::ResetEndsError.wish(),
            Moment::ClearUnderError => Wish { action: Some(4), ..error(rng) },
            Moment::Clear
            | Moment::ClearBeforeTelegram
            | Moment::ClearThenReset
            | Moment::ResetThenClear => Theme::Action(4).wish(),
        }
    }

    /// Whether a step is this moment.
    pub fn met(self, step: &Step) -> bool {
        match step.event {
            Event::Telegram(_) => self.met_by_telegram(step),
            Event::Levels(levels) => {
                let asked = panel::asked(step.table, step.before.levels, levels);
                self.met_by_commands(step, asked)
            }
            Event::Tick(_) => false,
        }
    }

    fn met_by_telegram(self, step: &Step) -> bool {
        let result = step.after.result;
        let refused = step.answer.note == 11;
        let failed = !refused && step.after.error != 0;
        let plain = !refused && !failed;
        match (self, step.before.extremes) {
            (Moment::First, None) => plain,
            (Moment::Lower, Some(old)) => plain && result < old.least,
            (Moment::Higher, Some(old)) => plain && result > old.greatest,
            (Moment::Between, Some(old)) => plain && old.least < result && result < old.greatest,
            (Moment::Refused, Some(_)) => refused,
            (Moment::ErrorBeforeAny, None) => failed,
            (Moment::ErrorLeftOut, Some(old)) => failed && !covers(old, 0),
            _ => false,
        }
    }

    fn met_by_commands(self, step: &Step, asked: [Action; 3]) -> bool {
        let (before, after) = (step.before, step.after);
        let reset = asked.iter().position(|&action| action == Action::Reset);
        let clear = asked.iter().position(|&action| action == Action::ClearExtremes);
        let changed = before.extremes != after.extremes;
        let moved = before.offset != after.offset;
        match (self, reset, clear) {
            (Moment::Reset, Some(_), None) => changed && before.error == 0,
            (Moment::ResetRefused, Some(_), None) => {
                step.answer.note != 0 && !moved && before.extremes.is_some()
            }
            (Moment::ResetEndsError, Some(_), None) => changed && before.error != 0,
            (Moment::Clear, None, Some(_)) => changed && after.extremes.is_some(),
            (Moment::ClearUnderError, None, Some(_)) => changed && after.extremes.is_none(),
            (Moment::ClearBeforeTelegram, _, Some(_)) => before.telegram.is_none(),
            (Moment::ClearThenReset, Some(reset), Some(clear)) => clear < reset && changed && moved,
            (Moment::ResetThenClear, Some(reset), Some(clear)) => reset < clear && changed && moved,
            _ => false,
        }
    }

    /// Words that say what happens.
    pub fn purpose(self) -> &'static str {
        match self {
            Moment::First => "first result",
            Moment::Lower => "least falls",
            Moment::Higher => "greatest rises",
            Moment::Between => "a result between them",
            Moment::Refused => "a refused telegram",
            Moment::ErrorBeforeAny => "an error before any result",
            Moment::ErrorLeftOut => "an error is left out",
            Moment::Reset => "a reset is taken in",
            Moment::ResetRefused => "a refused reset",
            Moment::ResetEndsError => "a reset ends an error",
            Moment::Clear => "cleared to the present result",
            Moment::ClearUnderError => "cleared under an error",
            Moment::ClearBeforeTelegram => "cleared before the first telegram",
            Moment::ClearThenReset => "cleared, then reset, in one event",
            Moment::ResetThenClear => "reset, then cleared, in one event",
        }
    }
}

/// Whether a value lies from least to greatest.
fn covers(extremes: Extremes, value: i64) -> bool {
    extremes.least <= value && value <= extremes.greatest
}
