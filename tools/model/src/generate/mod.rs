//! Random inputs of panelrun and planes, and texts of console and poller, from a seed.

pub mod borders;
pub mod bursts;
pub mod faults;
pub mod frames;
pub mod lines;
pub mod logs;
pub mod moment;
pub mod planes;
pub mod polls;
pub mod sessions;
pub mod tables;
pub mod theme;

use crate::panelrun;
use crate::rng::Rng;
use theme::Theme;

/// One generated input and what it is for.
#[derive(Clone, Debug)]
pub struct Case {
    pub theme: Theme,
    pub input: Vec<u8>,
}

/// A case of a seed, with a log of up to a few hundred words.
pub fn case(seed: u64, index: u64) -> Case {
    let mut rng = Rng::for_case(seed, index);
    let theme = theme::draw(&mut rng);
    let events = match rng.weighted(&[4, 20, 46, 30]) {
        0 => 0,
        1 => rng.between(1, 8),
        2 => rng.between(9, 60),
        _ => rng.between(60, 200),
    };
    themed(&mut rng, theme, events as usize)
}

/// A case for a theme with this many events.
pub fn themed(rng: &mut Rng, theme: Theme, events: usize) -> Case {
    let wish = theme.wish();
    let mut draft = tables::draft(rng, &wish);
    if let Theme::Load(number) = theme {
        faults::spoil(rng, &mut draft.words, number);
        if number < 9 && rng.chance(30) {
            let later = rng.between(number.max(2) as i64, 9) as u8;
            faults::spoil(rng, &mut draft.words, later);
        }
    }
    let words = logs::words(rng, &wish, &draft, events);
    let mut input = panelrun::input_of(&draft.words, &words);
    match theme {
        Theme::Load(1) => faults::cut_table(rng, &mut input),
        Theme::Log(number) => faults::spoil_log(rng, &mut input, number),
        _ => {}
    }
    Case { theme, input }
}
