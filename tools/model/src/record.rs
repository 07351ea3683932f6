//! Recorded runs: a text of runs and questions with what the model expects to be printed for it.

use std::fs;
use std::io;
use std::path::Path;

use crate::answers;
use crate::coverage;
use crate::generate::{self, theme};
use crate::rng::Rng;
use crate::sheet;

/// Inputs tried for a run until one meets its theme.
const TRIES: u64 = 400;

/// What a program reads and what it prints, the files `stdin` and `stdout` of a folder.
pub struct Recording {
    pub name: &'static str,
    pub input: Vec<u8>,
    pub output: String,
    /// Else there is no `stdin`.
    pub reads: bool,
}

impl Recording {
    pub fn new(name: &'static str) -> Recording {
        Recording { name, input: Vec::new(), output: String::new(), reads: true }
    }

    /// What a program prints that reads nothing.
    pub fn printed(name: &'static str, output: String) -> Recording {
        Recording { name, input: Vec::new(), output, reads: false }
    }

    /// Writes the files into a folder.
    pub fn write(&self, folder: &Path) -> io::Result<()> {
        fs::create_dir_all(folder)?;
        if self.reads {
            fs::write(folder.join("stdin"), &self.input)?;
        }
        fs::write(folder.join("stdout"), &self.output)
    }

    /// Whether a folder has the files.
    pub fn is_in(&self, folder: &Path) -> io::Result<bool> {
        let same_input = !self.reads || fs::read(folder.join("stdin"))? == self.input;
        Ok(same_input && fs::read(folder.join("stdout"))? == self.output.as_bytes())
    }
}

/// Runs of a seed, the themes in turn, and tables with questions.
pub fn recording(seed: u64, runs: u64, tables: u64) -> Recording {
    let mut recording = Recording::new("runs");
    (0..runs).for_each(|index| record_run(&mut recording, seed, index));
    (0..tables).for_each(|index| answers::record(&mut recording, seed, index));
    recording
}

/// A short run.
fn record_run(recording: &mut Recording, seed: u64, index: u64) {
    let themes = theme::all();
    let theme = themes[index as usize % themes.len()];
    let (input, output, met) = short_case(seed, index, theme);
    let purpose = if met { theme.purpose() } else { "anything".into() };
    let name = format!("run {}: {purpose}", index + 1);
    recording.input.extend(sheet::run(&name, &input).bytes());
    recording.output.push_str(&format!("== {name}\n{output}"));
}

/// Input and output of the first try that meets the theme, else of the last.
fn short_case(seed: u64, index: u64, theme: theme::Theme) -> (Vec<u8>, String, bool) {
    let mut rng = Rng::for_case(seed, index);
    for attempt in 1.. {
        let events = rng.between(4, 28) as usize;
        let case = generate::themed(&mut rng, theme, events);
        let (output, seen) = coverage::observe(&case.input);
        let met = theme.met(&seen);
        if met || attempt == TRIES {
            return (case.input, output, met);
        }
    }
    unreachable!()
}
