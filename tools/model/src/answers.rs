//! Recorded answers that panelrun does not print: the builder's, the reading and the diagnosis of a
//! telegram, and least and greatest after a log. Each case is one table with a log and questions.

use std::fmt::Write;

use crate::generate::logs;
use crate::generate::moment::{self, Moment};
use crate::generate::tables::{self, Draft};
use crate::generate::theme::Wish;
use crate::panel::{Event, Extremes};
use crate::panelrun;
use crate::record::Recording;
use crate::rng::Rng;
use crate::sheet;
use crate::table::{self, slot, Table, SLOTS};
use crate::telegram;

/// Questions on telegrams in a case.
pub const QUESTIONS: usize = 5;
/// Words of a question and of its answers.
pub const QUESTION_WORDS: usize = 11;
/// Most words of a log.
const LOG_WORDS: usize = 20;

/// Tables tried for a case, and logs tried on each.
const TABLES: usize = 500;
const LOGS: usize = 20;

/// One case.
pub struct Case {
    pub moment: Moment,
    pub table: [i32; SLOTS],
    pub questions: [Question; QUESTIONS],
    pub log: Vec<u32>,
    pub extremes: Option<Extremes>,
}

/// A position to build a telegram of, and a telegram to read.
#[derive(Clone, Copy, Debug, PartialEq, Eq)]
pub struct Question {
    pub position: u32,
    /// An error is asked for.
    pub asked: bool,
    /// The telegram built, or any where none is.
    pub telegram: u32,
}

/// Records a case of a seed.
pub fn record(recording: &mut Recording, seed: u64, index: u64) {
    let case = case(seed, index);
    let (input, output) = case.text(&format!("table {}: {}", index + 1, case.purpose()));
    recording.input.extend(input.bytes());
    recording.output.push_str(&output);
}

/// A case of a seed: resolutions, formats and moments in turn, and half of the 32 bits all position.
pub fn case(seed: u64, index: u64) -> Case {
    let mut rng = Rng::for_case(seed, index);
    let (round, resolution) = (index / 23, 10 + index as i32 % 23);
    let format = Some(round as i32 % 2);
    let narrowest = if resolution == 32 && round % 4 > 1 { 32 } else { 1 };
    let moment = moment::ALL[index as usize % moment::ALL.len()];
    for _ in 0..TABLES {
        let wish = Wish { format, ..moment.wish(&mut rng) };
        let draft = draft(&mut rng, &wish, resolution, narrowest);
        if let Some(case) = case_on(&mut rng, &wish, &draft, moment) {
            return case;
        }
    }
    panic!("no log for {moment:?} with {resolution} bits");
}

/// A case on a table, where a log ends with the moment.
fn case_on(rng: &mut Rng, wish: &Wish, draft: &Draft, moment: Moment) -> Option<Case> {
    let (log, extremes) = (0..LOGS).find_map(|_| log_up_to(rng, wish, draft, moment))?;
    let questions = questions(rng, &Table::from_words(&draft.words));
    Some(Case { moment, table: draft.words, questions, log, extremes })
}

/// A random table of a resolution, with a field of so many bits or more.
fn draft(rng: &mut Rng, wish: &Wish, resolution: i32, narrowest: u32) -> Draft {
    loop {
        let draft = tables::draft(rng, wish);
        let wide = Table::from_words(&draft.words).field_width() >= narrowest;
        if wide && draft.words[slot::RESOLUTION] == resolution {
            return draft;
        }
    }
}

/// A log that ends with a moment, and least and greatest then.
fn log_up_to(
    rng: &mut Rng,
    wish: &Wish,
    draft: &Draft,
    moment: Moment,
) -> Option<(Vec<u32>, Option<Extremes>)> {
    let mut words = logs::words(rng, wish, draft, LOG_WORDS);
    let mut end = 0;
    let mut found = None;
    panelrun::run_with(&panelrun::input_of(&draft.words, &words), |step| {
        end += if let Event::Telegram(_) = step.event { 2 } else { 1 };
        if end <= LOG_WORDS && moment.met(&step) {
            found = Some((end, step.after.extremes));
        }
    });
    let (end, extremes) = found?;
    words.truncate(end);
    Some((words, extremes))
}

/// Positions at both ends of the field, at M, above it and anywhere.
fn questions(rng: &mut Rng, table: &Table) -> [Question; QUESTIONS] {
    let top = u32::MAX.into();
    let above = table.positions().min(top);
    let last = table.positions() - 1;
    let positions = [0, last, above, rng.between(above, top), rng.ends(0, last)];
    positions.map(|position| {
        let asked = rng.chance(50);
        let built = telegram::build(table, position as u64, asked);
        let telegram = built.unwrap_or_else(|_| any_telegram(rng, table));
        Question { position: position as u32, asked, telegram }
    })
}

/// Any bits up to N, and at times one above.
fn any_telegram(rng: &mut Rng, table: &Table) -> u32 {
    let word = rng.draw() as u32 >> (32 - table.resolution);
    if table.resolution < 32 && rng.chance(30) {
        return word | 1 << rng.ends(table.resolution.into(), 31);
    }
    word
}

impl Case {
    /// The lines of the case under a name, and what is printed for them.
    pub fn text(&self, name: &str) -> (String, String) {
        let run = panelrun::input_of(&self.table, &self.log);
        let mut input = sheet::run(name, &run);
        let mut output = format!("== {name}\n{}", panelrun::run(&run));
        let table = table::load(&self.table).unwrap();
        for question in &self.questions {
            question.put(&table, &mut input, &mut output);
        }
        input.push_str("extremes\n");
        let Extremes { least, greatest } =
            self.extremes.unwrap_or(Extremes { least: 0, greatest: 0 });
        let any = u8::from(self.extremes.is_some());
        writeln!(output, "extremes {any} {least} {greatest}").unwrap();
        (input, output)
    }

    /// The telegram's layout, and what happens to least and greatest.
    pub fn purpose(&self) -> String {
        let at = |slot: usize| self.table[slot];
        let format = if at(slot::FORMAT) == 0 { "Gray" } else { "binary" };
        let error = match at(slot::ERROR_BIT) {
            0 => "no error bit".to_string(),
            bit => format!("error bit {bit} level {}", at(slot::ERROR_LEVEL)),
        };
        format!(
            "N {} B {} H {}, {format}, {error}, turn of {} bits; {}",
            at(slot::RESOLUTION),
            at(slot::LOW_BIT),
            at(slot::HIGH_BIT),
            at(slot::BITS_PER_TURN),
            self.moment.purpose()
        )
    }
}

impl Question {
    /// The lines of the question, and what is printed for them.
    fn put(&self, table: &Table, input: &mut String, output: &mut String) {
        let [position, asked, refusal, built, telegram, note, p, error, refused, turns, place] =
            self.words(table);
        let word = if asked == 1 { "fault" } else { "build" };
        writeln!(input, "{word} {position}\nread {telegram}\ndiagnose {telegram}").unwrap();
        writeln!(output, "build {position} {refusal} {built}").unwrap();
        writeln!(output, "read {note} {p} {error}").unwrap();
        writeln!(output, "diagnose {refused} {turns} {place}").unwrap();
    }

    /// Position and error asked for, the builder's refusal and telegram; telegram, its refusal,
    /// position and error (0 and none with 11); the diagnosis' refusal, turns and place.
    pub fn words(&self, table: &Table) -> [u32; QUESTION_WORDS] {
        let built = telegram::build(table, self.position.into(), self.asked);
        let reading = telegram::read(table, self.telegram);
        let diagnosis = telegram::diagnose(table, self.telegram);
        [
            self.position,
            self.asked.into(),
            built.err().unwrap_or(0).into(),
            built.unwrap_or(0),
            self.telegram,
            if reading.is_none() { 11 } else { 0 },
            reading.map_or(0, |reading| reading.position as u32),
            reading.is_some_and(|reading| reading.faulty).into(),
            diagnosis.note.into(),
            diagnosis.turns as u32,
            diagnosis.place as u32,
        ]
    }
}
