//! The text that poller writes for a text. Request K12; lines, words and numbers are console's.

use std::fmt::{self, Write as _};
use std::io::{self, BufRead, Write};

use crate::console::{self, LINE};
use crate::dispatcher::Dispatcher;

/// Why a line is none.
#[derive(Clone, Copy, Debug, PartialEq, Eq)]
pub enum Wrong {
    Long,
    Word,
    Join,
    Report,
    Pick,
}

/// What a line asks for.
#[derive(Clone, Copy, Debug, PartialEq, Eq)]
pub enum Command {
    Blank,
    Remark,
    Join(u16),
    Report(u16, bool),
    Pick,
}

/// What a line is answered with.
#[derive(Clone, Copy, Debug, PartialEq, Eq)]
pub enum Said {
    Nothing,
    Join(u8),
    Report(u8),
    Pick(Option<u16>),
    Wrong(Wrong),
}

/// Takes a line, without its newline.
pub fn line(dispatcher: &mut Dispatcher, line: &[u8]) -> Said {
    match command(line) {
        Err(wrong) => Said::Wrong(wrong),
        Ok(Command::Blank | Command::Remark) => Said::Nothing,
        Ok(Command::Join(address)) => Said::Join(dispatcher.join(address)),
        Ok(Command::Report(address, error)) => Said::Report(dispatcher.report(address, error)),
        Ok(Command::Pick) => Said::Pick(dispatcher.pick()),
    }
}

/// The text of an input.
pub fn run(input: &[u8]) -> String {
    run_with(&mut Dispatcher::default(), input, |_, _, _, _| ())
}

/// The text of an input; `see` is shown each line, the dispatcher before it, what it said, and the
/// dispatcher after it.
pub fn run_with(
    dispatcher: &mut Dispatcher,
    input: &[u8],
    mut see: impl FnMut(&[u8], &Dispatcher, Said, &Dispatcher),
) -> String {
    let mut text = String::new();
    for bytes in console::lines(input) {
        let before = dispatcher.clone();
        let said = line(dispatcher, bytes);
        see(bytes, &before, said, dispatcher);
        write!(text, "{said}").unwrap();
    }
    text
}

/// Answers an input line by line; what is said is out before more is waited for.
pub fn serve(input: impl io::Read, mut output: impl Write) -> io::Result<()> {
    let mut input = io::BufReader::new(input);
    let mut output = io::BufWriter::new(&mut output);
    let mut dispatcher = Dispatcher::default();
    let mut bytes = Vec::new();
    while input.read_until(b'\n', &mut bytes)? > 0 {
        let said = line(&mut dispatcher, bytes.strip_suffix(b"\n").unwrap_or(&bytes));
        write!(output, "{said}")?;
        if input.buffer().is_empty() {
            output.flush()?;
        }
        bytes.clear();
    }
    output.flush()
}

/// What a line, without its newline, asks for.
pub fn command(line: &[u8]) -> Result<Command, Wrong> {
    let line = line.strip_suffix(b"\r").unwrap_or(line);
    if line.len() > LINE {
        return Err(Wrong::Long);
    }
    if line.starts_with(b"#") {
        return Ok(Command::Remark);
    }
    let words = line.split(|&byte| byte == b' ').filter(|word| !word.is_empty());
    match words.collect::<Vec<_>>()[..] {
        [] => Ok(Command::Blank),
        [b"join", ref rest @ ..] => join(rest).ok_or(Wrong::Join),
        [b"report", ref rest @ ..] => report(rest).ok_or(Wrong::Report),
        [b"pick"] => Ok(Command::Pick),
        [b"pick", ..] => Err(Wrong::Pick),
        _ => Err(Wrong::Word),
    }
}

fn join(words: &[&[u8]]) -> Option<Command> {
    match words {
        [word] => address(word).map(Command::Join),
        _ => None,
    }
}

fn report(words: &[&[u8]]) -> Option<Command> {
    match words {
        [word, b"0"] => address(word).map(|address| Command::Report(address, false)),
        [word, b"1"] => address(word).map(|address| Command::Report(address, true)),
        _ => None,
    }
}

/// A number from 0 to 65535.
fn address(word: &[u8]) -> Option<u16> {
    console::number(word)?.try_into().ok()
}

impl fmt::Display for Said {
    /// The line with its newline, or nothing.
    fn fmt(&self, f: &mut fmt::Formatter) -> fmt::Result {
        match self {
            Said::Nothing => Ok(()),
            Said::Join(number) => writeln!(f, "join {number}"),
            Said::Report(number) => writeln!(f, "report {number}"),
            Said::Pick(Some(address)) => writeln!(f, "pick {address}"),
            Said::Pick(None) => writeln!(f, "pick none"),
            Said::Wrong(wrong) => writeln!(f, "? {}", wrong.words()),
        }
    }
}

impl Wrong {
    /// All kinds, in the order of their numbers from 1.
    pub const ALL: [Wrong; 5] = [Wrong::Long, Wrong::Word, Wrong::Join, Wrong::Report, Wrong::Pick];

    pub fn words(self) -> &'static str {
        match self {
            Wrong::Long => "line has more than 1024 bytes",
            Wrong::Word => "no such word; the words are join, report and pick",
            Wrong::Join => "join takes a number from 0 to 65535",
            Wrong::Report => "report takes a number from 0 to 65535 and 0 or 1",
            Wrong::Pick => "pick takes nothing",
        }
    }
}
