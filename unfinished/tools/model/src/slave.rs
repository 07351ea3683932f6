//! The slave on a serial line, as plain Rust does it: a table from a file, requests from the line,
//! events from a file or a second terminal. Request K2: "slave: on a real line".

use std::fs::{self, File, OpenOptions};
use std::io::{self, ErrorKind, IsTerminal, Read, Write};
use std::os::unix::fs::{FileTypeExt, OpenOptionsExt};
use std::time::{Duration, Instant};

use crate::console::{self, Command, Console, Said};
use crate::line::{Line, PAUSE, SILENCE};
use crate::modbus::{self, Answered, Outcome};
use crate::table::{LoadRefusal, SLOTS};

/// Bytes that one read takes at most.
const CHUNK: usize = 8_192;
/// Opens a terminal without taking it as the one that controls.
const NO_CONTROLLING_TERMINAL: i32 = 0o400;
/// A read that brings nothing takes longer, and one that brings bytes waits less long, where the
/// terminal is set to min 0 time 1.
const NOTHING: Duration = Duration::from_millis(50);
const BYTES: Duration = Duration::from_secs(1);

const USAGE: &str = "slave: usage: slave [-v] NODE TABLE [EVENTS]";
const UNSET: &str = "slave: the terminal of the line is not set to min 0 time 1";

/// Serves standard input and output by the words of the command line; false where it does not start.
pub fn run(words: &[&str]) -> bool {
    let (words, verbose) = match words {
        ["-v", words @ ..] => (words, true),
        words => (words, false),
    };
    let (node, table, events) = match *words {
        [node, table] => (node, table, None),
        [node, table, events] => (node, table, Some(events)),
        _ => return refused(USAGE),
    };
    let console = match started(node, table) {
        Ok(console) => console,
        Err(reason) => return refused(&reason),
    };
    let feed = match events.map(Feed::open).transpose() {
        Ok(feed) => feed,
        Err(reason) => return refused(&reason),
    };
    let line = Line::new(console.node as u8);
    Slave { console, feed, line, verbose }.serve();
    true
}

fn refused(reason: &str) -> bool {
    eprintln!("{reason}");
    false
}

/// What the system says of an error, without its number.
fn plain(error: &io::Error) -> String {
    let words = error.to_string();
    words.split(" (os error").next().unwrap_or_default().into()
}

/// A console with its panel started, or what is wrong.
fn started(node: &str, table: &str) -> Result<Console, String> {
    let mut console = Console::default();
    let at_path = |error: io::Error| format!("{table}: {}", plain(&error));
    let kind = fs::metadata(table).map_err(at_path)?.file_type();
    if !kind.is_file() && !kind.is_fifo() {
        return Err("slave: TABLE is no file".into());
    }
    for (i, line) in console::lines(&fs::read(table).map_err(at_path)?).enumerate() {
        let reason = match console::command(line) {
            Ok(Command::Blank | Command::Remark) => continue,
            Ok(command @ Command::Slot(..)) => {
                console.obey(command);
                continue;
            }
            Ok(_) => "no line of a table",
            Err(wrong) => wrong.words(),
        };
        return Err(format!("slave: TABLE line {}: {reason}: {}", i + 1, text(line)));
    }
    // What is no number from 0 to 65535 is no node address either.
    let address = console::number(node.as_bytes()).and_then(|node| node.try_into().ok());
    console.obey(Command::Node(address.unwrap_or(0)));
    match console.obey(Command::Start) {
        Said::Start(Some(refusal)) => {
            Err(format!("slave: start {} {}", refusal.number, refusal.slot))
        }
        _ => Ok(console),
    }
}

/// A line as it is said again.
fn text(line: &[u8]) -> String {
    String::from_utf8_lossy(line).trim_end_matches('\r').into()
}

/// A panel on a line that begins behind silence and of which no clock is looked at.
pub struct Station {
    pub panel: modbus::Slave,
    pub line: Line,
}

impl Station {
    pub fn new(node: u8, words: &[i32; SLOTS]) -> Result<Station, LoadRefusal> {
        let panel = modbus::start(node.into(), words)?;
        let mut line = Line::new(node);
        line.silence();
        Ok(Station { panel, line })
    }

    /// A byte; the answer to the request that is heard at it.
    pub fn byte(&mut self, byte: u8) -> Option<Answered> {
        let frame = self.line.byte(byte)?;
        Some(self.answer(&frame))
    }

    pub fn silence(&mut self) -> Option<Answered> {
        let frame = self.line.silence()?;
        Some(self.answer(&frame))
    }

    fn answer(&mut self, frame: &[u8]) -> Answered {
        let answered = self.panel.answer(frame);
        self.line.sent(&answered.reply);
        answered
    }
}

/// A panel between two reads of its line.
struct Slave {
    console: Console,
    feed: Option<Feed>,
    line: Line,
    verbose: bool,
}

impl Slave {
    /// Serves the line to its end, and says how it ended.
    fn serve(&mut self) {
        match self.serve_reads() {
            Ok(()) => eprintln!("slave: the line has ended"),
            Err(words) => eprintln!("slave: {words}"),
        }
    }

    fn serve_reads(&mut self) -> Result<(), String> {
        let mut input = io::stdin().lock();
        let terminal = input.is_terminal();
        if !terminal {
            self.line.silence();
        }
        let mut bytes = [0; CHUNK];
        let (mut said, mut last) = (false, Instant::now());
        loop {
            let before = Instant::now();
            let count = match input.read(&mut bytes) {
                Ok(count) => count,
                Err(error) if error.kind() == ErrorKind::Interrupted => continue,
                Err(error) => return Err(format!("the line: {}", plain(&error))),
            };
            let waited = before.elapsed();
            // A terminal whose other end is closed is none any more.
            let ended = count == 0 && !input.is_terminal();
            let short = count == 0 && waited < NOTHING;
            if terminal && !ended && !said && (short || count > 0 && waited > BYTES) {
                eprintln!("{UNSET}");
                said = true;
            }
            if !ended && short && last.elapsed() < SILENCE {
                continue;
            }
            if terminal && count > 0 {
                self.gap(last.elapsed());
            }
            last = Instant::now();
            match count {
                0 => self.silence()?,
                _ => bytes[..count].iter().try_for_each(|&byte| self.byte(byte))?,
            }
            if ended {
                return Ok(());
            }
        }
    }

    /// So long ago was the last read when bytes came.
    fn gap(&mut self, gap: Duration) {
        if gap >= SILENCE {
            self.line.late();
        } else if gap >= PAUSE {
            self.line.pause();
        }
    }

    fn byte(&mut self, byte: u8) -> Result<(), String> {
        match self.line.byte(byte) {
            Some(frame) => self.answer(frame),
            None => Ok(()),
        }
    }

    fn silence(&mut self) -> Result<(), String> {
        self.drain();
        match self.line.silence() {
            Some(frame) => self.answer(frame),
            None => Ok(()),
        }
    }

    /// Answers a frame from the panel after the events that are there.
    fn answer(&mut self, frame: Vec<u8>) -> Result<(), String> {
        self.drain();
        let Said::Frame(answered) = self.console.obey(Command::Frame(frame.clone())) else {
            return Ok(());
        };
        let mut output = io::stdout().lock();
        output
            .write_all(&answered.reply)
            .and_then(|()| output.flush())
            .map_err(|error| format!("a reply: {}", plain(&error)))?;
        self.line.sent(&answered.reply);
        if self.verbose {
            let done = match answered.outcome {
                _ if !answered.reply.is_empty() => {
                    format!("to this node: sent {}", console::bytes(&answered.reply))
                }
                Outcome::Written(..) => "to all: started afresh".into(),
                _ => "to all: nothing sent".into(),
            };
            eprintln!("slave: heard {} {done}", console::bytes(&frame));
        }
        Ok(())
    }

    fn drain(&mut self) {
        if let Some(feed) = &mut self.feed {
            feed.drain(&mut self.console, self.verbose);
        }
    }
}

/// Lines of events from a file or a terminal.
struct Feed {
    file: File,
    /// The line that has not ended yet.
    open: Vec<u8>,
    lines: u64,
}

impl Feed {
    fn open(path: &str) -> Result<Feed, String> {
        let at_path = |error: io::Error| format!("{path}: {}", plain(&error));
        let kind = fs::metadata(path).map_err(at_path)?.file_type();
        let neither = || "slave: EVENTS is neither a file nor a terminal".into();
        // The open of a fifo would wait.
        if !kind.is_file() && !kind.is_char_device() {
            return Err(neither());
        }
        let mut options = OpenOptions::new();
        options.read(true).custom_flags(NO_CONTROLLING_TERMINAL);
        let file = options.open(path).map_err(at_path)?;
        if !kind.is_file() && !file.is_terminal() {
            return Err(neither());
        }
        Ok(Feed { file, open: Vec::new(), lines: 0 })
    }

    /// Takes what is there; the last line of a file needs no newline.
    fn drain(&mut self, console: &mut Console, verbose: bool) {
        let mut bytes = [0; CHUNK];
        loop {
            // Nothing more comes from a terminal whose other end is closed.
            let count = self.file.read(&mut bytes).unwrap_or(0);
            self.open.extend(&bytes[..count]);
            let regular = || self.file.metadata().is_ok_and(|data| data.is_file());
            if count == 0 && !self.open.is_empty() && regular() {
                self.open.push(b'\n');
            }
            while let Some(end) = self.open.iter().position(|&byte| byte == b'\n') {
                let line: Vec<u8> = self.open.drain(..=end).collect();
                self.lines += 1;
                self.take(console, &line[..end], verbose);
            }
            if count == 0 {
                return;
            }
        }
    }

    fn take(&self, console: &mut Console, line: &[u8], verbose: bool) {
        let reason = match console::command(line) {
            Ok(Command::Blank | Command::Remark) => return,
            Ok(command @ Command::Event(_)) => match console.obey(command) {
                Said::Event(_, _, answer) if verbose && answer.note != 0 => {
                    eprintln!("slave: EVENTS line {}: refused {}", self.lines, answer.note);
                    return;
                }
                _ => return,
            },
            Ok(_) => "no event",
            Err(wrong) => wrong.words(),
        };
        eprintln!("slave: EVENTS line {}: {reason}: {}", self.lines, text(line));
    }
}
