//! The slave on a serial line, as plain Rust does it: frames found by length and silence, events from
//! a file or a second terminal. Request K2: "slave: on a real line".

use std::fs::{self, File, OpenOptions};
use std::io::{self, ErrorKind, IsTerminal, Read, Write};
use std::os::unix::fs::OpenOptionsExt;

use crate::console::{self, Command, Console, Said};
use crate::modbus::{self, EXCEPTION, READ, WRITE};

/// Longest frame.
const FRAME: usize = 256;
/// Bytes that one read takes at most.
const CHUNK: usize = 8_192;
/// Opens a terminal without taking it as the one that controls.
const NO_CONTROLLING_TERMINAL: i32 = 0o400;

/// Serves standard input and output; false after a refused start.
pub fn run(node: &str, table: &str, events: Option<&str>) -> io::Result<bool> {
    let mut console = match started(node, &fs::read(table)?) {
        Ok(console) => console,
        Err(words) => {
            eprintln!("slave: {words}");
            return Ok(false);
        }
    };
    let mut feed = events.map(Feed::open).transpose()?;
    let mut line = io::stdin().lock();
    let mut output = io::stdout().lock();
    let mut collector = Collector::new(console.node as u8);
    let mut bytes = [0; CHUNK];
    loop {
        let count = match line.read(&mut bytes) {
            Ok(count) => count,
            Err(error) if error.kind() == ErrorKind::Interrupted => continue,
            // The other end of the terminal is closed.
            Err(_) => return Ok(true),
        };
        let frames: Vec<Vec<u8>> = match count {
            0 => collector.silence().into_iter().collect(),
            _ => bytes[..count].iter().filter_map(|&byte| collector.byte(byte)).collect(),
        };
        if let Some(feed) = &mut feed {
            feed.drain(&mut console)?;
        }
        for frame in frames {
            if let Said::Frame(answered) = console.obey(Command::Frame(frame)) {
                output.write_all(&answered.reply)?;
                output.flush()?;
            }
        }
        if count == 0 && !line.is_terminal() {
            return Ok(true);
        }
    }
}

/// A console with its panel started, or what is wrong.
fn started(node: &str, table: &[u8]) -> Result<Console, String> {
    let mut console = Console::default();
    match console::command(format!("node {node}").as_bytes()) {
        Ok(command) => console.obey(command),
        Err(wrong) => return Err(wrong.words().into()),
    };
    for line in console::lines(table) {
        match console::command(line) {
            Ok(Command::Blank | Command::Remark) => {}
            Ok(command @ Command::Slot(..)) => {
                console.obey(command);
            }
            _ => return Err(format!("no line of a table: {}", String::from_utf8_lossy(line))),
        }
    }
    match console.obey(Command::Start) {
        Said::Start(Some(refusal)) => Err(format!("start {} {}", refusal.number, refusal.slot)),
        _ => Ok(console),
    }
}

/// Lines of events from a file or a terminal.
struct Feed {
    file: File,
    open: Vec<u8>,
}

impl Feed {
    fn open(path: &str) -> io::Result<Feed> {
        let file =
            OpenOptions::new().read(true).custom_flags(NO_CONTROLLING_TERMINAL).open(path)?;
        Ok(Feed { file, open: Vec::new() })
    }

    /// Takes what is there; the last line of a file needs no newline.
    fn drain(&mut self, console: &mut Console) -> io::Result<()> {
        let mut bytes = [0; CHUNK];
        loop {
            let count = self.file.read(&mut bytes)?;
            self.open.extend(&bytes[..count]);
            if count == 0 && !self.file.is_terminal() && !self.open.is_empty() {
                self.open.push(b'\n');
            }
            while let Some(end) = self.open.iter().position(|&byte| byte == b'\n') {
                let line: Vec<u8> = self.open.drain(..=end).collect();
                take_event(console, &line[..end]);
            }
            if count == 0 {
                return Ok(());
            }
        }
    }
}

fn take_event(console: &mut Console, line: &[u8]) {
    match console::command(line) {
        Ok(Command::Blank | Command::Remark) => {}
        Ok(command @ Command::Event(_)) => {
            console.obey(command);
        }
        _ => eprintln!("slave: no event: {}", String::from_utf8_lossy(line)),
    }
}

/// Bytes of a line on their way to a frame.
#[derive(Clone, Debug, PartialEq, Eq)]
pub struct Collector {
    node: u8,
    bytes: Vec<u8>,
    /// Until silence all is dropped.
    deaf: bool,
}

impl Collector {
    pub fn new(node: u8) -> Collector {
        Collector { node, bytes: Vec::new(), deaf: false }
    }

    /// One byte; the frame that it ends, where the panel is to see it.
    pub fn byte(&mut self, byte: u8) -> Option<Vec<u8>> {
        if self.deaf {
            return None;
        }
        self.bytes.push(byte);
        let (length, ends) = (self.bytes.len(), self.ends());
        if ends.contains(&length) && modbus::crc(&self.bytes) == 0 {
            return self.take();
        }
        let past = !ends.is_empty() && ends.iter().all(|&end| end <= length);
        if past || length > FRAME {
            self.bytes.clear();
            self.deaf = true;
        }
        None
    }

    /// A tenth of a second without a byte; what stands there is a frame.
    pub fn silence(&mut self) -> Option<Vec<u8>> {
        self.deaf = false;
        self.take()
    }

    fn take(&mut self) -> Option<Vec<u8>> {
        let frame = std::mem::take(&mut self.bytes);
        (!frame.is_empty()).then_some(frame)
    }

    /// The lengths at which this may end: a request's, and for another node a reply's too. None
    /// where only silence ends it, or where the byte that says it is not there yet.
    fn ends(&self) -> Vec<usize> {
        let bytes = &self.bytes;
        let [node, function, ..] = bytes[..] else {
            return Vec::new();
        };
        let other = node != 0 && node != self.node;
        let count = |place: usize| bytes.get(place).map(|&count| usize::from(count));
        let request = match function {
            READ => Some(8),
            WRITE => count(6).map(|count| 9 + count),
            _ => None,
        };
        let reply = match function {
            READ => count(2).map(|count| 5 + count),
            WRITE => Some(8),
            EXCEPTION.. => Some(5),
            _ => None,
        };
        request.into_iter().chain(reply.filter(|_| other)).collect()
    }
}
