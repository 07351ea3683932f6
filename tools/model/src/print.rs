//! panelrun as a plain buffered program: large reads, one output buffer, flat memory.

use std::io::{self, ErrorKind, Read, Write};

use crate::fast::Panel;
use crate::panel::{Answer, Event};
use crate::panelrun::{self, HEADER, TABLE_BYTES};

/// Bytes of one read.
const CHUNK: usize = 32_768;
/// Longest line, with room to spare.
const LONGEST_LINE: usize = 96;

/// Prints what panelrun prints for an input.
pub fn print(mut input: impl Read, mut output: impl Write) -> io::Result<()> {
    let mut head = [0; TABLE_BYTES];
    let length = fill(&mut input, &mut head)?;
    let table = match panelrun::load(&head[..length]) {
        Ok(table) => table,
        Err(refusal) => return writeln!(output, "load {} {}", refusal.number, refusal.slot),
    };
    let mut lines = Lines::new(Panel::new(&table));
    let end = print_events(&mut lines, &mut input, &mut output)?;
    lines.text.extend_from_slice(b"end ");
    lines.number(end.into());
    lines.text.push(b'\n');
    output.write_all(&lines.text)
}

/// Prints the lines of a log and answers its end.
fn print_events(
    lines: &mut Lines,
    input: &mut impl Read,
    output: &mut impl Write,
) -> io::Result<u8> {
    let mut chunk = vec![0; CHUNK];
    loop {
        let filled = fill(input, &mut chunk)?;
        if let Err(refusal) = chunk_lines(lines, &chunk[..filled]) {
            return Ok(refusal);
        }
        if filled < CHUNK {
            return Ok(lines.end(filled % 4));
        }
        output.write_all(&lines.text)?;
        lines.text.clear();
    }
}

/// Adds the lines of the whole words in a chunk; refusal 14 or 15.
#[inline]
fn chunk_lines(lines: &mut Lines, chunk: &[u8]) -> Result<(), u8> {
    for word in chunk.chunks_exact(4) {
        lines.word(u32::from_le_bytes([word[0], word[1], word[2], word[3]]))?;
    }
    Ok(())
}

/// Reads until the buffer is full or the input ends.
fn fill(input: &mut impl Read, buffer: &mut [u8]) -> io::Result<usize> {
    let mut filled = 0;
    while filled < buffer.len() {
        match input.read(&mut buffer[filled..]) {
            Ok(0) => break,
            Ok(read) => filled += read,
            Err(error) if error.kind() == ErrorKind::Interrupted => {}
            Err(error) => return Err(error),
        }
    }
    Ok(filled)
}

/// The text of a run as it grows.
struct Lines {
    panel: Panel,
    events: u64,
    /// The upper half that waits for its lower one.
    upper: Option<u32>,
    text: Vec<u8>,
}

impl Lines {
    fn new(panel: Panel) -> Lines {
        let mut text = Vec::with_capacity(CHUNK / 4 * LONGEST_LINE);
        text.extend_from_slice(HEADER.as_bytes());
        Lines { panel, events: 0, upper: None, text }
    }

    /// Takes one log word; refusal 14 or 15.
    fn word(&mut self, word: u32) -> Result<(), u8> {
        let kind = word >> 30;
        let reserved = if kind == 1 { 0x3FFF_FFF8 } else { 0x3FFF_0000 };
        if word & reserved != 0 {
            return Err(14);
        }
        let low = word & 0xFFFF;
        match (kind, self.upper.take()) {
            (0, None) => self.event(b'C', Event::Tick(low as u16)),
            (1, None) => self.event(b'I', Event::Levels(low as u8)),
            (2, None) => self.upper = Some(low << 16),
            (3, Some(upper)) => self.event(b'T', Event::Telegram(upper | low)),
            _ => return Err(15),
        }
        Ok(())
    }

    /// The number at the end of the log.
    fn end(&self, left_over: usize) -> u8 {
        if left_over > 0 {
            16
        } else if self.upper.is_some() {
            15
        } else {
            0
        }
    }

    fn event(&mut self, kind: u8, event: Event) {
        let answer = self.panel.step(event);
        self.events += 1;
        self.line(kind, &answer);
    }

    fn line(&mut self, kind: u8, answer: &Answer) {
        self.unsigned(self.events);
        self.text.extend_from_slice(&[b' ', kind, b' ']);
        self.number(answer.result);
        self.text.push(b' ');
        self.number(answer.shown);
        self.text.extend_from_slice(&[b' ', b'0' + answer.error, b' ']);
        self.text.extend_from_slice(&answer.outputs.map(|high| b'0' + u8::from(high)));
        self.text.push(b' ');
        match answer.code {
            Some(code) => self.number(code.into()),
            None => self.text.extend_from_slice(b"off"),
        }
        self.text.push(b' ');
        self.number(answer.note.into());
        self.text.push(b'\n');
    }

    fn number(&mut self, number: i64) {
        if number < 0 {
            self.text.push(b'-');
        }
        self.unsigned(number.unsigned_abs());
    }

    fn unsigned(&mut self, mut number: u64) {
        let mut digits = [0; 20];
        let mut first = digits.len();
        loop {
            first -= 1;
            digits[first] = b'0' + (number % 10) as u8;
            number /= 10;
            if number == 0 {
                break;
            }
        }
        self.text.extend_from_slice(&digits[first..]);
    }
}
