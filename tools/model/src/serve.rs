//! A plain slave on the 64-bit panel, to time frames, and the frames that are timed.

use crate::fast::Panel;
use crate::modbus::{self, SHOWN};
use crate::panelrun::{self, TABLE_BYTES};
use crate::rng::Rng;
use crate::table::{self, slot, SLOTS};

/// The kinds of frames that are timed.
pub const KINDS: [&str; 3] = ["read", "write", "mixed"];

/// Node address of the timed slave.
const NODE: u8 = 1;
/// Most bytes of a reply.
const REPLY: usize = 9;

/// A panel with its table as loaded.
struct Slave {
    words: [i32; SLOTS],
    panel: Panel,
    reply: [u8; REPLY],
}

/// Serves the frames of an input again and again; a sum over all replies and numbers.
pub fn sum(input: &[u8], rounds: u64) -> u64 {
    let (words, frames) = read(input);
    let table = table::load(&words).unwrap();
    let mut slave = Slave { words, panel: Panel::new(&table), reply: [0; REPLY] };
    let mut sum = 0u64;
    for _ in 0..rounds {
        for frame in &frames {
            let (number, length) = slave.answer(frame);
            for &byte in &slave.reply[..length] {
                sum = sum.wrapping_mul(31).wrapping_add(byte.into());
            }
            sum = sum.wrapping_mul(31).wrapping_add(number);
        }
    }
    sum
}

/// The table at the head of an input, and the frames, each behind its length.
fn read(input: &[u8]) -> ([i32; SLOTS], Vec<&[u8]>) {
    let (table, mut rest) = input.split_at(TABLE_BYTES);
    let words = table.chunks_exact(4).map(|w| i32::from_le_bytes(w.try_into().unwrap()));
    let words: Vec<i32> = words.collect();
    let mut frames = Vec::new();
    while let [low, high, bytes @ ..] = rest {
        let (frame, behind) = bytes.split_at(u16::from_le_bytes([*low, *high]).into());
        frames.push(frame);
        rest = behind;
    }
    (words.try_into().unwrap(), frames)
}

impl Slave {
    /// Number of a frame and length of its reply.
    fn answer(&mut self, frame: &[u8]) -> (u64, usize) {
        if broken(frame) {
            return (20, 0);
        }
        let all = frame[0] == 0;
        if frame[0] != NODE && !(all && frame[1] == modbus::WRITE) {
            return (0, 0);
        }
        let length = match self.serve(frame) {
            Ok(length) => length,
            Err(code) => {
                self.reply[1] = frame[1] | modbus::EXCEPTION;
                self.reply[2] = code;
                3
            }
        };
        if all {
            return (0, 0);
        }
        self.reply[0] = NODE;
        let seal = crc(&self.reply[..length]).to_le_bytes();
        self.reply[length..length + 2].copy_from_slice(&seal);
        (0, length + 2)
    }

    /// Puts the reply's bytes behind the node, or gives an exception.
    fn serve(&mut self, frame: &[u8]) -> Result<usize, u8> {
        if frame[1] != modbus::READ && frame[1] != modbus::WRITE {
            return Err(1);
        }
        let writes = frame[1] == modbus::WRITE;
        let word_at = |i: usize| u16::from_be_bytes([frame[i], frame[i + 1]]);
        if word_at(4) != 2 || writes && frame[6] != 4 {
            return Err(3);
        }
        let register = word_at(2);
        let slot = usize::from(register) / 2;
        if register % 2 != 0 || slot >= SLOTS && (register != SHOWN || writes) {
            return Err(2);
        }
        if writes {
            let word = i32::from(word_at(9) as i16) << 16 | i32::from(word_at(7));
            self.write(slot, word)?;
            self.reply[1..6].copy_from_slice(&frame[1..6]);
            return Ok(6);
        }
        let word = if slot < SLOTS { self.word(slot) } else { self.panel.shown() as i32 };
        self.reply[1..3].copy_from_slice(&[modbus::READ, 4]);
        self.reply[3..5].copy_from_slice(&(word as u16).to_be_bytes());
        self.reply[5..7].copy_from_slice(&((word >> 16) as u16).to_be_bytes());
        Ok(7)
    }

    /// A word of the table in force.
    fn word(&self, slot: usize) -> i32 {
        match slot {
            slot::OFFSET => self.panel.offset() as i32,
            17 | 25 | 33 | 41 => self.panel.preselection((slot - 17) / 8) as i32,
            _ => self.words[slot],
        }
    }

    fn write(&mut self, slot: usize, word: i32) -> Result<(), u8> {
        let mut words = self.words;
        words[slot::OFFSET] = self.panel.offset() as i32;
        for k in 0..4 {
            words[slot::preselection(k)] = self.panel.preselection(k) as i32;
        }
        words[slot] = word;
        let table = table::load(&words).map_err(|_| 3)?;
        self.words = words;
        self.panel = Panel::new(&table);
        Ok(())
    }
}

fn broken(frame: &[u8]) -> bool {
    let length = frame.len();
    if !(4..=256).contains(&length) {
        return true;
    }
    let wrong_length = match frame[1] {
        modbus::READ => length != 8,
        modbus::WRITE => length < 9 || length != 9 + usize::from(frame[6]),
        _ => false,
    };
    wrong_length || crc(&frame[..length - 2]).to_le_bytes() != frame[length - 2..]
}

/// A step of the CRC for each byte.
const STEPS: [u16; 256] = steps();

const fn steps() -> [u16; 256] {
    let mut steps = [0; 256];
    let mut byte = 0;
    while byte < 256 {
        let mut crc = byte as u16;
        let mut bit = 0;
        while bit < 8 {
            crc = if crc & 1 == 1 { crc >> 1 ^ 0xA001 } else { crc >> 1 };
            bit += 1;
        }
        steps[byte] = crc;
        byte += 1;
    }
    steps
}

fn crc(bytes: &[u8]) -> u16 {
    bytes.iter().fold(0xFFFF, |crc, &byte| crc >> 8 ^ STEPS[usize::from(crc as u8 ^ byte)])
}

/// The defaults and this many frames, each behind its length.
pub fn input(kind: &str, count: usize) -> Vec<u8> {
    let mut input = panelrun::input_of(&table::defaults(), &[]);
    let mut rng = Rng::new(1);
    for i in 0..count {
        let body = match (kind, i % 2) {
            ("read", _) | ("mixed", 0) => read_body(if kind == "mixed" { i / 2 } else { i }),
            _ => write_body(&mut rng),
        };
        let frame = modbus::sealed(NODE, &body);
        input.extend((frame.len() as u16).to_le_bytes());
        input.extend(frame);
    }
    input
}

/// A read of the slots in turn, and of the shown value behind them.
fn read_body(i: usize) -> Vec<u8> {
    let slot = i % (SLOTS + 1);
    modbus::read_body(if slot < SLOTS { 2 * slot as u16 } else { SHOWN })
}

/// A write that keeps every table loading: offsets, preselections, hysteresis, pulses, points.
fn write_body(rng: &mut Rng) -> Vec<u8> {
    let k = rng.below(4) as usize;
    let at = match rng.below(5) {
        0 => slot::OFFSET,
        1 => slot::preselection(k),
        2 => slot::hysteresis(k),
        3 => slot::pulse(k),
        _ => rng.between(56, SLOTS as i64 - 1) as usize,
    };
    let row = table::row(at);
    modbus::write_body(2 * at as u16, rng.between(row.low.into(), row.high.into()) as i32)
}
