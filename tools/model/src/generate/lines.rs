//! Random lines of console: good ones in many spellings, and ones that are none.

use crate::console::{self, BURST_LINE, LINE};
use crate::panel::Event;
use crate::rng::Rng;

/// Lines that are none whatever runs.
const WRONG: [&str; 86] = [
    "x",
    "Start",
    "START",
    "starts",
    "star",
    "nodes 1",
    "Node 1",
    "T 5",
    "F 01",
    "I 1",
    "C 1",
    "B 1",
    "bb 1",
    "b1",
    " #",
    " # t 5",
    "\t",
    "t\t5",
    "tt 5",
    "frame 01",
    "?",
    "0",
    "-",
    "node",
    "node 65536",
    "node -1",
    "node 01",
    "node +1",
    "node 1 2",
    "node x",
    "node 0x1",
    "node 1000000000000000000",
    "node 99999999999999999999999999",
    "node -0",
    "slot",
    "slot 1",
    "slot 104 0",
    "slot -1 0",
    "slot 1 2 3",
    "slot 00 1",
    "slot 5 2147483648",
    "slot 5 -2147483649",
    "slot 5 -0",
    "slot 5 1.0",
    "slot 5 007",
    "slot 5 --1",
    "slot 5 -",
    "start 1",
    "start start",
    "start\r\r",
    "Halves",
    "halve",
    "halves 1",
    "halves halves",
    "halves\t",
    "Record",
    "recor",
    "records",
    "record 1",
    "record record",
    "record\t",
    "t",
    "t 123456789",
    "t 0x1",
    "t g",
    "t 1 2",
    "t -1",
    "b 123456789",
    "b 0x1",
    "b g",
    "b 1 g 2",
    "b -1",
    "b 1,2",
    "b\t1",
    "b 1\t2",
    "i",
    "i 256",
    "i -1",
    "i 07",
    "c",
    "c 65536",
    "c 1e3",
    "f 1",
    "f 123",
    "f 0103",
    "f 01 g3",
];

/// A line of words, at times with more spaces, and with a carriage return.
pub fn spelled(rng: &mut Rng, words: &[String]) -> Vec<u8> {
    let mut line = String::new();
    let wide = rng.chance(4);
    let gap = |rng: &mut Rng, least: i64| {
        " ".repeat(if wide { rng.between(least, least + 3) } else { least } as usize)
    };
    line.push_str(&gap(rng, 0));
    for (i, word) in words.iter().enumerate() {
        if i > 0 {
            line.push_str(&gap(rng, 1));
        }
        line.push_str(word);
    }
    line.push_str(&gap(rng, 0));
    if rng.chance(4) {
        line.push('\r');
    }
    line.into_bytes()
}

/// The words of an event.
pub fn event(rng: &mut Rng, event: Event) -> Vec<String> {
    match event {
        Event::Telegram(word) => vec!["t".into(), digits(rng, word)],
        Event::Levels(levels) => vec!["i".into(), levels.to_string()],
        Event::Tick(ms) => vec!["c".into(), ms.to_string()],
    }
}

/// A telegram by 1 to 8 hex digits.
pub fn digits(rng: &mut Rng, word: u32) -> String {
    match rng.below(4) {
        0 => format!("{word:x}"),
        1 => format!("{word:08X}"),
        _ => format!("{word:X}"),
    }
}

/// The words of a frame.
pub fn frame(rng: &mut Rng, bytes: &[u8]) -> Vec<String> {
    let digits = console::bytes(bytes);
    let digits = if rng.chance(10) { digits.to_lowercase() } else { digits };
    ["f"]
        .into_iter()
        .chain(digits.split(' '))
        .filter(|word| !word.is_empty())
        .map(String::from)
        .collect()
}

/// The words that ask for the marks or the record, now and then with something behind them.
pub fn question(rng: &mut Rng, word: &str) -> Vec<String> {
    let mut words = vec![word.into()];
    if rng.chance(4) {
        words.push(rng.pick(&["0", "1", "0 0 0", "-", "t", "#"]).into());
    }
    words
}

/// A line that is none, or one that says nothing.
pub fn odd(rng: &mut Rng) -> Vec<u8> {
    match rng.weighted(&[50, 10, 10, 8, 5, 5]) {
        0 => rng.pick(&WRONG).into(),
        1 => rng.pick(&["", " ", "   ", "\r", "  \r", "#", "# a remark", "#\t\r"]).into(),
        2 => torn(rng),
        3 => around_the_longest(rng),
        4 => frame_around_the_longest(rng),
        _ => bytes(rng),
    }
}

/// A good line with one byte changed, left out or put in.
fn torn(rng: &mut Rng) -> Vec<u8> {
    let good = [
        "node 1",
        "slot 12 0",
        "t 1F",
        "b 1F 20",
        "i 1",
        "c 10",
        "f 01 03 00 00 00 02 C4 0B",
        "start",
        "halves",
        "record",
    ];
    let mut line: Vec<u8> = rng.pick(&good).into();
    let at = rng.below(line.len() as u64) as usize;
    let byte = rng.pick(b" \t#-+09afAFgxt\r\0");
    match rng.below(3) {
        0 => line[at] = byte,
        1 => line.insert(at, byte),
        _ => {
            line.remove(at);
        }
    }
    line
}

/// A line of about 1,024 bytes, with `b` 10,240 too, or far more: good, blank, a remark or none, with 0
/// to 2 carriage returns.
fn around_the_longest(rng: &mut Rng) -> Vec<u8> {
    let mut line: Vec<u8> = rng
        .pick(&[
            "c 5", "i 1", "", "#", "x", "f", "node 1", "start 1", "halves", "record", "b 1", "bb",
        ])
        .into();
    let filler = if line == b"#" || line == b"x" { rng.pick(b" x#") } else { b' ' };
    let longest = if line == b"b 1" { rng.pick(&[LINE, BURST_LINE]) } else { LINE };
    let length = match rng.below(8) {
        0 => rng.between(1_100, 12_000) as usize,
        _ => (longest as i64 + rng.between(-2, 2)) as usize,
    };
    line.resize(length, filler);
    if rng.chance(20) && line[0] != b'#' {
        line.rotate_right(length / 2);
    }
    line.extend(vec![b'\r'; rng.weighted(&[50, 40, 10])]);
    line
}

/// Frames of about 300 bytes.
fn frame_around_the_longest(rng: &mut Rng) -> Vec<u8> {
    let mut line = b"f".to_vec();
    for _ in 0..rng.between(298, 303) {
        line.extend(b" 00");
    }
    line
}

/// Any bytes but a newline.
pub fn bytes(rng: &mut Rng) -> Vec<u8> {
    let byte = |rng: &mut Rng| match rng.draw() as u8 {
        b'\n' => 0,
        byte => byte,
    };
    (0..rng.between(1, 12)).map(|_| byte(rng)).collect()
}
