//! Random inputs of planes from a seed, and what they meet.

use std::fmt;

use crate::carriage;
use crate::differ::Counts;
use crate::planes;
use crate::rng::Rng;

/// Most bytes of an input.
pub const BYTES: i64 = 40_000;
/// Bytes of a full group, and of a piece in which a program may read.
const GROUP: i64 = 128;
const PIECE: i64 = 8_192;
/// How far from a border inputs end.
const BESIDE: i64 = 5;
/// Most telegrams of a carriage that are left out before its log.
const BEFORE: u64 = 5_000;

/// What the bytes of an input are.
#[derive(Clone, Copy, Debug, PartialEq, Eq)]
pub enum Content {
    Random,
    Carriage,
    Ones,
    SingleBits,
}

impl Content {
    pub const ALL: [Content; 4] =
        [Content::Random, Content::Carriage, Content::Ones, Content::SingleBits];

    pub fn name(self) -> &'static str {
        match self {
            Content::Random => "random bytes",
            Content::Carriage => "carriage log",
            Content::Ones => "all ones",
            Content::SingleBits => "single bits",
        }
    }
}

/// An input of a seed.
pub fn input(seed: u64, index: u64) -> (Content, Vec<u8>) {
    let mut rng = Rng::for_case(seed, index);
    let length = length(&mut rng) as usize;
    let content = Content::ALL[rng.weighted(&[40, 30, 10, 20])];
    (content, bytes(&mut rng, content, length))
}

/// Often near a border between words, groups or pieces.
fn length(rng: &mut Rng) -> i64 {
    let border = match rng.weighted(&[10, 15, 30, 25, 20]) {
        0 => 0,
        1 => rng.between(0, 100) * 4,
        2 => rng.between(0, 70) * GROUP,
        3 => rng.between(1, BYTES / PIECE) * PIECE,
        _ => return rng.between(0, BYTES),
    };
    let beside = if rng.chance(30) { 0 } else { rng.between(-BESIDE, BESIDE) };
    (border + beside).max(0)
}

fn bytes(rng: &mut Rng, content: Content, length: usize) -> Vec<u8> {
    let mut bytes = match content {
        Content::Random => (0..length).map(|_| rng.draw() as u8).collect(),
        Content::Carriage => log(rng, length.div_ceil(4)),
        Content::Ones => vec![0xFF; length],
        Content::SingleBits => vec![0; length],
    };
    bytes.truncate(length);
    if content == Content::SingleBits && length > 0 {
        for _ in 0..rng.between(1, 20) {
            bytes[rng.below(length as u64) as usize] |= 1 << rng.below(8);
        }
    }
    bytes
}

/// Telegrams of a carriage from any moment on.
fn log(rng: &mut Rng, count: usize) -> Vec<u8> {
    let (kind, before) = (rng.pick(&carriage::KINDS), rng.below(BEFORE) as usize);
    planes::bytes_of(&carriage::telegrams(rng, kind, before + count)[before..])
}

/// A name, and whether an input of so many bytes meets it.
type Name = (&'static str, fn(i64) -> bool);

const NAMES: [Name; 15] = [
    ("empty", |bytes| bytes == 0),
    ("1 left-over byte", |bytes| bytes % 4 == 1),
    ("2 left-over bytes", |bytes| bytes % 4 == 2),
    ("3 left-over bytes", |bytes| bytes % 4 == 3),
    ("left-over bytes alone", |bytes| (1..4).contains(&bytes)),
    ("no full group", |bytes| (1..GROUP).contains(&bytes)),
    ("full groups alone", |bytes| bytes > 0 && bytes % GROUP == 0),
    ("full groups and left-over bytes alone", |bytes| {
        bytes > GROUP && (1..4).contains(&(bytes % GROUP))
    }),
    ("remainder of 1 word", |bytes| rest(bytes) == 1),
    ("remainder of 2 to 30 words", |bytes| (2..31).contains(&rest(bytes))),
    ("remainder of 31 words", |bytes| rest(bytes) == 31),
    ("less than a piece by up to 5 bytes", |bytes| bytes % PIECE >= PIECE - BESIDE),
    ("whole pieces", |bytes| bytes > 0 && bytes % PIECE == 0),
    ("more than a piece by up to 5 bytes", |bytes| {
        bytes > PIECE && (1..=BESIDE).contains(&(bytes % PIECE))
    }),
    ("more than one piece", |bytes| bytes > PIECE),
];

/// Words behind the last full group.
fn rest(bytes: i64) -> i64 {
    bytes % GROUP / 4
}

/// How many inputs meet what.
#[derive(Clone, Debug, Default, PartialEq, Eq)]
pub struct Met {
    pub inputs: u64,
    pub bytes: u64,
    contents: [u64; Content::ALL.len()],
    names: [u64; NAMES.len()],
    /// Inputs that turning changes.
    changed: u64,
}

impl Met {
    /// What an input with its turned bytes meets.
    pub fn of(content: Content, input: &[u8], turned: &[u8]) -> Met {
        Met {
            inputs: 1,
            bytes: input.len() as u64,
            contents: Content::ALL.map(|other| (other == content).into()),
            names: NAMES.map(|(_, meets)| meets(input.len() as i64).into()),
            changed: (input != turned).into(),
        }
    }

    /// Each name with its count.
    pub fn counts(&self) -> Vec<(&'static str, u64)> {
        let contents = Content::ALL.map(Content::name).into_iter().zip(self.contents);
        let names = NAMES.map(|(name, _)| name).into_iter().zip(self.names);
        contents.chain(names).chain([("changed by turning", self.changed)]).collect()
    }
}

impl Counts for Met {
    fn add(&mut self, other: &Met) {
        self.inputs += other.inputs;
        self.bytes += other.bytes;
        self.changed += other.changed;
        (0..self.contents.len()).for_each(|i| self.contents[i] += other.contents[i]);
        (0..self.names.len()).for_each(|i| self.names[i] += other.names[i]);
    }
}

impl fmt::Display for Met {
    fn fmt(&self, f: &mut fmt::Formatter) -> fmt::Result {
        self.counts().iter().try_for_each(|(name, count)| writeln!(f, "{name}: {count}"))
    }
}
