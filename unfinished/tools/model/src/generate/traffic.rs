//! Random lines for a slave from a seed: what passes on a shared line without silence, from the first
//! byte to the end; and what they meet.

use std::collections::BTreeMap;
use std::fmt;

use crate::differ::Counts;
use crate::line;
use crate::modbus::{self, Addressee, Answered, Outcome, SHOWN};
use crate::rng::Rng;
use crate::slave::Station;
use crate::table::{self, slot, SLOTS};

/// The table of all lines: slot 12 of node 2 reads as a reply whose first 8 bytes are a frame.
pub const TABLE: &str = "# slot 12 of node 2 ends twice\nslot 12 240\n";
const ADDITIVE: i32 = 240;
/// Words of other nodes 2 whose replies do so.
const TWO_ENDS: [i32; 5] = [240, 243, 305, 306, 1_036];

/// Functions whose lengths the public documents give.
const FUNCTIONS: [u8; 10] = [1, 2, 3, 4, 5, 6, 15, 16, 22, 23];

/// A line, its node, what a slave writes for it, and what it meets.
pub struct Traffic {
    pub node: u8,
    pub line: Vec<u8>,
    pub replies: Vec<u8>,
    pub met: Met,
}

/// What stands on a line.
#[derive(Clone, Copy, Debug, PartialEq, Eq, PartialOrd, Ord)]
pub enum Piece {
    Poll,
    Write,
    ToAll,
    OtherToAll,
    Foreign,
    Exchange,
    TwoEnds,
    ReadAndToAll,
    Half,
    Noise,
    Unknown,
    Broken,
    Echo,
    HalfEcho,
    Tie,
}

impl Piece {
    pub const ALL: [Piece; 15] = [
        Piece::Poll,
        Piece::Write,
        Piece::ToAll,
        Piece::OtherToAll,
        Piece::Foreign,
        Piece::Exchange,
        Piece::TwoEnds,
        Piece::ReadAndToAll,
        Piece::Half,
        Piece::Noise,
        Piece::Unknown,
        Piece::Broken,
        Piece::Echo,
        Piece::HalfEcho,
        Piece::Tie,
    ];
    const WEIGHTS: [u64; 15] = [30, 6, 6, 4, 16, 8, 4, 3, 7, 4, 5, 3, 5, 2, 1];

    pub fn name(self) -> &'static str {
        match self {
            Piece::Poll => "a read of this node",
            Piece::Write => "a write to this node",
            Piece::ToAll => "a write to all",
            Piece::OtherToAll => "another function to all",
            Piece::Foreign => "a request or a reply of another node",
            Piece::Exchange => "a request and its reply",
            Piece::TwoEnds => "a reply that ends twice",
            Piece::ReadAndToAll => "a read of another node and a write to all",
            Piece::Half => "half a frame",
            Piece::Noise => "noise",
            Piece::Unknown => "another function to this node",
            Piece::Broken => "a frame with a wrong bit",
            Piece::Echo => "an echo",
            Piece::HalfEcho => "half an echo",
            Piece::Tie => "two requests that end at one byte",
        }
    }
}

/// A line of a seed.
pub fn traffic(seed: u64, index: u64) -> Traffic {
    let mut rng = Rng::for_case(seed, index);
    let node = rng.pick(&[1, 1, 2, 2, 3, 17, 247]);
    let mut talk = Talk::new(node);
    let most = rng.pick(&[3, 14, 14, 60]);
    for _ in 0..rng.between(1, most) {
        let piece = Piece::ALL[rng.weighted(&Piece::WEIGHTS)];
        let bytes = talk.bytes(&mut rng, piece);
        talk.met.count(piece.name());
        talk.pass(&bytes);
    }
    // Reads of the slot that writes change, another function, or nothing.
    let read = modbus::sealed(node, &modbus::read_body(2 * slot::ADDITIVE as u16));
    let last = match rng.weighted(&[50, 28, 2, 20]) {
        0 => read.repeat(rng.between(1, 3) as usize),
        1 => unknown(&mut rng, node),
        2 => two_unknown(&mut rng, node),
        _ => Vec::new(),
    };
    talk.pass(&last);
    talk.finish()
}

/// A line as far as it is made.
struct Talk {
    node: u8,
    station: Station,
    line: Vec<u8>,
    replies: Vec<u8>,
    /// The reply sent last.
    last: Vec<u8>,
    met: Met,
}

impl Talk {
    fn new(node: u8) -> Talk {
        let mut words = table::defaults();
        words[slot::ADDITIVE] = ADDITIVE;
        let station = Station::new(node, &words).unwrap();
        let (line, replies, last, met) = Default::default();
        Talk { node, station, line, replies, last, met }
    }

    /// Bytes pass on the line, and what is heard is answered.
    fn pass(&mut self, bytes: &[u8]) {
        for &byte in bytes {
            let lost = self.station.line.is_lost();
            let answered = self.station.byte(byte);
            self.line.push(byte);
            self.met.count("bytes");
            self.met.count_if(lost, "bytes while the line is lost");
            self.met.count_if(lost && !self.station.line.is_lost(), "found again");
            self.met.count_if(lost && answered.is_some(), "found again by a request heard");
            self.take(answered);
        }
    }

    fn take(&mut self, answered: Option<Answered>) {
        let Some(answered) = answered else {
            return;
        };
        self.met.count("requests heard");
        self.met.count(match answered.outcome {
            Outcome::Read(_) => "read",
            Outcome::Written(Addressee::All, _) => "written by a write to all",
            Outcome::Written(..) => "written",
            Outcome::Refused(Addressee::All, _) => "refused, to all",
            Outcome::Refused(_, exception) => match exception.code() {
                1 => "exception 1 at the end",
                2 => "exception 2",
                _ => "exception 3",
            },
            Outcome::Broken(_) | Outcome::Ignored(_) => unreachable!("heard, and neither read nor write"),
        });
        if !answered.reply.is_empty() {
            self.last = answered.reply.clone();
        }
        self.replies.extend(answered.reply);
    }

    /// The end of a line is a silence.
    fn finish(mut self) -> Traffic {
        let answered = self.station.silence();
        self.take(answered);
        self.met.count("lines");
        Traffic { node: self.node, line: self.line, replies: self.replies, met: self.met }
    }

    fn bytes(&mut self, rng: &mut Rng, piece: Piece) -> Vec<u8> {
        let (node, other) = (self.node, other_node(rng, self.node));
        match piece {
            Piece::Poll => modbus::sealed(node, &read(rng)),
            Piece::Write => modbus::sealed(node, &write(rng)),
            Piece::ToAll => modbus::sealed(0, &write(rng)),
            Piece::OtherToAll => request(rng, 0),
            Piece::Foreign => match rng.below(2) {
                0 => request(rng, other),
                _ => reply(rng, other),
            },
            Piece::Exchange => exchange(rng, other).concat(),
            Piece::TwoEnds => two_ends(rng, other),
            Piece::ReadAndToAll => {
                let register = (rng.pick(&[0x02, 0x04]) << 8) + rng.below(0x100) as u16;
                let read = modbus::sealed(other, &modbus::read_body(register));
                [read, modbus::sealed(0, &write(rng))].concat()
            }
            Piece::Half => {
                let of = rng.pick(&[node, other, other, 0]);
                let whole = request(rng, of);
                whole[..rng.between(1, whole.len() as i64 - 1) as usize].to_vec()
            }
            Piece::Noise => {
                let most = rng.pick(&[3, 20, 300]);
                let count = rng.between(1, most) as usize;
                data(rng, count)
            }
            Piece::Unknown => unknown(rng, node),
            Piece::Broken => {
                let mut frame = match rng.below(3) {
                    0 => request(rng, other),
                    1 => modbus::sealed(node, &read(rng)),
                    _ => modbus::sealed(node, &write(rng)),
                };
                let at = rng.below(frame.len() as u64) as usize;
                frame[at] ^= 1 << rng.below(8);
                frame
            }
            // Of a read right before it, or of the one that was answered last.
            Piece::Echo => {
                if rng.chance(80) {
                    let poll = modbus::sealed(node, &read(rng));
                    self.pass(&poll);
                }
                self.last.clone()
            }
            Piece::HalfEcho => {
                let poll = modbus::sealed(node, &read(rng));
                self.pass(&poll);
                let most = self.last.len().max(1) as i64 - 1;
                self.last[..rng.between(0, most) as usize].to_vec()
            }
            // Behind an unknown function, so that the line is lost and each byte may begin one.
            Piece::Tie => [vec![other, 99], tie(rng, node)].concat(),
        }
    }
}

fn other_node(rng: &mut Rng, node: u8) -> u8 {
    let any = rng.between(1, 255) as u8;
    match rng.pick(&[2, 2, 3, 5, 9, 200, any]) {
        other if other == node => node ^ 1,
        other => other,
    }
}

fn data(rng: &mut Rng, count: usize) -> Vec<u8> {
    (0..count).map(|_| rng.draw() as u8).collect()
}

/// The body of a read, mostly of the slot that writes change.
fn read(rng: &mut Rng) -> Vec<u8> {
    let register = match rng.below(10) {
        0..=3 => 2 * slot::ADDITIVE as u16,
        4..=6 => SHOWN,
        7 => 2 * rng.below(SLOTS as u64) as u16,
        8 => rng.below(0x500) as u16,
        _ => rng.draw() as u16,
    };
    let mut body = modbus::read_body(register);
    if rng.chance(5) {
        body[4] = rng.draw() as u8;
    }
    body
}

/// The body of a write, mostly one that is carried out.
fn write(rng: &mut Rng) -> Vec<u8> {
    let word = match rng.below(4) {
        0 => rng.pick(&TWO_ENDS),
        1 => rng.between(0, 9_999) as i32,
        _ => rng.ends(-99_999_999, 99_999_999) as i32,
    };
    match rng.below(10) {
        0..=7 => modbus::write_body(2 * slot::ADDITIVE as u16, word),
        8 => modbus::write_body(rng.below(0x110) as u16, word),
        // Another quantity and byte count.
        _ => {
            let count = rng.below(40) as usize;
            [&[modbus::WRITE, 0, 24, 0, 2, count as u8][..], &data(rng, count)].concat()
        }
    }
}

/// Request and reply of one function, with any data; the byte count is mostly short.
fn exchange(rng: &mut Rng, node: u8) -> [Vec<u8>; 2] {
    let function = rng.pick(&FUNCTIONS);
    let most = rng.pick(&[4, 20, 20, 243, 255]);
    let count = rng.between(0, most) as usize;
    let (head, counted) = (data(rng, 4), [vec![count as u8], data(rng, count)].concat());
    let head = [&[function][..], &head].concat();
    let (request, reply) = match function {
        1..=4 => (head, [&[function][..], &counted].concat()),
        5 | 6 => (head.clone(), head),
        15 | 16 => ([&head[..], &counted].concat(), head),
        22 => {
            let both = [head, data(rng, 2)].concat();
            (both.clone(), both)
        }
        _ => ([head, data(rng, 4), counted.clone()].concat(), [vec![function], counted].concat()),
    };
    let refused = if rng.chance(10) { 0 } else { function };
    let refusal = vec![refused | modbus::EXCEPTION, rng.between(1, 11) as u8];
    let reply = if rng.chance(15) { refusal } else { reply };
    [modbus::sealed(node, &request), modbus::sealed(node, &reply)]
}

fn request(rng: &mut Rng, node: u8) -> Vec<u8> {
    let [request, _] = exchange(rng, node);
    request
}

fn reply(rng: &mut Rng, node: u8) -> Vec<u8> {
    let [_, reply] = exchange(rng, node);
    reply
}

/// A reply of another node with a word whose first 8 bytes are a frame too; node 2's are known.
fn two_ends(rng: &mut Rng, node: u8) -> Vec<u8> {
    let reply =
        |word| modbus::sealed(node, &[&[modbus::READ, 4][..], &modbus::registers(word)].concat());
    if node == 2 {
        return reply(rng.pick(&TWO_ENDS));
    }
    let first = rng.between(0, 100_000) as i32;
    let found = (first..first + 2_000).map(reply).find(|reply| line::is_whole(0, &reply[..8]));
    found.unwrap_or_else(|| reply(first))
}

/// A write to this node or to all whose last bytes are a request of its own: its data begins where its
/// CRC is as it was before the first byte.
fn tie(rng: &mut Rng, node: u8) -> Vec<u8> {
    let inner = match rng.below(2) {
        0 => modbus::read_body(2 * slot::ADDITIVE as u16),
        _ => write(rng),
    };
    let inner = modbus::sealed(rng.pick(&[0, node]), &inner);
    let (to, count) = (rng.pick(&[0, node]), inner.len() as u8 - 2);
    [head(|[high, low]| vec![to, modbus::WRITE, high, low, 0, 2, count]), inner].concat()
}

/// A frame of an unknown function that ends with one of another.
fn two_unknown(rng: &mut Rng, node: u8) -> Vec<u8> {
    let [outer, inner] = rng.pick(&[[7, 43], [43, 7], [99, 4]]);
    [head(|[high, low]| vec![node, outer, high, low]), modbus::sealed(node, &[inner, 0, 0])]
        .concat()
}

/// The bytes of this form behind which a CRC begins anew.
fn head(bytes: impl Fn([u8; 2]) -> Vec<u8>) -> Vec<u8> {
    let mut heads = (0..=u16::MAX).map(|number| bytes(number.to_be_bytes()));
    heads.find(|head| modbus::crc(head) == 0xFFFF).unwrap()
}

/// A frame of a function other than 3 and 16.
fn unknown(rng: &mut Rng, node: u8) -> Vec<u8> {
    let function = match rng.pick(&[1, 2, 4, 5, 6, 7, 8, 15, 22, 23, 43, 0]) {
        0 => rng.between(128, 255) as u8,
        function => function,
    };
    match rng.below(3) {
        0 => loop {
            let frame = request(rng, node);
            if ![modbus::READ, modbus::WRITE].contains(&frame[1]) {
                return frame;
            }
        },
        1 => modbus::sealed(node, &[function]),
        _ => {
            let most = rng.pick(&[4, 20, 252, 254]);
            let count = rng.between(0, most) as usize;
            modbus::sealed(node, &[vec![function], data(rng, count)].concat())
        }
    }
}

const NAMES: [&str; 13] = [
    "lines",
    "bytes",
    "requests heard",
    "read",
    "written",
    "written by a write to all",
    "refused, to all",
    "exception 1 at the end",
    "exception 2",
    "exception 3",
    "bytes while the line is lost",
    "found again",
    "found again by a request heard",
];

/// How often lines meet what.
#[derive(Clone, Debug, Default, PartialEq, Eq)]
pub struct Met(BTreeMap<&'static str, u64>);

impl Met {
    pub fn of(&self, name: &str) -> u64 {
        self.0.get(name).copied().unwrap_or(0)
    }

    /// Every name that lines are to meet.
    pub fn names() -> impl Iterator<Item = &'static str> {
        NAMES.into_iter().chain(Piece::ALL.map(Piece::name))
    }

    fn count(&mut self, name: &'static str) {
        *self.0.entry(name).or_default() += 1;
    }

    fn count_if(&mut self, met: bool, name: &'static str) {
        if met {
            self.count(name);
        }
    }
}

impl Counts for Met {
    fn add(&mut self, other: &Met) {
        for (name, count) in &other.0 {
            *self.0.entry(name).or_default() += count;
        }
    }
}

impl fmt::Display for Met {
    fn fmt(&self, f: &mut fmt::Formatter) -> fmt::Result {
        Met::names().try_for_each(|name| writeln!(f, "{name}: {}", self.of(name)))
    }
}
