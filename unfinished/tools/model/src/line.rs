//! A shared serial line: which of its bytes are requests to this node or to all. Everything since the
//! last silence is kept, and the places where a frame may begin are a list of positions in it. Request
//! K2; the lengths are the public documents'.

use std::time::Duration;

use crate::modbus;

/// Longest frame, and how many bytes a place is followed for.
pub const FRAME: usize = 256;
/// Without a byte for so long there is silence, or a pause.
pub const SILENCE: Duration = Duration::from_millis(100);
pub const PAUSE: Duration = Duration::from_millis(2);
/// Stands for a length while the byte that says it has not come.
const LATER: usize = usize::MAX;

/// What passes on a line.
#[derive(Clone, Debug, PartialEq, Eq)]
pub struct Line {
    node: u8,
    /// Whether there was a silence.
    listening: bool,
    /// All bytes since the last silence or the last echo.
    bytes: Vec<u8>,
    /// Where in them a frame may begin, in rising order: behind silence, pauses and whole frames.
    places: Vec<usize>,
    /// Where the last whole frame ended.
    end: usize,
    /// Whether each byte from there on may begin one too.
    lost: bool,
    echo: Option<Echo>,
}

/// A reply that may come back, and where it then begins.
#[derive(Clone, Debug, PartialEq, Eq)]
struct Echo {
    reply: Vec<u8>,
    from: usize,
}

impl Line {
    /// A line of which nothing is known; nothing is heard before its first silence.
    pub fn new(node: u8) -> Line {
        Line {
            node,
            listening: false,
            bytes: Vec::new(),
            places: Vec::new(),
            end: 0,
            lost: false,
            echo: None,
        }
    }

    /// A byte; the request that is heard at it.
    pub fn byte(&mut self, byte: u8) -> Option<Vec<u8>> {
        if !self.listening {
            return None;
        }
        self.bytes.push(byte);
        let whole = |frame: &&[u8]| is_whole(self.node, frame);
        let ended: Vec<&[u8]> = self.begun().filter(whole).collect();
        let going_on = self.begun().any(|bytes| goes_on(self.node, bytes));
        let asks = |frame: &&[u8]| match frame[0] == self.node {
            true => is_known(frame),
            false => is_word_to_all(frame),
        };
        let heard = ended.iter().copied().filter(asks);
        let heard = heard.min_by_key(|frame| frame.len()).map(<[u8]>::to_vec);
        if !ended.is_empty() {
            self.end = self.bytes.len();
            self.lost = false;
            self.pause();
        } else if !going_on {
            self.lost = true;
        }
        if self.is_echo() {
            return None;
        }
        heard
    }

    /// 2 ms or more without a byte.
    pub fn pause(&mut self) {
        let next = self.bytes.len();
        if self.listening && self.places.last() != Some(&next) {
            self.places.push(next);
        }
    }

    /// A tenth of a second without a byte; the frame of another function that is heard then.
    pub fn silence(&mut self) -> Option<Vec<u8>> {
        let left_over = |frame: &&[u8]| {
            frame[0] == self.node && frame.len() >= 4 && !is_known(frame) && modbus::crc(frame) == 0
        };
        let heard = self.begun().filter(left_over).min_by_key(|frame| frame.len());
        let heard = heard.map(<[u8]>::to_vec);
        self.begin();
        heard
    }

    /// A tenth of a second or more, told only when the next bytes are there: the first silence, and
    /// then a pause, since the program may just not have run for so long. Nothing is answered so late.
    pub fn late(&mut self) {
        if self.listening {
            self.pause();
        } else {
            self.begin();
        }
    }

    /// A reply was sent, which an adapter may bring back.
    pub fn sent(&mut self, reply: &[u8]) {
        if !reply.is_empty() {
            self.echo = Some(Echo { reply: reply.to_vec(), from: self.bytes.len() });
        }
    }

    /// Whether each byte since the last end of a frame may begin one.
    pub fn is_lost(&self) -> bool {
        self.lost
    }

    /// Drops all; a frame may begin at the next byte.
    fn begin(&mut self) {
        *self = Line { listening: true, places: vec![0], ..Line::new(self.node) };
    }

    /// What stands from each place where a frame may begin to the last byte, 256 bytes at most.
    fn begun(&self) -> impl Iterator<Item = &[u8]> {
        let oldest = self.bytes.len().saturating_sub(FRAME);
        let marked = self.places.iter().copied().rev().take_while(move |&place| place >= oldest);
        let since_end = if self.lost { self.end.max(oldest) } else { self.bytes.len() };
        let places = marked.chain(since_end..self.bytes.len());
        places.map(|place| &self.bytes[place..]).filter(|bytes| !bytes.is_empty())
    }

    /// Whether what has come since the last reply is its beginning; all of it is dropped.
    fn is_echo(&mut self) -> bool {
        let Some(Echo { reply, from }) = &self.echo else {
            return false;
        };
        let back = &self.bytes[*from..];
        let (same, all) = (reply.starts_with(back), reply == back);
        if all {
            self.begin();
        } else if !same {
            self.echo = None;
        }
        same
    }
}

/// As long as a request of its function, or as a reply where it is another node's, and a right CRC.
pub fn is_whole(node: u8, frame: &[u8]) -> bool {
    let long = lengths(node, frame).contains(&Some(frame.len()));
    long && frame.len() <= FRAME && modbus::crc(frame) == 0
}

/// Fewer bytes than the longest frame that begins with them.
pub fn goes_on(node: u8, bytes: &[u8]) -> bool {
    lengths(node, bytes).into_iter().flatten().any(|length| length > bytes.len())
}

/// Function 3 or 16.
fn is_known(frame: &[u8]) -> bool {
    matches!(frame, [_, modbus::READ | modbus::WRITE, ..])
}

/// A write of one word to all; no other frame to all does anything.
fn is_word_to_all(frame: &[u8]) -> bool {
    matches!(frame, [0, modbus::WRITE, _, _, 0, 2, 4, ..])
}

/// The length of a request that begins with these bytes, and that of a reply, where there are any.
fn lengths(node: u8, bytes: &[u8]) -> [Option<usize>; 2] {
    let &[address, function, ..] = bytes else {
        return [Some(LATER), None];
    };
    let counted = |others: usize, place: usize| {
        Some(bytes.get(place).map_or(LATER, |&count| others + usize::from(count)))
    };
    let request = match function {
        1..=6 => Some(8),
        15 | 16 => counted(9, 6),
        22 => Some(10),
        23 => counted(13, 10),
        _ => None,
    };
    let reply = match function {
        1..=4 | 23 => counted(5, 2),
        5 | 6 | 15 | 16 => Some(8),
        22 => Some(10),
        128.. => Some(5),
        _ => None,
    };
    [request, reply.filter(|_| address != 0 && address != node)]
}
