//! The panel as a Modbus RTU slave: its start (33) and its answer to a frame (20, exceptions 1 to 3).
//! Paper 02: K2.

use crate::panel::{self, Answer, Burst, Event, State};
use crate::table::{self, slot, LoadRefusal, Table, SLOTS};

/// First register of the shown value.
pub const SHOWN: u16 = 0x1000;
/// Read holding registers, write multiple registers.
pub const READ: u8 = 3;
pub const WRITE: u8 = 16;
/// Added to the function code in an exception's reply.
pub const EXCEPTION: u8 = 0x80;

/// Why a frame gives 20.
#[derive(Clone, Copy, Debug, PartialEq, Eq)]
pub enum Fault {
    Under4,
    Over256,
    /// Function 3, not 8 bytes.
    ReadNot8,
    /// Function 16, under 9 bytes.
    WriteUnder9,
    /// Function 16, not 9 plus its byte count.
    WriteNotItsCount,
    Crc,
}

/// Why a frame is refused.
#[derive(Clone, Copy, Debug, PartialEq, Eq)]
pub enum Exception {
    Function,
    Quantity,
    ByteCount,
    Odd,
    Unmapped,
    /// A write to the shown value.
    Shown,
    /// A write that the load refuses.
    Load(LoadRefusal),
}

/// Whom a frame is for.
#[derive(Clone, Copy, Debug, PartialEq, Eq)]
pub enum Addressee {
    This,
    All,
    Other,
}

/// What became of a frame.
#[derive(Clone, Copy, Debug, PartialEq, Eq)]
pub enum Outcome {
    Broken(Fault),
    /// For another node, or for all and no write.
    Ignored(Addressee),
    Read(Place),
    Written(Addressee, usize),
    Refused(Addressee, Exception),
}

/// What stands in two registers.
#[derive(Clone, Copy, Debug, PartialEq, Eq)]
pub enum Place {
    Slot(usize),
    Shown,
}

/// The answer to one frame.
#[derive(Clone, Debug, PartialEq, Eq)]
pub struct Answered {
    /// 20 or 0.
    pub number: u8,
    /// Empty where there is no reply.
    pub reply: Vec<u8>,
    pub outcome: Outcome,
}

/// A running panel with its node address.
#[derive(Clone, Debug, PartialEq, Eq)]
pub struct Slave {
    pub node: u8,
    /// The table as it was loaded.
    loaded: [i32; SLOTS],
    pub table: Table,
    pub state: State,
}

/// What a frame asks for.
enum Request {
    Read(Place),
    Write(usize, i32),
}

/// Starts a panel; refused by 33 or by the load.
pub fn start(node: u16, words: &[i32; SLOTS]) -> Result<Slave, LoadRefusal> {
    match u8::try_from(node) {
        Ok(node @ 1..=247) => Slave::fresh(node, words),
        _ => Err(LoadRefusal { number: 33, slot: 0 }),
    }
}

impl Slave {
    fn fresh(node: u8, words: &[i32; SLOTS]) -> Result<Slave, LoadRefusal> {
        let table = table::load(words)?;
        let state = panel::fresh(&table);
        Ok(Slave { node, loaded: *words, table, state })
    }

    /// The table in force: as loaded, with the offset and the preselections of the state.
    pub fn words(&self) -> [i32; SLOTS] {
        let mut words = self.loaded;
        words[slot::OFFSET] = self.state.offset as i32;
        for (k, switch) in self.state.switches.iter().enumerate() {
            words[slot::preselection(k)] = switch.value as i32;
        }
        words
    }

    /// The table as it was loaded, resets and teaches left out.
    pub fn loaded(&self) -> &[i32; SLOTS] {
        &self.loaded
    }

    /// Takes an event.
    pub fn step(&mut self, event: Event) -> Answer {
        let (after, answer) = panel::step(&self.table, &self.state, event);
        self.state = after;
        answer
    }

    /// K5: takes a burst.
    pub fn burst(&mut self, words: &[u32]) -> Burst {
        let (after, burst) = panel::burst(&self.table, &self.state, words);
        self.state = after;
        burst
    }

    /// Takes a frame.
    pub fn answer(&mut self, frame: &[u8]) -> Answered {
        if let Some(fault) = fault(frame) {
            return Answered { number: 20, reply: Vec::new(), outcome: Outcome::Broken(fault) };
        }
        let body = &frame[1..frame.len() - 2];
        let to = match frame[0] {
            0 => Addressee::All,
            node if node == self.node => Addressee::This,
            _ => Addressee::Other,
        };
        let heard = match to {
            Addressee::This => true,
            Addressee::All => body[0] == WRITE,
            Addressee::Other => false,
        };
        if !heard {
            return Answered { number: 0, reply: Vec::new(), outcome: Outcome::Ignored(to) };
        }
        let (outcome, said) = self.serve(to, body);
        let reply = if to == Addressee::This { sealed(self.node, &said) } else { Vec::new() };
        Answered { number: 0, reply, outcome }
    }

    /// Carries out or refuses what a body asks for; what the reply says.
    fn serve(&mut self, to: Addressee, body: &[u8]) -> (Outcome, Vec<u8>) {
        match request(body).and_then(|request| self.carry_out(to, request, body)) {
            Ok(served) => served,
            Err(exception) => {
                (Outcome::Refused(to, exception), vec![body[0] | EXCEPTION, exception.code()])
            }
        }
    }

    fn carry_out(
        &mut self,
        to: Addressee,
        request: Request,
        body: &[u8],
    ) -> Result<(Outcome, Vec<u8>), Exception> {
        match request {
            Request::Read(place) => {
                let word = match place {
                    Place::Slot(slot) => self.words()[slot],
                    Place::Shown => self.state.shown as i32,
                };
                Ok((Outcome::Read(place), [&[READ, 4][..], &registers(word)].concat()))
            }
            Request::Write(slot, word) => {
                let mut words = self.words();
                words[slot] = word;
                *self = Slave::fresh(self.node, &words).map_err(Exception::Load)?;
                Ok((Outcome::Written(to, slot), body[..5].to_vec()))
            }
        }
    }
}

impl Exception {
    pub fn code(self) -> u8 {
        match self {
            Exception::Function => 1,
            Exception::Odd | Exception::Unmapped | Exception::Shown => 2,
            Exception::Quantity | Exception::ByteCount | Exception::Load(_) => 3,
        }
    }
}

/// What makes a frame 20, tested before all else.
pub fn fault(frame: &[u8]) -> Option<Fault> {
    match *frame {
        [] | [_] | [_, _] | [_, _, _] => return Some(Fault::Under4),
        _ if frame.len() > 256 => return Some(Fault::Over256),
        [_, READ, _, _, _, _, _, _] => {}
        [_, READ, ..] => return Some(Fault::ReadNot8),
        [_, WRITE, _, _, _, _, count, ref rest @ .., _, _] if rest.len() == count.into() => {}
        [_, WRITE, _, _, _, _, _, .., _, _] => return Some(Fault::WriteNotItsCount),
        [_, WRITE, ..] => return Some(Fault::WriteUnder9),
        _ => {}
    }
    let (body, seal) = frame.split_at(frame.len() - 2);
    (crc(body).to_le_bytes() != seal).then_some(Fault::Crc)
}

/// What a body, the frame without node and CRC, asks for; its length is right.
fn request(body: &[u8]) -> Result<Request, Exception> {
    match *body {
        [READ, high, low, quantity_high, quantity_low] => {
            two([quantity_high, quantity_low])?;
            Ok(Request::Read(place([high, low])?))
        }
        [WRITE, high, low, quantity_high, quantity_low, _, ref data @ ..] => {
            two([quantity_high, quantity_low])?;
            let &[c, d, a, b] = data else {
                return Err(Exception::ByteCount);
            };
            match place([high, low])? {
                Place::Slot(slot) => Ok(Request::Write(slot, i32::from_be_bytes([a, b, c, d]))),
                Place::Shown => Err(Exception::Shown),
            }
        }
        _ => Err(Exception::Function),
    }
}

/// A quantity must be 2.
fn two(quantity: [u8; 2]) -> Result<(), Exception> {
    if quantity == [0, 2] {
        Ok(())
    } else {
        Err(Exception::Quantity)
    }
}

/// What begins at a register.
fn place(register: [u8; 2]) -> Result<Place, Exception> {
    let register = u16::from_be_bytes(register);
    if register == SHOWN {
        return Ok(Place::Shown);
    }
    let of_slots = || (0..SLOTS).map(|slot| (slot, 2 * slot as u16));
    match of_slots().find(|&(_, first)| first == register) {
        Some((slot, _)) => Ok(Place::Slot(slot)),
        None if of_slots().any(|(_, first)| first + 1 == register) => Err(Exception::Odd),
        None if register == SHOWN + 1 => Err(Exception::Odd),
        None => Err(Exception::Unmapped),
    }
}

/// The first register of a place.
pub fn register(place: Place) -> u16 {
    match place {
        Place::Slot(slot) => 2 * slot as u16,
        Place::Shown => SHOWN,
    }
}

/// The four bytes of a word: low half first, each half high byte first.
pub fn registers(word: i32) -> [u8; 4] {
    let mut bytes = word.to_be_bytes();
    bytes.rotate_left(2);
    bytes
}

/// The frame of a node and a body.
pub fn sealed(node: u8, body: &[u8]) -> Vec<u8> {
    let mut frame = [&[node], body].concat();
    frame.extend(crc(&frame).to_le_bytes());
    frame
}

/// CRC-16/Modbus as a long division: the bytes' bits, lowest first, the first 16 turned over, and 16
/// zeros behind them, by x^16 + x^15 + x^2 + 1; the rest is read from its other end.
pub fn crc(bytes: &[u8]) -> u16 {
    let bits = bytes.iter().flat_map(|byte| (0..8).map(move |i| byte >> i & 1));
    let padded = bits.chain([0; 16]).enumerate();
    let rest = padded.fold(0u32, |rest, (i, bit)| {
        let bit = if i < 16 { bit ^ 1 } else { bit };
        let longer = rest << 1 | u32::from(bit);
        if longer >> 16 == 1 {
            longer ^ 0x1_8005
        } else {
            longer
        }
    });
    (rest as u16).reverse_bits()
}

/// The body of a read of two registers.
pub fn read_body(register: u16) -> Vec<u8> {
    [&[READ][..], &register.to_be_bytes(), &[0, 2]].concat()
}

/// The body of a write of a word to two registers.
pub fn write_body(register: u16, word: i32) -> Vec<u8> {
    [&[WRITE][..], &register.to_be_bytes(), &[0, 2, 4], &registers(word)].concat()
}
