//! Random frames for a panel: reads and writes, refused ones, ones for others, and broken ones.

use crate::modbus::{self, Place, Slave, READ, SHOWN, WRITE};
use crate::rng::Rng;
use crate::table::{self, slot, SLOTS};

/// Tries to find a write of the wished kind.
const TRIES: usize = 60;

/// A frame, more often one that is carried out.
pub fn frame(rng: &mut Rng, slave: &Slave) -> Vec<u8> {
    match rng.weighted(&[66, 10, 8, 16]) {
        0 => modbus::sealed(slave.node, &body(rng, slave)),
        1 => modbus::sealed(0, &body(rng, slave)),
        2 => modbus::sealed(other_node(rng, slave.node), &body(rng, slave)),
        _ => broken(rng, slave),
    }
}

/// A read of a place.
pub fn read(slave: &Slave, place: Place) -> Vec<u8> {
    modbus::sealed(slave.node, &modbus::read_body(modbus::register(place)))
}

fn other_node(rng: &mut Rng, node: u8) -> u8 {
    match rng.between(1, 255) as u8 {
        other if other == node => node ^ 1,
        other => other,
    }
}

/// Function and what follows, without the CRC.
fn body(rng: &mut Rng, slave: &Slave) -> Vec<u8> {
    match rng.weighted(&[26, 10, 24, 14, 5, 6, 6, 9]) {
        0 => modbus::read_body(2 * read_slot(rng) as u16),
        1 => modbus::read_body(SHOWN),
        2 => good_write(rng, slave),
        3 => {
            let check = rng.between(2, 9) as u8;
            bad_write(rng, slave, check)
        }
        4 => unknown(rng),
        5 => wrong_quantity(rng),
        6 => wrong_register(rng),
        _ => anything(rng),
    }
}

/// Often one that resets and teaches change.
fn read_slot(rng: &mut Rng) -> usize {
    match rng.below(3) {
        0 => slot::OFFSET,
        1 => slot::preselection(rng.below(4) as usize),
        _ => rng.ends(0, SLOTS as i64 - 1) as usize,
    }
}

/// A slot and a word that keep the table loading.
fn good_write(rng: &mut Rng, slave: &Slave) -> Vec<u8> {
    let words = slave.words();
    for _ in 0..TRIES {
        let at = written_slot(rng);
        let word = near(rng, &words, at);
        if refusal(&words, at, word) == 0 {
            return modbus::write_body(2 * at as u16, word);
        }
    }
    modbus::write_body(0, words[0])
}

fn written_slot(rng: &mut Rng) -> usize {
    match rng.below(4) {
        0 => rng.pick(&[
            slot::OFFSET,
            slot::ADDITIVE,
            slot::FACTOR,
            slot::DIRECTION,
            slot::ROUND_LOOP,
            slot::FORMAT,
            slot::LINEARIZATION,
            slot::ANALOG,
        ]),
        1 => rng.between(17, 54) as usize,
        2 => slot::preselection(rng.below(4) as usize),
        _ => rng.between(0, SLOTS as i64 - 1) as usize,
    }
}

/// A word in range: the one that stands there, one next to it, an end, a small one or any.
fn near(rng: &mut Rng, words: &[i32; SLOTS], at: usize) -> i32 {
    let row = table::row(at);
    let (low, high) = (i64::from(row.low), i64::from(row.high));
    let word = match rng.below(6) {
        0 => words[at].into(),
        1 => i64::from(words[at]) + rng.between(-2, 2),
        2 => row.default.into(),
        3 => rng.between(-300, 300),
        4 => rng.ends(low, high),
        _ => i64::from(words[rng.below(SLOTS as u64) as usize]),
    };
    word.clamp(low, high) as i32
}

/// The number that the load gives with one slot changed.
fn refusal(words: &[i32; SLOTS], at: usize, word: i32) -> u8 {
    let mut words = *words;
    words[at] = word;
    table::load(&words).map_or_else(|refusal| refusal.number, |_| 0)
}

fn bad_write(rng: &mut Rng, slave: &Slave, check: u8) -> Vec<u8> {
    let words = slave.words();
    for _ in 0..TRIES {
        let (at, word) = suspect(rng, &words, check);
        if refusal(&words, at, word) == check {
            return modbus::write_body(2 * at as u16, word);
        }
    }
    let (at, word) = suspect(rng, &words, 2);
    modbus::write_body(2 * at as u16, word)
}

/// A slot and a word that a check may refuse.
fn suspect(rng: &mut Rng, words: &[i32; SLOTS], check: u8) -> (usize, i32) {
    let used = words[slot::POINTS_IN_USE] as u64;
    let at = match check {
        2 => rng.ends(0, SLOTS as i64 - 1) as usize,
        3 => rng.pick(&[slot::RESOLUTION, slot::HIGH_BIT, slot::LOW_BIT]),
        4 => rng.pick(&[slot::ERROR_BIT, slot::ERROR_BIT, slot::RESOLUTION, slot::LOW_BIT]),
        5 => rng.pick(&[slot::ANALOG_START, slot::ANALOG_END]),
        6 => match rng.below(3) {
            0 => slot::LINEARIZATION,
            1 => slot::POINTS_IN_USE,
            _ => slot::x(rng.below(used) as usize),
        },
        7 => rng.pick(&[slot::LINEARIZATION, slot::x(0), slot::y(0)]),
        8 => rng.between(49, 54) as usize,
        _ => {
            let k = rng.below(4) as usize;
            rng.pick(&[slot::target(k), slot::polarity(k)])
        }
    };
    let row = table::row(at);
    let word = match check {
        2 => rng.pick(&[row.low - 1, row.high + 1, i32::MIN, i32::MAX]),
        5 => words[slot::ANALOG_START + slot::ANALOG_END - at],
        _ => near(rng, words, at),
    };
    (at, word)
}

/// A function other than 3 and 16, with any length.
fn unknown(rng: &mut Rng) -> Vec<u8> {
    let function = match rng.below(3) {
        0 => rng.pick(&[1, 2, 4, 5, 6, 8, 15, 17, 22, 23, 43]),
        1 => rng.pick(&[0x80, 0x83, 0x90, 0xFF]),
        _ => match rng.draw() as u8 {
            READ | WRITE => 0,
            function => function,
        },
    };
    let length = match rng.weighted(&[20, 60, 15, 5]) {
        0 => 0,
        1 => 4,
        2 => rng.between(1, 12),
        _ => rng.ends(200, 252),
    };
    let mut body = vec![function];
    body.extend((0..length).map(|_| rng.pick(&[0, 1, 2, 3, 16, 255])));
    body
}

/// A quantity other than 2, or a byte count other than 4; the register may be wrong too.
fn wrong_quantity(rng: &mut Rng) -> Vec<u8> {
    let register = if rng.chance(50) { 2 * read_slot(rng) as u16 } else { bad_register(rng) };
    let [high, low] = register.to_be_bytes();
    match rng.below(3) {
        0 => {
            let [q1, q0] = quantity(rng).to_be_bytes();
            vec![READ, high, low, q1, q0]
        }
        1 => {
            let [q1, q0] = quantity(rng).to_be_bytes();
            vec![WRITE, high, low, q1, q0, 4, 0, 1, 0, 0]
        }
        _ => {
            let count = rng.pick(&[0, 1, 2, 3, 5, 6, 8, 12, 247]);
            let mut body = vec![WRITE, high, low, 0, 2, count];
            body.resize(6 + usize::from(count), 0);
            body
        }
    }
}

fn quantity(rng: &mut Rng) -> u16 {
    rng.pick(&[0, 1, 3, 4, 125, 0x0102, 0x0200, 0x8002, 0xFFFF])
}

/// Odd and unmapped registers, and a write to the shown value.
fn wrong_register(rng: &mut Rng) -> Vec<u8> {
    match rng.below(4) {
        0 => modbus::write_body(SHOWN, rng.between(-9, 9) as i32),
        1 => modbus::write_body(bad_register(rng), 0),
        _ => modbus::read_body(bad_register(rng)),
    }
}

fn bad_register(rng: &mut Rng) -> u16 {
    let odd = 2 * rng.ends(0, SLOTS as i64 - 1) as u16 + 1;
    let known = [208, 209, 210, 255, 256, 0x0FFE, 0x0FFF, 0x1001, 0x1002, 0x1003, 0x8000, 0xFFFF];
    match rng.below(5) {
        0 | 1 => odd,
        2 => rng.between(208, 0x0FFF) as u16,
        _ => rng.pick(&known),
    }
}

/// Each part right or wrong by itself, the lengths right.
fn anything(rng: &mut Rng) -> Vec<u8> {
    let function = rng.pick(&[READ, READ, WRITE, WRITE, WRITE, 6, 0x83]);
    let register = match rng.below(3) {
        0 => 2 * read_slot(rng) as u16,
        1 => bad_register(rng),
        _ => SHOWN,
    };
    let quantity = if rng.chance(50) { 2 } else { quantity(rng) };
    let mut body = vec![function];
    body.extend(register.to_be_bytes());
    body.extend(quantity.to_be_bytes());
    if function == WRITE {
        let count = rng.pick(&[4, 4, 2, 0, 8]);
        body.push(count);
        body.extend((0..count).map(|_| rng.pick(&[0, 0, 1, 255])));
    }
    body
}

/// A frame of any node, spoiled so that it gives 20 unless chance mends it.
fn broken(rng: &mut Rng, slave: &Slave) -> Vec<u8> {
    let node = if rng.chance(70) { slave.node } else { rng.pick(&[0, 0, slave.node ^ 1, 255]) };
    let body = if rng.chance(60) { good_write(rng, slave) } else { body(rng, slave) };
    let good = modbus::sealed(node, &body);
    match rng.weighted(&[40, 35, 8, 12, 5]) {
        0 => wrong_crc(rng, good),
        1 => wrong_length(rng, node, body),
        2 => over_long(rng, node, body),
        3 => short(rng, node, &good),
        _ => (0..rng.between(4, 20)).map(|_| rng.draw() as u8).collect(),
    }
}

/// A bit turned over, the CRC's bytes swapped, the CRC begun at 0, or any CRC.
fn wrong_crc(rng: &mut Rng, mut frame: Vec<u8>) -> Vec<u8> {
    let end = frame.len() - 2;
    match rng.below(5) {
        0 | 1 => {
            let at = rng.below(frame.len() as u64) as usize;
            frame[at] ^= 1 << rng.below(8);
        }
        2 => frame.swap(end, end + 1),
        3 => {
            let crc = crc_from_0(&frame[..end]).to_le_bytes();
            frame[end..].copy_from_slice(&crc);
        }
        _ => {
            let any = rng.draw().to_le_bytes();
            frame[end..].copy_from_slice(&any[..2]);
        }
    }
    frame
}

fn crc_from_0(bytes: &[u8]) -> u16 {
    bytes.iter().fold(0, |crc: u16, &byte| {
        let turned = |crc: u16, _| crc >> 1 ^ if crc & 1 == 1 { 0xA001 } else { 0 };
        (0..8).fold(crc ^ u16::from(byte), turned)
    })
}

/// Bytes too many or too few, with the CRC over them or as it was, or a byte count that lies.
fn wrong_length(rng: &mut Rng, node: u8, mut body: Vec<u8>) -> Vec<u8> {
    let mut frame = modbus::sealed(node, &body);
    match rng.below(5) {
        0 => {
            body.truncate(rng.between(1, body.len() as i64) as usize);
            return modbus::sealed(node, &body);
        }
        1 => {
            body.extend((0..rng.between(1, 9)).map(|_| rng.pick(&[0, 1, 255])));
            return modbus::sealed(node, &body);
        }
        2 if body[0] == WRITE && body.len() > 5 => {
            body[5] = rng.pick(&[0, 1, 3, 5, 6, 247, 248, 255]);
            return modbus::sealed(node, &body);
        }
        3 => frame.truncate(rng.between(0, frame.len() as i64 - 1) as usize),
        _ => frame.extend((0..rng.between(1, 4)).map(|_| rng.pick(&[0, 1, 255]))),
    }
    frame
}

/// 257 to 300 bytes, with a right CRC; often a write whose byte count is right as far as it can be.
fn over_long(rng: &mut Rng, node: u8, mut body: Vec<u8>) -> Vec<u8> {
    let length = rng.ends(254, 297) as usize;
    if rng.chance(40) {
        body = vec![WRITE, 0, 10, 0, 2, (length - 6).min(255) as u8];
    }
    body.resize(length, 0);
    modbus::sealed(node, &body)
}

/// 0 to 3 bytes; 3 with a right CRC at times.
fn short(rng: &mut Rng, node: u8, good: &[u8]) -> Vec<u8> {
    match rng.below(4) {
        0 => modbus::sealed(node, &[]),
        length => good[..length as usize - 1].to_vec(),
    }
}
