//! Modbus RTU by paper 02, K2: start, frames, order of tests, exceptions, broadcasts and writes.

mod common;

use common::*;
use model::modbus::{self, Slave};
use model::panel;
use model::table::{self, LoadRefusal};

/// A panel of node 1, binary, with some slots set.
fn slave(slots: &[(usize, i32)]) -> Slave {
    modbus::start(1, &words(slots)).unwrap()
}

/// A frame with its CRC.
fn frame(bytes: &[u8]) -> Vec<u8> {
    modbus::sealed(bytes[0], &bytes[1..])
}

/// The reply's bytes without the CRC, which is checked; none where there is no reply.
fn reply(slave: &mut Slave, bytes: &[u8]) -> Vec<u8> {
    let answered = slave.answer(&frame(bytes));
    assert_eq!(answered.number, 0);
    unsealed(answered.reply)
}

fn unsealed(mut reply: Vec<u8>) -> Vec<u8> {
    if let Some(length) = reply.len().checked_sub(2) {
        assert_eq!(modbus::crc(&reply), 0);
        reply.truncate(length);
    }
    reply
}

fn read(slave: &mut Slave, register: u16) -> Vec<u8> {
    let [high, low] = register.to_be_bytes();
    reply(slave, &[1, 3, high, low, 0, 2])
}

/// The bytes of a write to a node.
fn write(node: u8, register: u16, word: i32) -> Vec<u8> {
    let [r1, r0] = register.to_be_bytes();
    let [h1, h0, l1, l0] = word.to_be_bytes();
    vec![node, 16, r1, r0, 0, 2, 4, l1, l0, h1, h0]
}

/// Number 20, no reply, and nothing changes.
fn assert_broken(slave: &mut Slave, bytes: &[u8]) {
    let before = slave.clone();
    let answered = slave.answer(bytes);
    assert_eq!((answered.number, answered.reply.len()), (20, 0), "{bytes:02X?}");
    assert_eq!(*slave, before);
}

/// An exception, with nothing changed.
fn assert_exception(slave: &mut Slave, bytes: &[u8], code: u8) {
    let before = slave.clone();
    assert_eq!(reply(slave, bytes), [1, bytes[1] | 0x80, code], "{bytes:02X?}");
    assert_eq!(*slave, before);
}

// CRC

#[test]
fn crc_of_known_bytes() {
    assert_eq!(modbus::crc(b"123456789"), 0x4B37);
    assert_eq!(modbus::crc(&[]), 0xFFFF);
    assert_eq!(modbus::crc(&[0]), 0x40BF);
    assert_eq!(modbus::crc(&[0xFF, 0xFF]), 0);
    assert_eq!(frame(&[1, 3, 0, 0, 0, 2]), [1, 3, 0, 0, 0, 2, 0xC4, 0x0B]);
    // The example of the public document's write, function 16.
    let write = frame(&[0x11, 0x10, 0, 1, 0, 2, 4, 0, 0x0A, 1, 2]);
    assert_eq!(write[11..], [0xC6, 0xF0]);
}

#[test]
fn crc_as_the_public_document_has_it() {
    let by_register = |bytes: &[u8]| {
        bytes.iter().fold(0xFFFF, |crc: u16, &byte| {
            (0..8).fold(crc ^ u16::from(byte), |crc, _| {
                crc >> 1 ^ if crc & 1 == 1 { 0xA001 } else { 0 }
            })
        })
    };
    let bytes: Vec<u8> = (0..=255).map(|i: u8| i.wrapping_mul(151) ^ 0x5A).collect();
    for length in 0..=bytes.len() {
        assert_eq!(modbus::crc(&bytes[..length]), by_register(&bytes[..length]));
    }
}

// Start

#[test]
fn node_address_is_1_to_247() {
    let started = |node| modbus::start(node, &table::defaults()).map(|slave| slave.node);
    assert_eq!(started(1), Ok(1));
    assert_eq!(started(247), Ok(247));
    for node in [0, 248, 255, 256, 257, 65_535] {
        assert_eq!(started(node), Err(LoadRefusal { number: 33, slot: 0 }));
    }
}

#[test]
fn node_address_is_tested_before_the_load() {
    let bad = words(&[(17, i32::MAX)]);
    assert_eq!(modbus::start(0, &bad), Err(LoadRefusal { number: 33, slot: 0 }));
    assert_eq!(modbus::start(1, &bad), Err(LoadRefusal { number: 2, slot: 17 }));
}

// 20

#[test]
fn frames_under_4_and_over_256_bytes() {
    let mut slave = slave(&[]);
    assert_broken(&mut slave, &[]);
    assert_broken(&mut slave, &[1]);
    assert_broken(&mut slave, &frame(&[1]));
    assert_exception(&mut slave, &[1, 7], 1);
    let mut long = vec![1, 7];
    long.resize(254, 0);
    assert_exception(&mut slave, &long, 1);
    long.push(0);
    assert_broken(&mut slave, &frame(&long));
}

#[test]
fn function_3_has_8_bytes() {
    let mut slave = slave(&[]);
    assert_broken(&mut slave, &frame(&[1, 3]));
    assert_broken(&mut slave, &frame(&[1, 3, 0, 0, 0]));
    assert_broken(&mut slave, &frame(&[1, 3, 0, 0, 0, 2, 0]));
    assert_broken(&mut slave, &frame(&[[1, 3, 0, 0, 0, 2].as_slice(), &[0; 248]].concat()));
}

#[test]
fn function_16_has_9_and_its_byte_count() {
    let mut slave = slave(&[]);
    let good = write(1, 10, 7);
    assert_broken(&mut slave, &frame(&[1, 16]));
    assert_broken(&mut slave, &frame(&[1, 16, 0, 10, 0, 2]));
    assert_broken(&mut slave, &frame(&good[..10]));
    assert_broken(&mut slave, &frame(&[&good[..], &[0]].concat()));
    assert_broken(&mut slave, &frame(&[1, 16, 0, 10, 0, 2, 5, 0, 7, 0, 0]));
    assert_exception(&mut slave, &[1, 16, 0, 10, 0, 2, 0], 3);
    assert_eq!(reply(&mut slave, &good), good[..6]);
}

#[test]
fn wrong_crc_is_20_for_every_node() {
    let mut slave = slave(&[]);
    for node in [0, 1, 2] {
        let mut bytes = frame(&[node, 3, 0, 0, 0, 2]);
        bytes[7] ^= 1;
        assert_broken(&mut slave, &bytes);
        let swapped = [&bytes[..6], &[0x0B, 0xC4]].concat();
        assert_broken(&mut slave, &swapped);
    }
}

#[test]
fn each_changed_byte_is_20() {
    let mut slave = slave(&[]);
    let good = frame(&write(1, 10, 7));
    for place in 0..good.len() {
        for change in 1..=255 {
            let mut bytes = good.clone();
            bytes[place] ^= change;
            assert_broken(&mut slave, &bytes);
        }
    }
}

#[test]
fn lengths_are_tested_before_the_address() {
    let mut slave = slave(&[]);
    assert_broken(&mut slave, &frame(&[9, 3, 0, 0]));
    assert_broken(&mut slave, &frame(&[0, 16, 0, 0]));
}

// Reads

#[test]
fn every_slot_is_read_as_it_was_set() {
    let mut slave = slave(&[(5, -2), (12, 0x0123_4567)]);
    assert_eq!(read(&mut slave, 10), [1, 3, 4, 0xFF, 0xFE, 0xFF, 0xFF]);
    assert_eq!(read(&mut slave, 24), [1, 3, 4, 0x45, 0x67, 0x01, 0x23]);
    for slot in 0..104 {
        let [h1, h0, l1, l0] = slave.words()[slot].to_be_bytes();
        assert_eq!(read(&mut slave, 2 * slot as u16), [1, 3, 4, l1, l0, h1, h0]);
    }
}

#[test]
fn resets_and_teaches_are_read_back() {
    let mut slave = slave(&[(49, 1), (51, 7)]);
    slave.step(Telegram(1_234));
    slave.step(Levels(2));
    assert_eq!(read(&mut slave, 66), [1, 3, 4, 0x04, 0xD2, 0, 0]);
    slave.step(Levels(3));
    assert_eq!(read(&mut slave, 10), [1, 3, 4, 0x04, 0xD2, 0, 0]);
    assert_eq!(read(&mut slave, 34), [1, 3, 4, 0x03, 0xE8, 0, 0]);
}

#[test]
fn shown_value_and_freeze() {
    let mut slave = slave(&[(5, 10), (49, 2), (50, 1)]);
    assert_eq!(read(&mut slave, 0x1000), [1, 3, 4, 0, 0, 0, 0]);
    slave.step(Telegram(7));
    assert_eq!(read(&mut slave, 0x1000), [1, 3, 4, 0xFF, 0xFD, 0xFF, 0xFF]);
    slave.step(Levels(1));
    slave.step(Telegram(30));
    assert_eq!(read(&mut slave, 0x1000), [1, 3, 4, 0xFF, 0xFD, 0xFF, 0xFF]);
    slave.step(Levels(0));
    assert_eq!(read(&mut slave, 0x1000), [1, 3, 4, 0, 20, 0, 0]);
}

// Exceptions and their order

#[test]
fn unknown_functions_are_exception_1() {
    let mut slave = slave(&[]);
    for function in (0..=255).filter(|function| ![3, 16].contains(function)) {
        assert_exception(&mut slave, &[1, function], 1);
        assert_exception(&mut slave, &[1, function, 0, 1, 0, 9], 1);
    }
}

#[test]
fn quantity_and_byte_count_come_before_the_register() {
    let mut slave = slave(&[]);
    for quantity in [0, 1, 3, 4, 125, 0x0200, 0x0202, 0xFFFF_u16] {
        let [high, low] = quantity.to_be_bytes();
        assert_exception(&mut slave, &[1, 3, 0, 0, high, low], 3);
        assert_exception(&mut slave, &[1, 3, 0, 1, high, low], 3);
        assert_exception(&mut slave, &[1, 16, 0x10, 0, high, low, 4, 0, 0, 0, 0], 3);
    }
    assert_exception(&mut slave, &[1, 16, 0xFF, 0xFF, 0, 2, 2, 0, 0], 3);
    assert_exception(&mut slave, &[1, 16, 0, 0, 0, 2, 6, 0, 0, 0, 0, 0, 0], 3);
    // The register comes before the load: out of range and odd.
    assert_exception(&mut slave, &write(1, 1, 99), 2);
}

#[test]
fn registers_that_are_not_mapped() {
    let mut slave = slave(&[]);
    let unmapped = [1, 3, 205, 207, 208, 209, 0x0FFE, 0x0FFF, 0x1001, 0x1002, 0x1003, 0xFFFF];
    for register in unmapped {
        let [high, low] = u16::to_be_bytes(register);
        assert_exception(&mut slave, &[1, 3, high, low, 0, 2], 2);
        assert_exception(&mut slave, &write(1, register, 0), 2);
    }
    assert_exception(&mut slave, &write(1, 0x1000, 0), 2);
    assert_eq!(read(&mut slave, 206), [1, 3, 4, 0, 0, 0, 0]);
}

// Writes

/// Slots set before, slot and word of the write, the check that refuses it.
type Refused<'a> = (&'a [(usize, i32)], usize, i32, u8);

#[test]
fn each_load_check_refuses_a_write() {
    // 6: used x 0 and 0. 7: rising, but the first point is not (0, 0).
    let rising = [(55, 2), (56, 5), (58, 9)];
    let cases: [Refused; 8] = [
        (&[], 0, 33, 2),
        (&[], 4, 26, 3),
        (&[], 8, 25, 4),
        (&[], 16, 0, 5),
        (&[], 13, 2, 6),
        (&rising, 13, 1, 7),
        (&[], 51, 2, 8),
        (&[(21, 2)], 22, 1, 9),
    ];
    for (slots, slot, word, number) in cases {
        let mut slave = slave(slots);
        let mut changed = slave.words();
        changed[slot] = word;
        assert_eq!(table::load(&changed).unwrap_err().number, number);
        slave.step(Telegram(55));
        assert_exception(&mut slave, &write(1, 2 * slot as u16, word), 3);
        assert_eq!(slave.state.result, 55);
    }
}

#[test]
fn write_starts_afresh_and_keeps_resets_and_teaches() {
    let mut slave = slave(&[(49, 1), (51, 5)]);
    slave.step(Telegram(700));
    slave.step(Levels(2));
    slave.step(Levels(3));
    assert_eq!(reply(&mut slave, &write(1, 24, -5)), [1, 16, 0, 24, 0, 2]);
    assert_eq!(slave.state, panel::fresh(&slave.table));
    let expected = words(&[(49, 1), (51, 5), (5, 700), (17, 700), (12, -5)]);
    assert_eq!(slave.words(), expected);
    // Levels are low again: input 1 rises, and there is no telegram.
    assert_eq!(slave.step(Levels(1)).note, 13);
    assert_eq!(slave.step(Telegram(710)).result, 5);
}

#[test]
fn write_of_what_stands_there_starts_afresh() {
    let mut slave = slave(&[]);
    slave.step(Telegram(700));
    reply(&mut slave, &write(1, 0, 25));
    assert_eq!(slave.state, panel::fresh(&slave.table));
}

#[test]
fn write_is_checked_with_the_ones_before_it() {
    // Analog start 5: end 5 is refused until start is another.
    let mut slave = slave(&[(15, 5)]);
    assert_exception(&mut slave, &write(1, 32, 5), 3);
    assert_eq!(reply(&mut slave, &write(1, 30, 6)), [1, 16, 0, 30, 0, 2]);
    assert_eq!(reply(&mut slave, &write(1, 32, 5)), [1, 16, 0, 32, 0, 2]);
}

// Other nodes and broadcasts

#[test]
fn another_node_changes_nothing() {
    let mut slave = slave(&[]);
    let before = slave.clone();
    for node in [2, 247, 248, 255] {
        assert_eq!(reply(&mut slave, &[node, 3, 0, 0, 0, 2]), []);
        assert_eq!(reply(&mut slave, &[node, 99, 0, 0]), []);
        assert_eq!(reply(&mut slave, &write(node, 10, 7)), []);
        assert_eq!(slave, before);
    }
}

#[test]
fn broadcasts_write_without_a_reply() {
    let mut slave = slave(&[]);
    slave.step(Telegram(700));
    let before = slave.clone();
    let ignored: [&[u8]; 3] = [&[0, 3, 0, 0, 0, 2], &[0, 6, 0, 0, 0, 2], &[0, 0x90]];
    let refused = [write(0, 0, 33), write(0, 1, 33), write(0, 0x1000, 0)];
    for bytes in ignored.into_iter().chain(refused.iter().map(|bytes| &bytes[..])) {
        assert_eq!(reply(&mut slave, bytes), []);
        assert_eq!(slave, before);
    }
    assert_eq!(reply(&mut slave, &write(0, 10, 7)), []);
    assert_eq!(slave.words()[5], 7);
    assert_eq!(slave.state, panel::fresh(&slave.table));
}
