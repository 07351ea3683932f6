//! K8: bit planes for the recorder. Each full group of 32 words is a table of 32 x 32 bits, a word a
//! row, and its columns are the words of the turned group.

use std::array;
use std::fmt::Write;

use crate::record::Recording;

/// Words of a full group, and bits of a word.
pub const GROUP: usize = 32;
/// The output slice is shorter than the input.
pub const SHORT: u8 = 22;

/// Lengths of the recorded lists.
pub const LENGTHS: [usize; 7] = [0, 1, 31, 32, 33, 64, 1_000];
/// What every word of a recorded slice holds before.
const BEFORE: u32 = 0xC0FF_EE00;
/// Words of a line.
const LINE: usize = 8;

/// Each full group turned, a remainder as it is.
pub fn turned(words: &[u32]) -> Vec<u32> {
    words.chunks(GROUP).flat_map(turned_group).collect()
}

/// Bit j of word i becomes bit i of word j in a full group.
fn turned_group(group: &[u32]) -> Vec<u32> {
    if group.len() < GROUP {
        return group.to_vec();
    }
    let table: Vec<[bool; GROUP]> = group.iter().map(|&word| bits(word)).collect();
    (0..GROUP).map(|j| word(array::from_fn(|i| table[i][j]))).collect()
}

/// The bits of a word, bit 0 first.
fn bits(word: u32) -> [bool; GROUP] {
    array::from_fn(|bit| word / 2_u32.pow(bit as u32) % 2 == 1)
}

/// The word of bits.
fn word(bits: [bool; GROUP]) -> u32 {
    bits.iter().rev().fold(0, |word, &bit| 2 * word + u32::from(bit))
}

/// Turns a list into the head of a slice; 22 where it is too short, and nothing is written then.
pub fn turn_into(input: &[u32], output: &mut [u32]) -> u8 {
    if output.len() < input.len() {
        return SHORT;
    }
    output[..input.len()].copy_from_slice(&turned(input));
    0
}

/// The words of bytes, 4 a word and the lowest first, turned; up to 3 left-over bytes as they are.
pub fn turned_bytes(bytes: &[u8]) -> Vec<u8> {
    let whole = bytes.len() / 4 * 4;
    [&bytes_of(&turned(&words_of(bytes))), &bytes[whole..]].concat()
}

/// The words of bytes, left-over bytes left out.
pub fn words_of(bytes: &[u8]) -> Vec<u32> {
    bytes.chunks_exact(4).map(|bytes| u32::from_le_bytes(bytes.try_into().unwrap())).collect()
}

/// The bytes of words.
pub fn bytes_of(words: &[u32]) -> Vec<u8> {
    words.iter().flat_map(|word| word.to_le_bytes()).collect()
}

/// What a program without input prints for lists of every recorded length.
pub fn recording() -> Recording {
    Recording::printed("planes", LENGTHS.into_iter().map(text).collect())
}

/// A list, what it is turned into, that turned again, and a slice that is too short.
fn text(length: usize) -> String {
    let input = list(length);
    let mut text = format!("length {length}\ninput\n{}", lines(&input));
    let (number, turned) = turned_into(&input, length + 2);
    write!(text, "turned {number}\n{}", lines(&turned)).unwrap();
    let (number, again) = turned_into(&turned[..length], length + 2);
    write!(text, "again {number}\n{}", lines(&again)).unwrap();
    if length > 0 {
        let (number, short) = turned_into(&input, length - 1);
        writeln!(text, "short {number}\n{}", kept(&short)).unwrap();
    }
    text
}

/// Number and words of a slice of so many words after a list was turned into it.
fn turned_into(input: &[u32], length: usize) -> (u8, Vec<u32>) {
    let mut output = vec![BEFORE; length];
    (turn_into(input, &mut output), output)
}

/// Whether a slice holds what it held before.
fn kept(words: &[u32]) -> String {
    match words.iter().all(|&word| word == BEFORE) {
        true => format!("{} words as they were", words.len()),
        false => "written".into(),
    }
}

/// x(1) to x(length), of x(0) = 1 and x(k + 1) = 1,664,525 x(k) + 1,013,904,223 modulo 2^32.
pub fn list(length: usize) -> Vec<u32> {
    let next = |x: &mut u32| {
        *x = x.wrapping_mul(1_664_525).wrapping_add(1_013_904_223);
        Some(*x)
    };
    (0..length).scan(1, |x, _| next(x)).collect()
}

/// Words in lines of 8.
fn lines(words: &[u32]) -> String {
    let line = |words: &[u32]| {
        let words: Vec<String> = words.iter().map(|word| format!("{word:08x}")).collect();
        words.join(" ") + "\n"
    };
    words.chunks(LINE).map(line).collect()
}
