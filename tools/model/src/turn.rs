//! K8: plain turning to time, and copying beside it.

use std::hint::black_box;

use crate::planes::{self, GROUP, SHORT};

/// Most words that are timed.
pub const WORDS: usize = 4_096;

/// Turns a list into the head of a slice, each full group by five rounds of exchanges.
pub fn turn(input: &[u32], output: &mut [u32]) -> u8 {
    if output.len() < input.len() {
        return SHORT;
    }
    for (group, turned) in input.chunks_exact(GROUP).zip(output.chunks_exact_mut(GROUP)) {
        let mut group = group.try_into().unwrap();
        exchange::<16, 0x0000_FFFF>(&mut group);
        exchange::<8, 0x00FF_00FF>(&mut group);
        exchange::<4, 0x0F0F_0F0F>(&mut group);
        exchange::<2, 0x3333_3333>(&mut group);
        exchange::<1, 0x5555_5555>(&mut group);
        turned.copy_from_slice(&group);
    }
    let full = input.len() / GROUP * GROUP;
    output[full..input.len()].copy_from_slice(&input[full..]);
    0
}

/// In squares of 2 x WIDTH, exchanges the upper bits of the lower words and the lower bits of the
/// upper words.
#[inline(always)]
fn exchange<const WIDTH: usize, const MASK: u32>(group: &mut [u32; GROUP]) {
    for square in group.chunks_exact_mut(2 * WIDTH) {
        let (lower, upper) = square.split_at_mut(WIDTH);
        for (low, high) in lower.iter_mut().zip(upper) {
            let both = (*low >> WIDTH ^ *high) & MASK;
            *low ^= both << WIDTH;
            *high ^= both;
        }
    }
}

/// Turns the words of an input forth and back again and again; a sum over the turned words and the
/// last two numbers.
pub fn sum(input: &[u8], rounds: u64) -> u64 {
    sum_by(input, rounds, turn)
}

/// The same by copying.
pub fn sum_of_copies(input: &[u8], rounds: u64) -> u64 {
    sum_by(input, rounds, |input, output| {
        output.copy_from_slice(input);
        0
    })
}

#[inline]
fn sum_by(input: &[u8], rounds: u64, by: impl Fn(&[u32], &mut [u32]) -> u8) -> u64 {
    let mut x = planes::words_of(input);
    x.truncate(WORDS);
    let mut y = vec![0; x.len()];
    let mut numbers = 0;
    for _ in 0..rounds {
        numbers = by(&x, black_box(&mut y)) + by(&y, black_box(&mut x));
    }
    let add = |sum: u64, part: u64| sum.wrapping_mul(31).wrapping_add(part);
    add(y.iter().fold(0, |sum, &word| add(sum, word.into())), numbers.into())
}
