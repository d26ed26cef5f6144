//! Questions that read a bitfield from bytes (operations 11 and 31).

use super::fields::{self, last_bit, ones};
use super::{ask, Made, Take};
use crate::format::{number, Held};
use crate::oracle::sizes::SIZES;
use crate::rng::Rng;

/// From this depth on every string of two bytes is tried; below it those with a telling first one.
const DEPTH_FOR_ALL_PAIRS: u64 = 8;

/// The sizes at which strings of two bytes are tried: where one or two bytes are needed.
const TWO_BYTE_SIZES: &[u64] = &[0, 4, 7, 8, 9, 15, 16, 17];

pub fn exhaustive(op: u32, depth: u64, take: Take) {
    for n in SIZES {
        take(read(op, &[], *n));
        for byte in 0..=255 {
            take(read(op, &[byte], *n));
        }
    }
    let every: Vec<u8> = (0..=255).collect();
    let telling = [0, 1, 2, 8, 0x7f, 0x80, 0xfe, 0xff];
    let firsts: &[u8] = if depth < DEPTH_FOR_ALL_PAIRS { &telling } else { &every };
    for n in TWO_BYTE_SIZES {
        for first in firsts {
            for second in 0..=255 {
                take(read(op, &[*first, second], *n));
            }
        }
    }
}

fn read(op: u32, bytes: &[u8], n: u64) -> Made {
    ask(op, vec![bytes.to_vec(), number(n)])
}

/// The standard's encoding: a list has one set bit behind its last.
fn encoded(op: u32, held: &Held) -> Vec<u8> {
    let mut bytes = held.bytes.to_vec();
    if op == 31 {
        bytes.truncate(Held::raw_bytes(held.length));
        return bytes;
    }
    bytes.push(0);
    bytes.truncate(Held::raw_bytes(held.length + 1));
    bytes[(held.length / 8) as usize] |= 1 << (held.length % 8);
    bytes
}

pub fn limits(op: u32, take: Take) {
    for (length, n) in fields::edges(op) {
        for held in [ones(length, n), last_bit(length, n)] {
            let bytes = encoded(op, &held);
            take(read(op, &bytes, n));
            take(read(op, &bytes[..bytes.len() - 1], n));
            let longer: Vec<u8> = bytes.iter().copied().chain([0]).collect();
            take(read(op, &longer, n));
        }
        let mut excess = encoded(op, &ones(length, n));
        *excess.last_mut().expect("at least one byte") = 0xff;
        take(read(op, &excess, n));
    }
    over_limit(op, take);
    // More bytes than any held field has: refused by the same rules as fewer.
    for length in [256, 257, 258, 1_000] {
        take(read(op, &vec![0; length], 2_048));
        take(read(op, &vec![0xff; length], 2_048));
        take(read(op, &vec![0; length], 0));
        take(read(op, &vec![1; length], 9));
    }
    // Document 01's proved cases 9 to 12, which are lists of at most four bits.
    for bytes in [&[0x10][..], &[0x20], &[1, 0], &[0]] {
        take(read(op, bytes, 4));
    }
}

/// One bit above N, N itself, and the first bit of the byte behind.
fn over_limit(op: u32, take: Take) {
    for n in SIZES {
        for length in [*n, n + 1, (n / 8 + 1) * 8] {
            let mut bytes = vec![0; (length / 8 + 1) as usize];
            bytes[(length / 8) as usize] = 1 << (length % 8);
            take(read(op, &bytes, *n));
        }
    }
}

pub fn random(op: u32, rng: &mut Rng) -> Made {
    let held = fields::random(op, rng);
    let mut bytes = encoded(op, &held);
    match rng.below(10) {
        0 => bytes.extend(std::iter::repeat_n(0, 1 + rng.below(3) as usize)),
        1 => bytes.push(rng.byte()),
        2 => _ = bytes.pop(),
        3 => {
            let place = rng.below(bytes.len() as u64) as usize;
            bytes[place] ^= 1 << rng.below(8);
        }
        4 => {
            let length = rng.below(1 + bytes.len() as u64 + 3) as usize;
            bytes = rng.bytes(length);
        }
        5 => {
            let last = bytes.len() - 1;
            bytes[last] = rng.byte();
        }
        6 if rng.one_in(10) => {
            let length = rng.between(255, 600) as usize;
            bytes = rng.bytes(length);
        }
        _ => (),
    }
    read(op, &bytes, held.n)
}
