//! Held bitfields that calls of the crate could have given.

use crate::format::{Held, HELD_BYTES};
use crate::ops::is_vector;
use crate::oracle::sizes::SIZES;
use crate::rng::Rng;

/// Every field of the operation's family with this N.
pub fn every(op: u32, n: u64) -> Vec<Held> {
    let lengths = if is_vector(op) { n..=n } else { 0..=n };
    let mut found = Vec::new();
    for length in lengths {
        for pattern in 0_u64..1 << length {
            let mut held = Held::zero(length, n);
            held.bytes[..8].copy_from_slice(&pattern.to_le_bytes());
            found.push(held);
        }
    }
    found
}

pub fn ones(length: u64, n: u64) -> Held {
    let mut held = Held::zero(length, n);
    held.bytes = [0xff; HELD_BYTES];
    cut(held)
}

/// Only the last bit set, if there is one.
pub fn last_bit(length: u64, n: u64) -> Held {
    let bits: Vec<u64> = length.checked_sub(1).into_iter().collect();
    Held::zero(length, n).with_bits(&bits)
}

/// The field with the bits past its end cleared.
fn cut(mut held: Held) -> Held {
    let (whole, odd) = ((held.length / 8) as usize, held.length % 8);
    if whole < HELD_BYTES {
        held.bytes[whole] &= (1_u8 << odd) - 1;
        held.bytes[whole + 1..].fill(0);
    }
    held
}

/// Lengths at which a byte or a word of eight bytes begins or ends, with the N that they have.
pub fn edges(op: u32) -> Vec<(u64, u64)> {
    if is_vector(op) {
        let long = SIZES.iter().filter(|n| **n > 20);
        return long.map(|n| (*n, *n)).collect();
    }
    let around = |step: u64, last: u64| {
        let middles = (1..=last / step).map(move |k| k * step);
        middles.flat_map(|middle| [middle - 1, middle, middle + 1])
    };
    let mut lengths: Vec<u64> = around(8, 136).chain(around(64, 2_048)).collect();
    lengths.retain(|length| *length <= 2_048);
    lengths.sort_unstable();
    lengths.dedup();
    lengths.into_iter().map(|length| (length, 2_048)).collect()
}

/// A length of at most `n`, often at an edge.
fn random_length(rng: &mut Rng, n: u64) -> u64 {
    match rng.below(6) {
        0 => n,
        1 => n.saturating_sub(rng.below(10)),
        2 => rng.between(0, n.min(20)),
        3 => (8 * rng.between(0, n / 8) + rng.below(3)).saturating_sub(1).min(n),
        _ => rng.between(0, n),
    }
}

/// Small sizes and large ones equally often.
pub fn random_size(rng: &mut Rng) -> u64 {
    if rng.one_in(2) {
        rng.pick(&SIZES[..21])
    } else {
        rng.pick(SIZES)
    }
}

pub fn random_of_size(op: u32, n: u64, rng: &mut Rng) -> Held {
    let length = if is_vector(op) { n } else { random_length(rng, n) };
    let mut held = Held::zero(length, n);
    match rng.below(8) {
        0 => (),
        1 => return ones(length, n),
        2 => return last_bit(length, n),
        3 if length > 0 => return held.with_bits(&[rng.below(length)]),
        4 => held.bytes.fill_with(|| rng.byte() & rng.byte() & rng.byte()),
        5 => held.bytes.fill_with(|| rng.byte() | rng.byte() | rng.byte()),
        _ => held.bytes.fill_with(|| rng.byte()),
    }
    cut(held)
}

pub fn random(op: u32, rng: &mut Rng) -> Held {
    let n = random_size(rng);
    random_of_size(op, n, rng)
}

/// A second field, often one that holds the first, is held by it or is equal to it: two unlike
/// random fields are hardly ever subsets.
pub fn random_partner(op: u32, first: &Held, rng: &mut Rng) -> Held {
    let other = random_of_size(op, first.n, rng);
    let mut partner = other.clone();
    match rng.below(4) {
        0 => return other,
        1 => {
            for (byte, own) in partner.bytes.iter_mut().zip(first.bytes) {
                *byte &= own;
            }
        }
        2 => {
            for (byte, own) in partner.bytes.iter_mut().zip(first.bytes) {
                *byte |= own;
            }
        }
        _ => partner.bytes = first.bytes,
    }
    cut(partner)
}
