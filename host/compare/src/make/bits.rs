//! Questions about bitfields, other than reading them from bytes.

use super::fields::{self, every, last_bit, ones};
use super::{ask, Made, Take};
use crate::format::{number, Held, Part};
use crate::ops::as_list;
use crate::oracle::sizes::{SIZES, TARGETS};
use crate::rng::Rng;

/// Fields are all tried up to this many bits more where an operation takes a single one.
const MORE_FOR_ONE: u64 = 3;

pub fn exhaustive(op: u32, depth: u64, rng: &mut Rng, take: Take) {
    match as_list(op) {
        10 if op == 30 => SIZES.iter().for_each(|n| take(ask(op, vec![number(*n)]))),
        10 => capacities(take),
        12 | 17 | 20 | 21 | 22 | 24 => {
            for held in (0..=depth + MORE_FOR_ONE).flat_map(|n| every(op, n)) {
                alone(op, &held, rng, take);
            }
        }
        13 | 14 | 15 | 23 => pairs(op, depth, take),
        16 => resizes(depth, take),
        _ => {
            for held in (0..=depth).flat_map(|n| every(op, n)) {
                at_each_place(op, &held, 0..=held.length + 1, take);
            }
        }
    }
}

/// The questions of an operation on one field.
fn alone(op: u32, held: &Held, rng: &mut Rng, take: Take) {
    if as_list(op) != 12 {
        return take(ask(op, vec![held.part()]));
    }
    for more in [0, 1, rng.between(2, 9)] {
        take(written(op, held, more as usize, rng));
    }
}

/// `into_bytes` with so many bytes of room more than needed, filled at random.
fn written(op: u32, held: &Held, more: usize, rng: &mut Rng) -> Made {
    let length_bit = u64::from(op == 12);
    let needed = Held::raw_bytes(held.length + length_bit);
    ask(op, vec![held.part(), rng.bytes(needed + more)])
}

fn pairs(op: u32, depth: u64, take: Take) {
    for n in 0..=depth {
        let parts: Vec<Part> = every(op, n).iter().map(Held::part).collect();
        for first in &parts {
            for second in &parts {
                take(ask(op, vec![first.clone(), second.clone()]));
            }
        }
    }
}

fn capacities(take: Take) {
    for n in SIZES {
        let mut lengths: Vec<u64> = (0..=n.min(&20) + 2).collect();
        lengths.extend([n / 2, n.saturating_sub(1), *n, n + 1, n + 8, u64::from(u32::MAX)]);
        lengths.extend([u64::MAX - 1, u64::MAX]);
        lengths.sort_unstable();
        lengths.dedup();
        for bits in lengths {
            take(ask(10, vec![number(bits), number(*n)]));
        }
    }
}

fn resizes(depth: u64, take: Take) {
    for held in (0..=depth).flat_map(|n| every(16, n)) {
        for m in TARGETS.iter().filter(|m| **m <= depth + 2) {
            take(ask(16, vec![held.part(), number(*m)]));
        }
    }
}

/// `set`, `get` and `shift_up` at these places.
fn at_each_place(op: u32, held: &Held, places: impl IntoIterator<Item = u64>, take: Take) {
    for place in places {
        if as_list(op) == 18 {
            take(ask(op, vec![held.part(), number(place), number(0)]));
            take(ask(op, vec![held.part(), number(place), number(1)]));
        } else {
            take(ask(op, vec![held.part(), number(place)]));
        }
    }
}

/// Lengths around each multiple of eight bits and of eight bytes, full and nearly empty.
pub fn limits(op: u32, rng: &mut Rng, take: Take) {
    match as_list(op) {
        10 => (),
        12 | 17 | 20 | 21 | 22 | 24 => {
            for (length, n) in fields::edges(op) {
                take(alone_at_edge(op, &ones(length, n), rng));
                take(alone_at_edge(op, &last_bit(length, n), rng));
            }
        }
        13 | 14 | 15 | 23 => {
            for (length, n) in fields::edges(op) {
                pairs_at_edge(op, length, n, take);
            }
        }
        16 => resize_limits(take),
        _ => {
            for (length, n) in fields::edges(op) {
                let last = length.saturating_sub(1);
                let far = u64::MAX - 1;
                at_each_place(op, &ones(length, n), [0, 8, last, length, length + 1, far], take);
            }
        }
    }
}

fn alone_at_edge(op: u32, held: &Held, rng: &mut Rng) -> Made {
    if as_list(op) == 12 {
        written(op, held, 0, rng)
    } else {
        ask(op, vec![held.part()])
    }
}

fn pairs_at_edge(op: u32, length: u64, n: u64, take: Take) {
    let (full, single) = (ones(length, n).part(), last_bit(length, n).part());
    take(ask(op, vec![full.clone(), single.clone()]));
    take(ask(op, vec![single, full.clone()]));
    // Only lists meet others of another length.
    if op < 30 {
        let shorter = ones(length.saturating_sub(1), n).part();
        take(ask(op, vec![full.clone(), shorter.clone()]));
        take(ask(op, vec![shorter, full]));
    }
}

fn resize_limits(take: Take) {
    for n in SIZES {
        for m in TARGETS {
            take(ask(16, vec![ones(*n, *n).part(), number(*m)]));
            take(ask(16, vec![ones(n / 2, *n).part(), number(*m)]));
        }
    }
}

pub fn random(op: u32, rng: &mut Rng) -> Made {
    let held = fields::random(op, rng);
    match as_list(op) {
        10 if op == 30 => ask(op, vec![number(held.n)]),
        10 => {
            let bits = rng.pick(&[held.length, held.n + 1 + held.length]);
            ask(op, vec![number(bits), number(held.n)])
        }
        12 => {
            let more = rng.below(12) as usize;
            written(op, &held, more, rng)
        }
        13 | 14 | 15 | 23 => {
            let second = fields::random_partner(op, &held, rng);
            ask(op, vec![held.part(), second.part()])
        }
        16 => {
            // Half of them to where a field of this size fits.
            let wide = TARGETS.iter().copied().filter(|m| *m >= held.n).collect::<Vec<u64>>();
            let m = if rng.one_in(2) { rng.pick(TARGETS) } else { rng.pick(&wide) };
            ask(op, vec![held.part(), number(m)])
        }
        18 => {
            let (place, value) = (random_place(&held, rng), rng.below(2));
            ask(op, vec![held.part(), number(place), number(value)])
        }
        19 | 25 => ask(op, vec![held.part(), number(random_place(&held, rng))]),
        _ => ask(op, vec![held.part()]),
    }
}

/// Mostly within the length, at times at its end or past it.
fn random_place(held: &Held, rng: &mut Rng) -> u64 {
    match rng.below(8) {
        0 => held.length + rng.below(4),
        1 => held.length.saturating_sub(rng.below(10)),
        2 => 8 * rng.between(0, held.length / 8),
        3 => rng.below(held.n + 10),
        4 if rng.one_in(8) => rng.next(),
        _ => rng.between(0, held.length),
    }
}
