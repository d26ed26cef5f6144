//! Questions about offsets and union bytes.

use super::{ask, Made, Take};
use crate::format::{maybe, number};
use crate::rng::Rng;

const GREATEST: u64 = u32::MAX as u64;

pub fn exhaustive(op: u32, rng: &mut Rng, take: Take) {
    match op {
        1 => read(take),
        2 => encode(take),
        3 => sanitize(take),
        _ => split(rng, take),
    }
}

pub fn random(op: u32, rng: &mut Rng) -> Made {
    match op {
        1 => {
            let length = rng.below(9) as usize;
            ask(1, vec![rng.bytes(length)])
        }
        2 => {
            let width = rng.between(1, 32);
            let length = rng.below(1 << width);
            ask(2, vec![number(length)])
        }
        3 => random_sanitize(rng),
        _ => {
            let length = rng.below(80) as usize;
            ask(4, vec![rng.bytes(length)])
        }
    }
}

fn read(take: Take) {
    take(ask(1, vec![vec![]]));
    for byte in 0..=255 {
        take(ask(1, vec![vec![byte]]));
        take(ask(1, vec![vec![byte, 0, 0, 0]]));
        take(ask(1, vec![vec![0, 0, 0, byte]]));
    }
    for length in 2..=5 {
        for choice in 0..4_usize.pow(length) {
            let digit = |at: u32| [0, 1, 0x80, 0xff][choice / 4_usize.pow(at) % 4];
            take(ask(1, vec![(0..length).map(digit).collect()]));
        }
    }
}

fn encode(take: Take) {
    for length in 0..=1_024 {
        take(ask(2, vec![number(length)]));
    }
    for power in 11..=32 {
        for length in [(1_u64 << power) - 1, 1 << power, (1 << power) + 1] {
            if length <= GREATEST {
                take(ask(2, vec![number(length)]));
            }
        }
    }
}

/// All four arguments from the same few numbers, so that every order among them comes.
fn sanitize(take: Take) {
    let sets: [&[u64]; 2] = [
        &[0, 1, 2, 3, 4, 5],
        // An expected number of 2^64 - 1 in a head is not compared, so its neighbour is here too.
        &[4, GREATEST, GREATEST + 1, u64::MAX - 1, u64::MAX],
    ];
    for values in sets {
        let some = || values.iter().copied().map(Some).chain([None]);
        for offset in values {
            for previous in some() {
                for bytes in values {
                    for fixed in some() {
                        let numbers = (number(*offset), number(*bytes));
                        let question = vec![numbers.0, maybe(previous), numbers.1, maybe(fixed)];
                        take(ask(3, question));
                    }
                }
            }
        }
    }
}

/// Numbers near each other, of any magnitude.
fn random_sanitize(rng: &mut Rng) -> Made {
    let width = rng.between(3, 64);
    let middle = rng.next() >> (64 - width);
    let mut near = || {
        let up = middle.saturating_add(rng.below(4));
        up.saturating_sub(rng.below(4))
    };
    let numbers = [near(), near(), near(), near()];
    let previous = (!rng.one_in(3)).then_some(numbers[1]);
    let fixed = (!rng.one_in(3)).then_some(numbers[3]);
    ask(3, vec![number(numbers[0]), maybe(previous), number(numbers[2]), maybe(fixed)])
}

fn split(rng: &mut Rng, take: Take) {
    take(ask(4, vec![vec![]]));
    for selector in 0..=255 {
        for length in [0, 1, 2, 31] {
            let mut bytes = vec![selector];
            bytes.extend(rng.bytes(length));
            take(ask(4, vec![bytes]));
        }
    }
}
