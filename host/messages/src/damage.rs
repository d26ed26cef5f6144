//! What is made of a valid message: each offset and each selector set to other values, bytes
//! changed, the message cut at every length, extended, two of these at a time, bytes put in and
//! taken out, and bytes at random.

use crate::rng::Rng;
use cartwhisker::{owners, Layout, Part};

/// A message of up to so many bytes is damaged at every byte, a longer one at some.
const EVERY: usize = 160;

pub fn of(layout: &Layout, valid: &[u8], rng: &mut Rng, take: &mut dyn FnMut(&[u8])) {
    let found = owners(layout, valid).expect("a valid message");
    let mut bytes = valid.to_vec();
    let places = |part: Part| {
        let owners = found.iter().filter(move |owner| owner.part == part);
        owners.map(|owner| owner.start as usize).collect::<Vec<usize>>()
    };
    let offsets = places(Part::Offset);
    let mut before = None;
    for (i, at) in offsets.iter().enumerate() {
        let value = word(valid, *at);
        let length = valid.len() as u32;
        let next = offsets.get(i + 1).map_or(length, |next| word(valid, *next));
        let near = [value.wrapping_sub(1), value.wrapping_add(1), length, length + 1, length - 1];
        let others = [0, 1, 4, u32::MAX, 1 << 31, next, next.wrapping_add(1)];
        let random = [rng.below(u64::from(length) + 2) as u32, rng.next() as u32];
        let earlier: Option<u32> = before;
        let fallen = earlier.map(|before| [before, before.wrapping_sub(1)]);
        for other in
            near.into_iter().chain(others).chain(random).chain(fallen.into_iter().flatten())
        {
            set_word(&mut bytes, *at, other);
            take(&bytes);
        }
        set_word(&mut bytes, *at, value);
        before = Some(value);
    }
    // Two offsets at a time.
    for _ in 0..offsets.len().min(12) {
        let (first, second) = (rng.pick(&offsets), rng.pick(&offsets));
        let most = valid.len() as u64 + 2;
        set_word(&mut bytes, first, rng.below(most) as u32);
        set_word(&mut bytes, second, rng.below(most) as u32);
        take(&bytes);
        bytes.copy_from_slice(valid);
    }
    // An offset and a byte: which fault comes first?
    for _ in 0..offsets.len().min(6) {
        let at = rng.pick(&offsets);
        set_word(&mut bytes, at, rng.below(valid.len() as u64 + 2) as u32);
        bytes[rng.below(valid.len() as u64) as usize] = rng.pick(&[0, 2, 0x80, 0xff]);
        take(&bytes);
        bytes.copy_from_slice(valid);
    }
    for at in places(Part::Selector) {
        for selector in [0, 1, 2, 3, 4, 9, 10, 127, 128, 255, rng.byte()] {
            bytes[at] = selector;
            take(&bytes);
        }
        bytes[at] = valid[at];
    }
    for at in positions(valid.len(), rng) {
        let byte = valid[at];
        for other in [rng.byte(), byte ^ 1 << rng.below(8), rng.pick(&[0, 1, 0x80, 0xff])] {
            bytes[at] = other;
            take(&bytes);
        }
        bytes[at] = byte;
    }
    for length in positions(valid.len(), rng) {
        take(&valid[..length]);
    }
    for more in 1..=9 {
        bytes.push(if more % 3 == 0 { 0 } else { rng.byte() });
        take(&bytes);
    }
    // A byte changed in a message of another length: which fault comes first?
    for at in positions(valid.len(), rng).into_iter().take(4) {
        let length = rng.between(at as u64 + 1, valid.len() as u64 + 9) as usize;
        let (byte, longer) = (bytes[at], &mut bytes[..length]);
        longer[at] = rng.pick(&[2, 0x80, 0xff]);
        take(longer);
        longer[at] = byte;
    }
    for at in positions(valid.len(), rng).into_iter().take(24) {
        let with = [&valid[..at], &[rng.byte()], &valid[at..]].concat();
        take(&with);
        let without = [&valid[..at], &valid[at + 1..]].concat();
        take(&without);
    }
    for _ in 0..8 {
        let length = rng.below(valid.len() as u64 + 8) as usize;
        take(&rng.bytes(length));
        // Small numbers: now and then they make offsets that are right.
        let few = [0, 0, 0, 1, 2, 4, 8, length.min(255) as u8];
        let small: Vec<u8> = (0..length).map(|_| rng.pick(&few)).collect();
        take(&small);
    }
}

/// All places below the length, or some of them.
fn positions(length: usize, rng: &mut Rng) -> Vec<usize> {
    if length <= EVERY {
        (0..length).collect()
    } else {
        (0..EVERY).map(|_| rng.below(length as u64) as usize).collect()
    }
}

fn word(bytes: &[u8], at: usize) -> u32 {
    u32::from_le_bytes(bytes[at..at + 4].try_into().expect("four bytes"))
}

fn set_word(bytes: &mut [u8], at: usize, word: u32) {
    bytes[at..at + 4].copy_from_slice(&word.to_le_bytes());
}
