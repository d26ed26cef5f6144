//! Questions to the encoder (operation 60), always with room enough.

use super::{ask, Made, Take};
use crate::format::{items, number, Item};
use crate::rng::Rng;

const GREATEST: u64 = u32::MAX as u64;

/// Bytes that the items take in the fixed part and in the variable part.
fn sizes(row: &[Item]) -> (usize, usize) {
    let fixed = |item: &Item| if item.fixed { item.bytes.len() } else { 4 };
    let variable = |item: &Item| if item.fixed { 0 } else { item.bytes.len() };
    (row.iter().map(fixed).sum(), row.iter().map(variable).sum())
}

/// The items with this fixed size, in buffers that have `more` bytes over what is needed.
fn asked(
    fixed_size: u64,
    row: &[Item],
    more: (usize, usize),
    filler: &mut dyn FnMut() -> u8,
) -> Made {
    let (fixed, variable) = sizes(row);
    let mut buffer = |length: usize| (0..length).map(|_| filler()).collect::<Vec<u8>>();
    let first = buffer(fixed + variable + more.0);
    let second = buffer(variable + more.1);
    ask(60, vec![number(fixed_size), items(row), first, second])
}

/// Every row of up to three items of lengths 0, 1 and 3; the fixed size right and wrong, since the
/// crate does not compare it.
pub fn exhaustive(rng: &mut Rng, take: Take) {
    for count in 0..=3_u32 {
        for choice in 0..6_usize.pow(count) {
            let kind = |at: u32| choice / 6_usize.pow(at) % 6;
            let row: Vec<Item> = (0..count).map(|at| short_item(kind(at), at as u8)).collect();
            let right = sizes(&row).0 as u64;
            for (fixed_size, more) in [(right, (0, 0)), (right + 1, (2, 0)), (0, (0, 3))] {
                take(asked(fixed_size, &row, more, &mut || rng.byte()));
            }
        }
    }
}

fn short_item(kind: usize, at: u8) -> Item {
    let length = [0, 1, 3][kind / 2];
    Item { fixed: kind % 2 == 0, bytes: (1..=length).map(|i| 16 * (at + 1) + i).collect() }
}

/// Offsets up to the greatest. The crate sets so much memory aside for the fixed part, though it
/// never touches it; where even that cannot be had these cases are left out.
pub fn limits(take: Take) {
    let empty = Item { fixed: false, bytes: vec![] };
    let long = Item { fixed: false, bytes: vec![7; 200] };
    let number = Item { fixed: true, bytes: vec![5; 8] };
    let mut rows = vec![
        (0, vec![long.clone(); 64]),
        (256, vec![long.clone(); 64]),
        (512, vec![number.clone(); 64]),
    ];
    let mut reserved: Vec<u8> = Vec::new();
    if reserved.try_reserve_exact(GREATEST as usize).is_ok() {
        rows.extend([
            (GREATEST, vec![empty.clone()]),
            (GREATEST, vec![empty.clone(), number.clone(), long.clone()]),
            (GREATEST, vec![number.clone()]),
            (GREATEST - 200, vec![long.clone(), long.clone()]),
            ((1 << 31) - 1, vec![long.clone(), empty]),
            (1 << 31, vec![number, long]),
        ]);
    } else {
        eprintln!("compare: no memory for fixed sizes near 2^32; those cases are left out");
    }
    drop(reserved);
    for (fixed_size, row) in rows {
        take(asked(fixed_size, &row, (1, 1), &mut || 0xee));
    }
}

pub fn random(rng: &mut Rng) -> Made {
    let most = if rng.one_in(20) { 64 } else { 8 };
    let longest = if rng.one_in(40) { 400 } else { 24 };
    let count = rng.between(0, most);
    let row: Vec<Item> = (0..count).map(|_| random_item(longest, rng)).collect();
    let right = sizes(&row).0 as u64;
    let fixed_size = match rng.below(8) {
        0 => right + rng.below(5),
        1 => right.saturating_sub(rng.below(5)),
        2 => rng.below(1 << 20),
        _ => right,
    };
    let more = match rng.below(3) {
        0 => (0, 0),
        1 => (rng.below(9) as usize, rng.below(9) as usize),
        _ => (rng.below(60) as usize, 0),
    };
    asked(fixed_size, &row, more, &mut || rng.byte())
}

fn random_item(longest: u64, rng: &mut Rng) -> Item {
    let length = rng.below(longest) as usize;
    Item { fixed: rng.one_in(2), bytes: rng.bytes(length) }
}
