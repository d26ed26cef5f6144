//! A modest part of the cases, to be kept in the repository and replayed where no crate is at hand.
//!
//! Every operation gets the same share of the bytes. Within it cases are picked in turn from
//! groups: limits, short ones, random ones, each split by the answer's number and by whether the
//! first result is zero, so that a rare refusal or answer is not crowded out by the common ones.

use crate::format::Case;
use crate::make;
use crate::rng::Rng;
use std::collections::BTreeMap;

const DEPTH: u64 = 3;
const RANDOM_CASES: usize = 400;

/// Which maker a case came from.
#[derive(Clone, Copy, PartialEq, Eq, PartialOrd, Ord)]
enum Stage {
    Limit,
    Short,
    Random,
}

type Group = (Stage, u64, bool);

fn candidates(op: u32, seed: u64) -> Vec<(Stage, Case)> {
    let mut rng = Rng::for_op(seed, op);
    let mut found = Vec::new();
    make::limits(op, &mut rng, &mut |made| found.push((Stage::Limit, made.case())));
    make::exhaustive(op, DEPTH, &mut rng, &mut |made| found.push((Stage::Short, made.case())));
    for _ in 0..RANDOM_CASES {
        found.push((Stage::Random, make::random(op, &mut rng).case()));
    }
    found
}

/// The operation's cases that fit into so many bytes, in the order in which they were made.
pub fn of_operation(op: u32, seed: u64, bytes: usize) -> Vec<Case> {
    let candidates = candidates(op, seed);
    let mut groups: BTreeMap<Group, Vec<usize>> = BTreeMap::new();
    for (place, (stage, case)) in candidates.iter().enumerate() {
        let zero = case.results[0].iter().all(|byte| *byte == 0);
        groups.entry((*stage, case.head.number, zero)).or_default().push(place);
    }
    // Taken from the end: limits keep their order, so the greatest come first; others are mixed.
    let mut rng = Rng::for_op(seed, op);
    for ((stage, ..), places) in &mut groups {
        if *stage != Stage::Limit {
            shuffle(places, &mut rng);
        }
    }
    let sizes: Vec<usize> = candidates.iter().map(|(_, case)| case.record().len()).collect();
    let mut chosen = picked(groups.into_values().collect(), &sizes, bytes);
    chosen.sort_unstable();
    let mut cases: Vec<Option<Case>> = candidates.into_iter().map(|(_, case)| Some(case)).collect();
    chosen.into_iter().filter_map(|place| cases[place].take()).collect()
}

/// One of each group in turn, until nothing more fits.
fn picked(mut groups: Vec<Vec<usize>>, sizes: &[usize], bytes: usize) -> Vec<usize> {
    let mut room = bytes;
    let mut chosen = Vec::new();
    while groups.iter().any(|group| !group.is_empty()) {
        for group in &mut groups {
            let Some(place) = group.pop() else { continue };
            if sizes[place] <= room {
                room -= sizes[place];
                chosen.push(place);
            }
        }
    }
    chosen
}

fn shuffle(places: &mut [usize], rng: &mut Rng) {
    for last in (1..places.len()).rev() {
        places.swap(last, rng.between(0, last as u64) as usize);
    }
}

#[cfg(test)]
mod tests {
    use super::*;

    #[test]
    fn a_sample_keeps_to_its_bytes_and_has_each_refusal() {
        let cases = of_operation(11, 1, 20_000);
        let bytes: usize = cases.iter().map(|case| case.record().len()).sum();
        assert!(bytes <= 20_000 && bytes > 15_000);
        for number in [0, 9, 10, 11, 12] {
            assert!(cases.iter().any(|case| case.head.number == number), "none with {number}");
        }
    }

    #[test]
    fn picking_goes_round_and_fits() {
        let groups = vec![vec![0, 1, 2], vec![3]];
        assert_eq!(picked(groups, &[5, 5, 5, 100], 12), [2, 1]);
    }
}
