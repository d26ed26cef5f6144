//! Cases whose answers are our own rules: document 01's sentences where the crate has no such
//! refusal, or panics, or cannot be asked. No answer here comes from the crate.
//!
//! Each group says which sentence of document 01, or which numbered reading of it, its answers are
//! taken from. A number in brackets behind "reading" is that of the project's page of readings.

mod bits;
mod builder;
mod builder_states;
mod encoder;
mod encoder_states;

use crate::format::{number, Case, Head, Part};
use crate::ops::{self, Kind};
use crate::rng::Rng;
use std::collections::{BTreeMap, BTreeSet};

/// Where the cases go.
pub type Take<'a> = &'a mut dyn FnMut(Case);

pub fn cases(seed: u64, take: Take) {
    lengths(take);
    bits::cases(take);
    builder::cases(take);
    builder::reader_cases(take);
    builder_states::cases(&mut Rng::for_op(seed, 52), take);
    encoder::cases(take);
    encoder_states::cases(&mut Rng::for_op(seed, 61), take);
}

/// Of each operation and each number of its answers the first case, the one in the middle and the
/// last: a part that is kept in the repository.
pub fn sample(seed: u64, take: Take) {
    let mut groups: BTreeMap<(u32, u64), Vec<Case>> = BTreeMap::new();
    cases(seed, &mut |case| groups.entry((case.op, case.head.number)).or_default().push(case));
    for group in groups.into_values() {
        let last = group.len() - 1;
        let kept = BTreeSet::from([0, last / 2, last]);
        let places = group.into_iter().enumerate();
        places.filter(|(place, _)| kept.contains(place)).for_each(|(_, case)| take(case));
    }
}

/// "`encode_length` above it is 21", where "it" is 4,294,967,295.
fn lengths(take: Take) {
    for length in [1 << 32, (1 << 32) + 1, 1 << 33, 1 << 63, u64::MAX - 1, u64::MAX] {
        take(refused(2, vec![number(length)], Head::new(21, 0, 0)));
    }
}

/// The case of a refusal. "No refusal alters lent memory": buffers stand in the answer as they were
/// lent, every other result is empty.
fn refused(op: u32, question: Vec<Part>, head: Head) -> Case {
    let shape = ops::find(op).expect("an operation of the table");
    let lent = question.iter().zip(shape.asks).filter(|(_, kind)| **kind == Kind::Buffer);
    let mut buffers = lent.map(|(part, _)| part.clone());
    let results = shape.gives.iter().map(|kind| match kind {
        Kind::Buffer => buffers.next().expect("as many buffers as are lent"),
        Kind::Count => panic!("a count is given on a refusal too"),
        _ => Vec::new(),
    });
    let results = results.collect();
    Case { op, question, head, results }
}

#[cfg(test)]
mod tests {
    use super::*;
    use crate::tally::Tally;

    fn tally() -> Tally {
        let mut tally = Tally::default();
        cases(1, &mut |case| tally.add(case.op, case.head.number, case.record().len()));
        tally
    }

    #[test]
    fn every_refusal_of_our_own_is_there() {
        let found: Vec<u64> = tally().refusals().into_keys().collect();
        assert_eq!(found, [1, 2, 4, 5, 6, 7, 14, 21, 22, 23, 24, 26]);
    }

    #[test]
    fn a_sample_has_every_refusal_of_every_operation() {
        let of = |make: fn(u64, Take)| {
            let mut found = BTreeMap::<(u32, u64), u32>::new();
            make(1, &mut |case| *found.entry((case.op, case.head.number)).or_default() += 1);
            found
        };
        let (all, kept) = (of(cases), of(sample));
        assert!(all.keys().eq(kept.keys()));
        assert!(kept.values().all(|count| *count <= 3));
    }

    #[test]
    fn states_as_given_reach_every_refusal_of_their_calls() {
        let tally = tally();
        let of = |op: u32| tally.of(op).into_keys().collect::<Vec<u64>>();
        // 21 of a builder needs bytes that no record holds.
        assert_eq!(of(52), [0, 1, 2, 4, 5, 6, 7, 14, 23, 26]);
        assert_eq!(of(61), [0, 21, 22, 23]);
    }

    #[test]
    fn every_call_on_a_held_field_refuses_bad_states_and_limits() {
        let tally = tally();
        for op in (12..=25).chain(32..=35).chain(38..=45) {
            assert!(tally.of(op).contains_key(&23), "operation {op} lacks 23");
        }
        // A vector whose N is too large is already a bad state (reading 44).
        for op in (10..=25).chain([30, 31]) {
            assert!(tally.of(op).contains_key(&14), "operation {op} lacks 14");
        }
        for op in [13, 14, 15, 23, 33, 34, 35, 43] {
            assert!(tally.of(op).contains_key(&24), "operation {op} lacks 24");
        }
    }
}
