//! A small run, and the crate's errors in numbers.

use messages::{compared, numbers, subjects, write_cases, write_sample, Options};
use ssz::{BitList, BitVector, Decode};
use std::collections::BTreeSet;
use typenum::{U4, U9};

#[test]
fn a_small_run_reaches_every_refusal_and_finds_no_difference() {
    let report = compared(Options { seed: 7, count: 100_000, depth: 1, short: 1, long: true });
    println!("{report}");
    assert_eq!(report.differences(), 0);
    for number in 0..=15 {
        assert!(report.reached().contains_key(&number), "{number}");
    }
    // Every rule of ours that the crate does not have was met.
    assert!(report.known().iter().all(|(_, count)| *count > 0), "{:?}", report.known());
}

#[test]
fn a_seed_says_what_is_asked() {
    let reached =
        |seed| compared(Options { seed, count: 20_000, depth: 0, short: 0, long: false }).reached();
    assert_eq!(reached(1), reached(1));
    assert_ne!(reached(1), reached(2));
}

#[test]
fn at_least_twenty_types_each_with_a_legal_table() {
    let subjects = subjects();
    assert!(subjects.len() >= 20);
    for (name, layout) in &subjects {
        assert_eq!(layout.check(), Ok(()), "{name}");
    }
    let most = subjects.iter().map(|(_, layout)| layout.kinds().len()).max();
    assert_eq!(most, Some(64));
}

#[test]
fn errors_that_come_as_text() {
    let list = |bytes: &[u8]| numbers(&BitList::<U4>::from_ssz_bytes(bytes).err().unwrap());
    assert_eq!(list(&[]), (11, 0, 0));
    assert_eq!(list(&[0]), (10, 0, 0));
    assert_eq!(list(&[1, 0]), (12, 2, 1));
    assert_eq!(list(&[0x20]), (9, 4, 4));
    let vector = |bytes: &[u8]| numbers(&BitVector::<U9>::from_ssz_bytes(bytes).err().unwrap());
    assert_eq!(vector(&[0]), (12, 1, 2));
    assert_eq!(vector(&[0, 2]), (11, 0, 0));
    assert_eq!(numbers(&bool::from_ssz_bytes(&[7]).err().unwrap()), (13, 7, 0));
}

/// The records of a file of cases, each as its operation and its parts.
fn records(mut file: &[u8]) -> Vec<(u32, Vec<&[u8]>)> {
    let word = |file: &mut &[u8]| {
        let (word, rest) = file.split_at(4);
        *file = rest;
        u32::from_le_bytes(word.try_into().unwrap())
    };
    let mut found = Vec::new();
    while !file.is_empty() {
        let (op, count) = (word(&mut file), word(&mut file));
        let mut part = |_| {
            let (part, rest) = {
                let length = word(&mut file) as usize;
                file.split_at(length)
            };
            file = rest;
            part
        };
        found.push((op, (0..count).map(&mut part).collect()));
    }
    found
}

fn number(part: &[u8], at: usize) -> u64 {
    u64::from_le_bytes(part[8 * at..8 * at + 8].try_into().unwrap())
}

/// Asks our calls each case of operations 71 and 72; gives the numbers that were answered.
fn asked(records: &[(u32, Vec<&[u8]>)]) -> BTreeSet<u64> {
    let mut reached = BTreeSet::new();
    for (op, parts) in records {
        let (told, head) = match op {
            71 => (cartwhisker::check(parts[0], parts[1]).map(|()| 0), parts[2]),
            _ => {
                let mut buffer = parts[2].to_vec();
                let told = cartwhisker::list_into(parts[0], parts[1], &mut buffer);
                assert_eq!(buffer, parts[5]);
                if let Ok(count) = told {
                    assert_eq!(number(parts[4], 0), count as u64);
                }
                (told, parts[3])
            }
        };
        let expected: Vec<u64> = (0..5).map(|at| number(head, at)).collect();
        let told = match told {
            Ok(_) => vec![0; 5],
            Err(refusal) => vec![
                u64::from(refusal.number),
                refusal.a,
                refusal.b,
                u64::from(refusal.type_number),
                refusal.start,
            ],
        };
        assert_eq!(told, expected);
        reached.insert(expected[0]);
    }
    reached
}

#[test]
fn recorded_cases_are_what_our_calls_answer() {
    let mut file = Vec::new();
    let cases = write_cases(3, 30_000, &mut file).unwrap();
    let records = records(&file);
    assert_eq!(records.len() as u64, cases);
    let reached = asked(&records);
    assert!((0..=15).chain([22]).all(|number| reached.contains(&number)), "{reached:?}");
}

#[test]
fn the_recorded_listings_have_every_kind_every_refusal_and_every_room() {
    let mut file = Vec::new();
    let cases = write_sample(1, &mut file).unwrap();
    let records = records(&file);
    assert_eq!(records.len() as u64, cases);
    assert!(records.iter().all(|(op, _)| *op == 72));
    let reached = asked(&records);
    assert!((0..=15).chain([20, 22]).all(|number| reached.contains(&number)), "{reached:?}");
    let word =
        |bytes: &[u8], at: usize| u32::from_le_bytes(bytes[4 * at..4 * at + 4].try_into().unwrap());
    let mut kinds = BTreeSet::new();
    let mut rest = BTreeSet::new();
    for (_, parts) in records.iter().filter(|(_, parts)| number(parts[3], 0) == 0) {
        let count = number(parts[4], 0) as usize;
        for item in 0..count {
            let body = word(parts[0], 1 + word(parts[5], 3 * item) as usize);
            kinds.insert(word(parts[0], body as usize));
        }
        rest.insert(parts[5].len() - 12 * count);
    }
    assert!(kinds.into_iter().eq(0..=9));
    assert!(rest.contains(&0) && rest.contains(&1) && rest.contains(&29), "{rest:?}");
}
