//! The model of the unfolding and the value writer on document 01's own figures, and what its cases
//! reach.

use cartwhisker::{Layout, Type};
use messages::forms::{
    cases, checked, encode, sample, value_of, written, Case, Fault, Form, Value,
};
use std::collections::BTreeSet;

/// "Layout L: 4 5 7 9 11 0 8 3 16 5 8 6 3 0 1 2."
fn bid() -> Layout {
    let mut layout = Layout::new();
    let fields = [layout.number(8), layout.free_bytes(16), layout.bit_list(8)];
    layout.container(fields);
    assert_eq!(layout.words(), [4, 5, 7, 9, 11, 0, 8, 3, 16, 5, 8, 6, 3, 0, 1, 2]);
    layout
}

/// "Contents 3 3; bodies 2a and seven zeros, 0a 0b 0c, 05."
fn form() -> Form {
    let bodies = vec![0x2a, 0, 0, 0, 0, 0, 0, 0, 0x0a, 0x0b, 0x0c, 0x05];
    Form { contents: vec![3, 3], bodies }
}

fn with(contents: &[u32], bodies: &[u8]) -> Form {
    Form { contents: contents.to_vec(), bodies: bodies.to_vec() }
}

#[test]
fn the_worked_bid() {
    let message = [0x2a, 0, 0, 0, 0, 0, 0, 0, 0x10, 0, 0, 0, 0x13, 0, 0, 0, 0x0a, 0x0b, 0x0c, 0x0d];
    assert_eq!(written(&bid(), &form()), Ok(message.to_vec()));
    let value = value_of(&bid(), &form()).unwrap();
    assert_eq!(Form::of(&value), form());
    assert_eq!(encode(&bid(), Type::from_number(3), &value), message);
}

/// The first fault of a form: what it is, 0 for contents or 1 for bodies, the index.
fn fault(layout: &Layout, form: &Form) -> (Fault, u64, u64) {
    let wrong = value_of(layout, form).unwrap_err();
    (wrong.fault, wrong.side, wrong.index)
}

#[test]
fn faults_of_the_worked_bid() {
    let right = form().bodies;
    let of = |contents: &[u32], bodies: &[u8]| fault(&bid(), &with(contents, bodies));
    assert_eq!(of(&[], &right), (Fault::MissingWord, 0, 0));
    assert_eq!(of(&[3], &right), (Fault::MissingWord, 0, 1));
    assert_eq!(of(&[17, 3], &right), (Fault::LongBytes, 0, 0));
    assert_eq!(of(&[3, 9], &right), (Fault::LongBits, 0, 1));
    assert_eq!(of(&[3, 3], &right[..7]), (Fault::ShortBody, 1, 7));
    assert_eq!(of(&[3, 3], &right[..11]), (Fault::ShortBody, 1, 11));
    assert_eq!(of(&[3, 2], &right), (Fault::ListBits, 1, 11));
    assert_eq!(of(&[3, 3, 0], &right), (Fault::LeftWords, 0, 2));
    assert_eq!(of(&[3, 3], &[&right[..], &[0]].concat()), (Fault::LeftBytes, 1, 12));
    // The earlier leaf's body comes before the later leaf's word, contents before bodies.
    assert_eq!(of(&[3], &right[..10]), (Fault::ShortBody, 1, 10));
    assert_eq!(of(&[3, 3, 0], &[&right[..], &[0]].concat()), (Fault::LeftWords, 0, 2));
}

#[test]
fn faults_of_other_leaves() {
    let mut layout = Layout::new();
    let fields = [layout.boolean(), layout.bit_vector(9)];
    let pair = layout.container(fields);
    layout.union([None, Some(pair)]);
    let of = |contents: &[u32], bodies: &[u8]| fault(&layout, &with(contents, bodies));
    assert_eq!(of(&[2], &[]), (Fault::NoOption, 0, 0));
    assert_eq!(of(&[256], &[]), (Fault::NoOption, 0, 0));
    assert_eq!(of(&[1], &[2, 0, 0]), (Fault::Boolean, 1, 0));
    assert_eq!(of(&[1], &[1, 0, 2]), (Fault::VectorBits, 1, 2));
    assert_eq!(of(&[0], &[0]), (Fault::LeftBytes, 1, 0));
    assert_eq!(written(&layout, &with(&[0], &[])), Ok(vec![0]));
    assert_eq!(written(&layout, &with(&[1], &[1, 7, 1])), Ok(vec![1, 1, 7, 1]));
}

#[test]
fn bit_lists_of_whole_bytes() {
    let mut layout = Layout::new();
    layout.bit_list(16);
    // "Raw bytes of an empty bitfield", and "a bit list of 8 bits written in one byte".
    assert_eq!(written(&layout, &with(&[0], &[0])), Ok(vec![1]));
    assert_eq!(written(&layout, &with(&[8], &[0xff])), Ok(vec![0xff, 1]));
    assert_eq!(fault(&layout, &with(&[0], &[1])), (Fault::ListBits, 1, 0));
    assert_eq!(fault(&layout, &with(&[0], &[])), (Fault::ShortBody, 1, 0));
    assert_eq!(value_of(&layout, &with(&[2], &[2])), Ok(Value::List(vec![false, true])));
}

#[test]
fn lists_and_vectors() {
    let mut layout = Layout::new();
    let text = layout.free_bytes(4);
    let pair = layout.vector(text, 2);
    layout.list(pair, 2);
    // Two pairs: the list's count, then the length of each text.
    let form = with(&[2, 1, 0, 2, 1], &[10, 20, 21, 30]);
    let first = [[8, 0, 0, 0], [9, 0, 0, 0]].concat();
    let second = [[8, 0, 0, 0], [10, 0, 0, 0]].concat();
    let offsets = [[8, 0, 0, 0], [17, 0, 0, 0]].concat();
    let message = [&offsets[..], &first, &[10], &second, &[20, 21, 30]].concat();
    assert_eq!(written(&layout, &form), Ok(message));
    assert_eq!(Form::of(&value_of(&layout, &form).unwrap()), form);
    assert_eq!(written(&layout, &with(&[0], &[])), Ok(vec![]));
    let of = |contents: &[u32], bodies: &[u8]| fault(&layout, &with(contents, bodies));
    // "A contents word for a list's count, missing or over the limit 25 as at a leaf, before its
    // elements."
    assert_eq!(of(&[], &[]), (Fault::MissingWord, 0, 0));
    assert_eq!(of(&[3], &[]), (Fault::LongList, 0, 0));
    assert_eq!(of(&[u32::MAX], &[]), (Fault::LongList, 0, 0));
    assert_eq!(of(&[2, 1, 0, 2], &[10, 20, 21]), (Fault::MissingWord, 0, 4));
    assert_eq!(of(&[1, 5, 0], &[0; 5]), (Fault::LongBytes, 0, 1));
    assert_eq!(of(&[1, 1, 4], &[0; 4]), (Fault::ShortBody, 1, 4));
    assert_eq!(of(&[0, 0], &[]), (Fault::LeftWords, 0, 1));
    assert_eq!(of(&[0], &[7]), (Fault::LeftBytes, 1, 0));
}

#[test]
fn bad_tables() {
    let bad = |words: &[u32]| {
        let bytes: Vec<u8> = words.iter().flat_map(|word| word.to_le_bytes()).collect();
        checked(&bytes).err()
    };
    assert_eq!(bad(&bid().words()), None);
    assert_eq!(bad(&[]), Some(0));
    assert_eq!(bad(&[65]), Some(0));
    assert_eq!(bad(&[2, 3]), Some(2));
    assert_eq!(bad(&[1, 2]), Some(2));
    assert_eq!(bad(&[1, 2, 0, 3]), Some(3));
    assert_eq!(bad(&[1, 2, 1, 1]), Some(3));
    assert_eq!(bad(&[2, 3, 5, 2, 1 << 31, 6, 2, 0, 0]), Some(5));
    assert_eq!(checked(&[1, 0, 0, 0, 2, 0]).err(), Some(1));
    // A list's limit is any word; a vector has a count of at least 1, and its fixed portion, four
    // bytes for each variable element, is charged to the kind word.
    assert_eq!(bad(&[2, 3, 4, 1, 8, 0, 0]), None);
    assert_eq!(bad(&[2, 3, 4, 1, 8, 1, 0]), Some(5));
    assert_eq!(bad(&[2, 3, 4, 1, 8, 0]), Some(6));
    assert_eq!(bad(&[2, 3, 4, 1, 9, 0, 0]), Some(6));
    assert_eq!(bad(&[2, 3, 4, 1, 9, 0, u32::MAX]), None);
    assert_eq!(bad(&[2, 3, 5, 3, 7, 9, 0, (1 << 30) - 1]), None);
    assert_eq!(bad(&[2, 3, 5, 3, 7, 9, 0, 1 << 30]), Some(5));
    assert_eq!(bad(&[1, 2, 10]), Some(2));
}

#[test]
fn a_run_reaches_every_refusal_and_every_fault() {
    let mut numbers = BTreeSet::new();
    let mut faults = BTreeSet::new();
    let mut made = BTreeSet::new();
    cases(3, 60_000, &mut |case: Case| {
        numbers.insert((case.op, case.number));
        faults.extend(case.fault);
        made.insert((case.op, case.what));
    });
    let tables = [(70, 0), (70, 20)];
    let unfolding = (0..=15).chain([20, 22]).map(|number| (73, number));
    let writing = [0, 20, 22, 25].map(|number| (74, number));
    assert_eq!(numbers, tables.into_iter().chain(unfolding).chain(writing).collect());
    assert_eq!(faults, Fault::ALL.into());
    assert_eq!(made.len(), 2 + 10 + 2 + 5 + 2);
}

#[test]
fn the_sample_is_small_and_always_the_same() {
    let bytes = |seed| {
        let mut bytes = Vec::new();
        sample(seed, &mut |case| bytes.extend(case.record));
        bytes
    };
    let found = bytes(1);
    assert_eq!(found, bytes(1));
    assert_ne!(found, bytes(2));
    assert!(found.len() < 300_000, "{}", found.len());
}
