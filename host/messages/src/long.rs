//! Lists and vectors of many elements, each compared once: good ones, and with a fault at the far end.

use crate::random_tables::under;
use crate::rng::Rng;
use crate::types::Subject;
use cartwhisker::{Kind, Layout, Type};

const MILLION: u32 = 1_000_000;
/// The crate's reader takes the items of a container from the front of a row, one by one: its time
/// goes with the square of their number.
const ROW: u32 = 10_000;

fn table(kinds: &[Kind]) -> Subject {
    let mut layout = Layout::new();
    for kind in kinds {
        layout.add(kind.clone());
    }
    under("long lists and vectors", layout)
}

fn list(element: Kind, limit: u32) -> Subject {
    table(&[element, Kind::List(Type::from_number(0), limit)])
}

fn vector(element: Kind, count: u32) -> Subject {
    table(&[element, Kind::Vector(Type::from_number(0), count)])
}

/// Elements behind their offsets.
fn behind_offsets(elements: &[Vec<u8>]) -> Vec<u8> {
    let mut offset = 4 * elements.len();
    let mut message = Vec::new();
    for element in elements {
        message.extend((offset as u32).to_le_bytes());
        offset += element.len();
    }
    message.extend(elements.concat());
    message
}

/// The message, with one byte more, with one less, and with its last byte and the last of its
/// offsets changed.
fn around(message: Vec<u8>, last_offset: Option<usize>) -> Vec<Vec<u8>> {
    let with = |change: &dyn Fn(&mut Vec<u8>)| {
        let mut other = message.clone();
        change(&mut other);
        other
    };
    let mut found = vec![
        with(&|message| message.push(2)),
        with(&|message| message.truncate(message.len() - 1)),
        with(&|message| *message.last_mut().expect("a long message") = 2),
    ];
    if let Some(at) = last_offset {
        found.push(with(&|message| message[at] ^= 1));
        found.push(with(&|message| message[at..at + 4].fill(0xff)));
        found.push(with(&|message| message[at..at + 4].fill(0)));
    }
    found.push(message);
    found
}

/// A million numbers under limits below, at and above their count; a million booleans.
fn many_numbers(rng: &mut Rng) -> Vec<(Subject, Vec<Vec<u8>>)> {
    let numbers = rng.bytes(8 * MILLION as usize);
    let flags = around(vec![1; MILLION as usize], None);
    let alone = || vec![numbers.clone()];
    vec![
        (list(Kind::Number(8), MILLION), alone()),
        (list(Kind::Number(8), MILLION - 1), alone()),
        (list(Kind::Number(8), 0), alone()),
        (vector(Kind::Number(8), MILLION), alone()),
        (vector(Kind::Number(8), MILLION + 1), alone()),
        (list(Kind::Number(8), u32::MAX), around(numbers.clone(), None)),
        (list(Kind::Boolean, u32::MAX), flags.clone()),
        (vector(Kind::Boolean, MILLION), flags),
    ]
}

/// Many elements behind offsets: free bytes and bit lists, in a list and in a vector; rows of rows.
fn many_offsets(rng: &mut Rng) -> Vec<(Subject, Vec<Vec<u8>>)> {
    let mut texts = |count: u32, length: u64| -> Vec<Vec<u8>> {
        let mut text = |_| {
            let length = rng.between(1, length) as usize;
            let mut text = rng.bytes(length);
            // A set bit in the last byte: a bit list as well.
            text[length - 1] |= 1;
            text
        };
        (0..count).map(&mut text).collect()
    };
    let long = behind_offsets(&texts(10 * ROW, 30));
    let row = behind_offsets(&texts(ROW, 1));
    let lines: Vec<Vec<u8>> = (0..500).map(|_| behind_offsets(&texts(100, 2))).collect();
    let lines = behind_offsets(&lines);
    let last = |count: u32| Some(4 * count as usize - 4);
    let inner = |kind| [Kind::FreeBytes(2), kind];
    let outer = |kinds: [Kind; 2], kind| table(&[&kinds[..], &[kind]].concat());
    let (free, first) = (Type::from_number(0), Type::from_number(1));
    vec![
        (list(Kind::FreeBytes(30), u32::MAX), around(long.clone(), last(10 * ROW))),
        (list(Kind::FreeBytes(30), 10 * ROW - 1), vec![long]),
        (list(Kind::BitList(8), ROW), around(row.clone(), last(ROW))),
        (vector(Kind::BitList(8), ROW), around(row.clone(), last(ROW))),
        (vector(Kind::FreeBytes(1), ROW + 1), vec![row.clone()]),
        (vector(Kind::FreeBytes(1), ROW - 1), vec![row]),
        (
            outer(inner(Kind::List(free, 100)), Kind::List(first, 500)),
            around(lines.clone(), last(500)),
        ),
        (outer(inner(Kind::Vector(free, 100)), Kind::Vector(first, 500)), around(lines, last(500))),
    ]
}

/// Each table with its messages.
pub fn all(rng: &mut Rng) -> Vec<(Subject, Vec<Vec<u8>>)> {
    let mut all = many_numbers(rng);
    all.extend(many_offsets(rng));
    all
}
