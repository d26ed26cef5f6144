//! Bitfields (operations 10 to 45).

use super::fields::{blank, capacity, read, Field};
use super::{accepted, refused, Answer};
use crate::format::{number, stored, to_number, Held, Part};
use crate::ops::{as_list, is_vector};
use ssz::BitfieldError;

/// The crate's field that holds what the part says: made by its calls, bit after bit.
pub fn lent(op: u32, part: &Part) -> Box<dyn Field> {
    let held = Held::from_part(part);
    let mut field = blank(is_vector(op), held.length, held.n);
    for i in (0..held.length).filter(|i| held.bit(*i)) {
        field.put(i, true).expect("a bit below the length");
    }
    // Bits past the end are no state of the crate's.
    assert_eq!(given(&*field), *part, "a field that the crate cannot hold");
    field
}

/// The field as a part. The crate's count of raw bytes is not seen in it, so it is tested here.
fn given(field: &dyn Field) -> Part {
    let raw = field.raw();
    assert_eq!(raw.len(), Held::raw_bytes(field.length()));
    let mut held = Held::zero(field.length(), field.limit());
    held.bytes[..raw.len()].copy_from_slice(raw);
    held.part()
}

fn field_or_refusal(op: u32, answer: Result<Box<dyn Field>, BitfieldError>) -> Answer {
    match answer {
        Ok(field) => accepted(vec![given(&*field)]),
        Err(error) => refused(op, error),
    }
}

fn counted(value: usize) -> Answer {
    accepted(vec![number(value as u64)])
}

pub fn answer(op: u32, question: &[Part]) -> Answer {
    let value = |at: usize| to_number(&question[at]);
    match as_list(op) {
        10 if is_vector(op) => accepted(vec![given(&*blank(true, value(0), value(0)))]),
        10 => field_or_refusal(op, capacity(value(0), value(1))),
        11 => field_or_refusal(op, read(is_vector(op), &question[0], value(1))),
        13 | 14 | 15 | 23 => of_two(op, question),
        _ => of_one(op, question),
    }
}

fn of_two(op: u32, question: &[Part]) -> Answer {
    let (first, second) = (lent(op, &question[0]), lent(op, &question[1]));
    accepted(vec![of_pair(op, &*first, &*second)])
}

/// The result of an operation on two fields of one type, which the crate never refuses.
pub fn of_pair(op: u32, first: &dyn Field, second: &dyn Field) -> Part {
    let field = match as_list(op) {
        13 => first.both(second),
        14 => first.either(second),
        15 => return number(u64::from(first.within(second))),
        _ => first.without(second),
    };
    given(&*field)
}

fn of_one(op: u32, question: &[Part]) -> Answer {
    let mut field = lent(op, &question[0]);
    let value = |at: usize| to_number(&question[at]);
    match as_list(op) {
        12 => written(&*field, &question[1]),
        16 => field_or_refusal(op, field.resized(value(1))),
        17 => accepted(vec![given(&*field.zeroed())]),
        18 => {
            let done = field.put(value(1), value(2) == 1);
            field_or_refusal(op, done.map(|()| field))
        }
        19 => match field.at(value(1)) {
            Ok(bit) => counted(usize::from(bit)),
            Err(error) => refused(op, error),
        },
        20 => counted(field.highest().map_or(0, |i| i + 1)),
        21 => counted(usize::from(field.none())),
        22 => counted(field.count()),
        24 => accepted(vec![given(&*field.flipped())]),
        25 => {
            let done = field.shift(value(1));
            field_or_refusal(op, done.map(|()| field))
        }
        _ => panic!("operation {op} is no bitfield's"),
    }
}

/// The crate gives a vector of bytes; a lent buffer holds them at its start and keeps the rest.
fn written(field: &dyn Field, buffer: &Part) -> Answer {
    let bytes = field.written();
    assert!(bytes.len() <= buffer.len(), "a short buffer is no case of the crate's");
    accepted(vec![number(bytes.len() as u64), stored(buffer, &bytes)])
}
