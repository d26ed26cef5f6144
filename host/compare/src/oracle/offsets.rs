//! Offsets and the union split (operations 1 to 4).

use super::{accepted, refused, Answer};
use crate::format::{number, to_maybe, to_number, Part};

pub fn read(question: &[Part]) -> Answer {
    match ssz::read_offset(&question[0]) {
        Ok(offset) => accepted(vec![number(offset as u64)]),
        Err(error) => refused(1, error),
    }
}

pub fn encode(question: &[Part]) -> Answer {
    let length = to_number(&question[0]);
    // Above this the crate's release build drops bits; document 01 refuses.
    assert!(length <= u64::from(u32::MAX), "no length of the crate's");
    accepted(vec![ssz::encode_length(length as usize).to_vec()])
}

pub fn sanitize(question: &[Part]) -> Answer {
    let size = |part: &Part| to_maybe(part).map(|value| value as usize);
    let answer = open_decode::sanitize_offset(
        to_number(&question[0]) as usize,
        size(&question[1]),
        to_number(&question[2]) as usize,
        size(&question[3]),
    );
    match answer {
        Ok(offset) => accepted(vec![number(offset as u64)]),
        Err(error) => refused(3, error),
    }
}

pub fn split_union(question: &[Part]) -> Answer {
    match ssz::split_union_bytes(&question[0]) {
        Ok((selector, body)) => {
            accepted(vec![number(u64::from(u8::from(selector))), body.to_vec()])
        }
        Err(error) => refused(4, error),
    }
}
