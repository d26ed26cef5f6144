//! Makes questions: the short ones exhaustively, the limits by hand, the rest at random.

mod bit_bytes;
mod bits;
mod builder;
mod encoder;
pub mod fields;
mod offsets;

use crate::format::{Case, Part};
use crate::oracle;
use crate::rng::Rng;

/// What a maker makes. A question is put to the crate only when its case is wanted: a run that
/// writes one part of many leaves most of them out.
pub enum Made {
    Question(u32, Vec<Part>),
    Answered(Case),
}

impl Made {
    pub fn case(self) -> Case {
        match self {
            Made::Question(op, question) => oracle::ask(op, question),
            Made::Answered(case) => case,
        }
    }
}

fn ask(op: u32, question: Vec<Part>) -> Made {
    Made::Question(op, question)
}

/// Where what is made goes.
pub type Take<'a> = &'a mut dyn FnMut(Made);

/// Every short question of the operation. Bitfields are short up to about `depth` bits.
pub fn exhaustive(op: u32, depth: u64, rng: &mut Rng, take: Take) {
    match op {
        1..=4 => offsets::exhaustive(op, rng, take),
        11 | 31 => bit_bytes::exhaustive(op, depth, take),
        10..=45 => bits::exhaustive(op, depth, rng, take),
        50 => builder::exhaustive(depth, take),
        51 => builder::exhaustive_items(depth, take),
        60 => encoder::exhaustive(rng, take),
        _ => panic!("no questions for operation {op}"),
    }
}

/// The questions at the edges of what the operation takes.
pub fn limits(op: u32, rng: &mut Rng, take: Take) {
    match op {
        // Theirs are among the exhaustive ones.
        1..=4 => (),
        11 | 31 => bit_bytes::limits(op, take),
        10..=45 => bits::limits(op, rng, take),
        50 => builder::limits(take),
        51 => builder::limit_items(take),
        60 => encoder::limits(take),
        _ => panic!("no questions for operation {op}"),
    }
}

pub fn random(op: u32, rng: &mut Rng) -> Made {
    match op {
        1..=4 => offsets::random(op, rng),
        11 | 31 => bit_bytes::random(op, rng),
        10..=45 => bits::random(op, rng),
        50 => builder::random(rng),
        51 => builder::random_item(rng),
        60 => encoder::random(rng),
        _ => panic!("no questions for operation {op}"),
    }
}
