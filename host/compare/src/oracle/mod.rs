//! The crate as oracle: a question's parts go in, the crate's own answer comes out.
//!
//! Nothing here decides an answer. Parts are turned into the crate's arguments, its results and
//! errors into parts, and a question outside of what the crate answers is a panic: such questions
//! belong to `document`.

mod bits;
mod containers;
mod fields;
mod offsets;
mod refusals;
pub mod sizes;

use crate::format::{Case, Head, Part};
use crate::ops;

pub use bits::{lent, of_pair};
pub use containers::reader_case;

/// The head and the results.
pub type Answer = (Head, Vec<Part>);

/// The case that asks the crate this question.
pub fn ask(op: u32, question: Vec<Part>) -> Case {
    let (head, results) = answer(op, &question);
    Case { op, question, head, results }
}

fn answer(op: u32, question: &[Part]) -> Answer {
    match op {
        1 => offsets::read(question),
        2 => offsets::encode(question),
        3 => offsets::sanitize(question),
        4 => offsets::split_union(question),
        10..=45 => bits::answer(op, question),
        50 => containers::build(question),
        60 => containers::encode(question),
        _ => panic!("operation {op} is not asked by its parts alone"),
    }
}

fn accepted(results: Vec<Part>) -> Answer {
    (Head::SUCCESS, results)
}

/// A refusal of an operation whose results are all left empty by it.
fn refused(op: u32, head: impl Into<Head>) -> Answer {
    let results = ops::find(op).expect("an operation of the table").gives.len();
    (head.into(), vec![Vec::new(); results])
}

#[cfg(test)]
mod tests;
