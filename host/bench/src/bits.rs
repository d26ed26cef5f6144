//! The bitfield operations, the crate's and ours.

mod oracle;

use crate::ours::{self, Plan};
use crate::{measure, scattered, times};
use std::time::Duration;

#[derive(Clone, Copy, PartialEq, Eq, Debug)]
pub enum Kind {
    List,
    Vector,
}

#[derive(Clone, Copy, PartialEq, Eq, Debug)]
pub enum Call {
    FromBytes,
    IntoBytes,
    Intersection,
    Union,
    Difference,
    NumSetBits,
    ShiftUp,
}

/// The bits that a call works on: every list is full, that is, its length is its N.
pub struct Input {
    pub kind: Kind,
    pub bits: usize,
    /// Two fields as the standard writes them, a list with the set bit behind its last.
    pub first: Vec<u8>,
    pub second: Vec<u8>,
}

/// Repeats a call on the input so many times and says how long that took, preparations left out.
pub type Timed = fn(Call, &Input, u64) -> Duration;

const KINDS: [(Kind, &str); 2] = [(Kind::List, "list"), (Kind::Vector, "vector")];

/// Each call with its name, and its number for lists in docs/CASES.md; a vector's is 20 more.
const CALLS: [(Call, &str, u32); 7] = [
    (Call::FromBytes, "from_bytes", 11),
    (Call::IntoBytes, "into_bytes", 12),
    (Call::Intersection, "intersection", 13),
    (Call::Union, "union", 14),
    (Call::Difference, "difference", 23),
    (Call::NumSetBits, "num_set_bits", 22),
    (Call::ShiftUp, "shift_up", 25),
];

const SIZES: [usize; 3] = [64, 512, 2_048];

/// A call on fields of a size.
pub struct Case {
    pub name: String,
    call: Call,
    input: Input,
    plan: Plan,
}

impl Input {
    /// For a number of bits that is a multiple of eight.
    fn new(kind: Kind, bits: usize) -> Self {
        let field = |seed| {
            let mut bytes = scattered(bits / 8, seed);
            if kind == Kind::List {
                bytes.push(1);
            }
            bytes
        };
        Self { kind, bits, first: field(1), second: field(2) }
    }
}

impl Case {
    fn new(kind: (Kind, &str), call: (Call, &str, u32), bits: usize) -> Self {
        let ((kind, kind_name), (call, call_name, number)) = (kind, call);
        let input = Input::new(kind, bits);
        let eight = |n: usize| (n as u64).to_le_bytes().to_vec();
        let plan = Plan {
            operation: if kind == Kind::List { number } else { number + 20 },
            parts: vec![eight(bits), input.first.clone(), input.second.clone(), eight(1)],
            adds: oracle::adds(call, &input),
        };
        Self { name: format!("{kind_name} {call_name} {bits}"), call, input, plan }
    }

    fn oracle(&self, count: u64) -> Duration {
        oracle::timed(self.input.kind, self.call, self.input.bits)(self.call, &self.input, count)
    }
}

pub fn cases() -> Vec<Case> {
    let mut cases = Vec::new();
    for kind in KINDS {
        for call in CALLS {
            cases.extend(SIZES.map(|bits| Case::new(kind, call, bits)));
        }
    }
    cases
}

fn line(name: &str, oracle: f64, ours: Option<f64>) -> String {
    let figure = ours.map_or("-".to_string(), |value| format!("{value:.1}"));
    let ratio = ours.map_or("-".to_string(), |value| times(oracle / value));
    format!("{name:26}{oracle:>12.1}{figure:>12}{ratio:>10}")
}

pub fn print() {
    println!(
        "bitfields: nanoseconds a call, median of {} runs, and how many times as fast as the crate",
        measure::RUNS
    );
    println!("{:26}{:>12}{:>12}{:>10}", "field, call, bits", "crate", "ours", "ours");
    for case in cases() {
        let (oracle, ours) = ours::figures(&|count| case.oracle(count), &case.plan);
        println!("{}", line(&case.name, oracle, ours));
    }
}

/// The case of that name, with what an instruction counter needs of it.
pub fn find(name: &str) -> Option<Case> {
    cases().into_iter().find(|case| case.name == name)
}

impl Case {
    pub fn plan(&self) -> &Plan {
        &self.plan
    }

    /// So many calls of the crate, not timed.
    pub fn count(&self, count: u64) {
        self.oracle(count);
    }
}

#[cfg(test)]
mod tests {
    use super::*;

    #[test]
    fn no_figure_is_made_up() {
        assert_eq!(line("union", 20.0, None).split_whitespace().last(), Some("-"));
        assert_eq!(line("union", 20.0, Some(10.0)).split_whitespace().last(), Some("2.00x"));
    }

    #[test]
    fn both_sides_have_every_call_at_every_size() {
        assert!(ours::is_built(), "`rt run` in crates/measure comes first");
        for case in cases() {
            case.count(2);
            case.plan.timed(300);
        }
    }
}
