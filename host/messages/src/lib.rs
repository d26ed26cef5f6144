//! The message check and the listing compared with the crate's own decoding.
//!
//! The crate reads a Rust type, ours reads the same bytes under a table. The crate's `Decode` says
//! what is wrong but not where; the place and the listing are what the crate's own decoder did: our
//! types report each slice that it hands to them (`watch`).

mod answers;
mod cases;
mod damage;
pub mod forms;
mod long;
mod random_tables;
mod report;
// The driver's own generator: one source, built here for speed.
#[path = "../../compare/src/rng.rs"]
#[allow(dead_code)]
mod rng;
mod shapes;
mod types;
mod watch;

pub use answers::numbers;
pub use cases::{write as write_cases, write_sample};
pub use report::Report;

use cartwhisker::Layout;
use rng::Rng;
use types::Subject;

/// How much is compared.
#[derive(Clone, Copy, Debug)]
pub struct Options {
    pub seed: u64,
    /// Comparisons of random values' encodings and of what is made of them.
    pub count: u64,
    /// Every string of at most so many bytes is asked of every type.
    pub depth: usize,
    /// And of at most so many bytes, of the types that have such short messages.
    pub short: usize,
    /// Whether lists of up to a million elements are compared.
    pub long: bool,
}

impl Default for Options {
    fn default() -> Self {
        Self { seed: 1, count: 1_000_000, depth: 2, short: 2, long: true }
    }
}

/// The names of the types that are compared, and their tables.
pub fn subjects() -> Vec<(&'static str, Layout)> {
    types::all().into_iter().map(|subject| (subject.name, subject.layout)).collect()
}

/// Compares: every short string, then random values and what is made of them.
pub fn compared(options: Options) -> Report {
    let subjects = types::all();
    let longest = |subject: &Subject| {
        if subject.short {
            options.short.max(options.depth)
        } else if subject.long {
            options.depth.min(1)
        } else {
            options.depth
        }
    };
    let strings =
        |longest: usize| (0..=longest as u32).map(|length| 256_u64.pow(length)).sum::<u64>();
    let before: u64 = subjects.iter().map(|subject| strings(longest(subject))).sum();
    let mut report = Report::new(before + options.count);
    for subject in &subjects {
        exhaustive(subject, longest(subject), &mut report);
    }
    let mut rng = Rng::new(options.seed);
    let long = if options.long { long::all(&mut rng) } else { Vec::new() };
    for (subject, messages) in long {
        messages.iter().for_each(|message| report.compare(&subject, message));
    }
    while report.count() < before + options.count {
        for subject in &subjects {
            random(subject, &mut rng, &mut report);
        }
        for _ in 0..subjects.len() {
            random(&random_tables::subject(&mut rng), &mut rng, &mut report);
        }
    }
    report
}

/// Every string of at most `longest` bytes.
fn exhaustive(subject: &Subject, longest: usize, report: &mut Report) {
    for length in 0..=longest {
        let mut bytes = vec![0; length];
        loop {
            report.compare(subject, &bytes);
            // The next string of this length, as a number is counted up.
            let Some(at) = bytes.iter().position(|byte| *byte != 255) else { break };
            bytes[..at].fill(0);
            bytes[at] += 1;
        }
    }
}

/// A random value's encoding, and what is made of it.
fn random(subject: &Subject, rng: &mut Rng, report: &mut Report) {
    let valid = (subject.encode)(rng);
    if !report.compare_valid(subject, &valid) {
        return;
    }
    report.compare(subject, &subject.encode_above(rng));
    damage::of(&subject.layout, &valid, rng, &mut |bytes| report.compare(subject, bytes));
}
