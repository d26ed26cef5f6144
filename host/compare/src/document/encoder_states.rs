//! An encoder's state as given: one append or the end, over buffers that it may be foreign to.

use super::encoder::{buffers, fixed, variable, Encoder};
use super::Take;
use crate::format::{items, number, row, to_items, to_number, Case, Head, Item};
use crate::make::{self, Made};
use crate::rng::Rng;

const GREATEST: u64 = u32::MAX as u64;
const RUNS: usize = 4_000;

/// One call: an append, or the end. On a refusal there is no state, and the buffers are as lent.
fn case(mut encoder: Encoder, item: Option<&Item>) -> Case {
    let state = |e: &Encoder| row(&[e.fixed_size, e.fixed_used as u64, e.variable_used as u64]);
    let asked = item.map_or(Vec::new(), |item| items(std::slice::from_ref(item)));
    let question = vec![state(&encoder), asked, encoder.fixed.clone(), encoder.variable.clone()];
    let (head, after, length) = match item {
        Some(item) => match encoder.append(item) {
            Ok(()) => (Head::SUCCESS, state(&encoder), Vec::new()),
            Err(head) => (head, Vec::new(), Vec::new()),
        },
        None => match encoder.end() {
            Ok(length) => (Head::SUCCESS, Vec::new(), number(length as u64)),
            Err(head) => (head, Vec::new(), Vec::new()),
        },
    };
    Case { op: 61, question, head, results: vec![after, length, encoder.fixed, encoder.variable] }
}

pub fn cases(rng: &mut Rng, take: Take) {
    small(take);
    for _ in 0..RUNS {
        taken_over(rng, take);
    }
}

/// Every short buffer, every count of used bytes up to just past it, every short item; at offsets
/// around the greatest.
fn small(take: Take) {
    let appends = [fixed(0), fixed(2), variable(0), variable(1), variable(2)];
    let calls: Vec<Option<&Item>> = appends.iter().map(Some).chain([None]).collect();
    for (room, used) in small_rooms() {
        for fixed_size in [8, GREATEST - 1, GREATEST, GREATEST + 1] {
            for call in &calls {
                let (first, second) = buffers(room);
                take(case(in_state(fixed_size, used, first, second), *call));
            }
        }
    }
}

/// Bytes of the two buffers, and how many of them are used.
fn small_rooms() -> Vec<((usize, usize), (usize, usize))> {
    let mut found = Vec::new();
    for room in (0..=7).flat_map(|first| (0..=3).map(move |second| (first, second))) {
        for fixed_used in 0..=room.0 + 1 {
            found.extend((0..=room.1 + 1).map(|used| (room, (fixed_used, used))));
        }
    }
    found
}

fn in_state(
    fixed_size: u64,
    (fixed_used, variable_used): (usize, usize),
    fixed: Vec<u8>,
    variable: Vec<u8>,
) -> Encoder {
    Encoder { fixed_size, fixed, variable, fixed_used, variable_used }
}

/// The state of one run of the crate's kind, over its own buffers or over those of another, and at
/// times with one number changed.
fn taken_over(rng: &mut Rng, take: Take) {
    let (own, foreign) = (question(rng), question(rng));
    let row = to_items(&own[1]);
    let done = rng.between(0, row.len() as u64) as usize;
    let size = to_number(&own[0]);
    let mut encoder = in_state(size, (0, 0), own[2].clone(), own[3].clone());
    for item in &row[..done] {
        encoder.append(item).expect("there is room");
    }
    let mut state = (encoder.fixed_used, encoder.variable_used);
    let (mut first, mut second) = (encoder.fixed, encoder.variable);
    match rng.below(3) {
        0 => (first, second) = (foreign[2].clone(), foreign[3].clone()),
        1 => {
            let far = [0, first.len(), first.len() + 1, second.len() + 1, usize::MAX, 1 << 63];
            let place = if rng.one_in(2) { &mut state.0 } else { &mut state.1 };
            *place = rng.pick(&far);
        }
        _ => (),
    }
    take(case(in_state(size, state, first, second), row.get(done)));
}

fn question(rng: &mut Rng) -> Vec<Vec<u8>> {
    match make::random(60, rng) {
        Made::Question(_, question) => question,
        Made::Answered(_) => panic!("an encoder's question is not answered yet"),
    }
}

#[cfg(test)]
mod tests {
    use super::*;

    #[test]
    fn a_buffer_below_what_is_used_is_a_bad_state() {
        for state in [(3, 0), (0, 3), (usize::MAX, 0), (0, usize::MAX)] {
            for call in [None, Some(fixed(0)), Some(variable(0))] {
                let (first, second) = buffers((2, 2));
                // Before 21.
                let encoder = in_state(GREATEST + 1, state, first.clone(), second.clone());
                let case = case(encoder, call.as_ref());
                assert_eq!(case.head, Head::new(23, 0, 0));
                assert_eq!(case.results, [vec![], vec![], first, second]);
            }
        }
    }
}
