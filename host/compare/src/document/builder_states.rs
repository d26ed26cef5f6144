//! A builder's state as given: one registration or the end, over bytes that it may be foreign to.

use super::Take;
use crate::format::{number, row, to_row, Case, Head, Part, VARIABLE};
use crate::make::{self, Made};
use crate::rng::Rng;

const MOST_ITEMS: usize = 64;
const LIMIT: u64 = u32::MAX as u64;
/// The end of a variable item until the container is built (reading 56).
const OPEN: u64 = u64::MAX;
const BAD_STATE: Head = Head::new(23, 0, 0);
const FULL: Head = Head::new(26, 64, 0);

/// How many messages the states are taken from, and how many cases each of them gives.
const MESSAGES: usize = 400;
const CASES_OF_EACH: usize = 24;

/// A builder's state, whether or not a run reaches it: how many items are registered, where the
/// next head is, where each item starts and ends.
#[derive(Clone, PartialEq, Eq, Debug)]
struct State {
    count: u64,
    pos: u64,
    starts: [u64; MOST_ITEMS],
    ends: [u64; MOST_ITEMS],
}

impl State {
    const FRESH: State = State { count: 0, pos: 0, starts: [0; MOST_ITEMS], ends: [0; MOST_ITEMS] };

    fn part(&self) -> Part {
        let numbers = [self.count, self.pos].into_iter().chain(self.starts).chain(self.ends);
        row(&numbers.collect::<Vec<u64>>())
    }

    /// The entries in use.
    fn items(&self) -> impl Iterator<Item = (u64, u64)> + '_ {
        self.starts.iter().copied().zip(self.ends).take(self.count as usize)
    }

    /// The registrations that the record tells of, if it can be one.
    fn registrations(&self) -> Option<Vec<u64>> {
        let length = |(start, end): (u64, u64)| match end {
            OPEN => Some(VARIABLE),
            _ => end.checked_sub(start),
        };
        let fits = self.count <= MOST_ITEMS as u64;
        fits.then(|| self.items().map(length).collect()).flatten()
    }

    /// "a builder state that no run of accepted registrations over the bytes given reaches" is 23.
    /// A record tells which registrations the run had, so there is one run to try.
    fn is_reached(&self, bytes: &[u8]) -> bool {
        let run = |registrations: Vec<u64>| ran(&registrations, bytes).ok();
        self.registrations().and_then(run).is_some_and(|reached| reached == *self)
    }

    fn offsets(&self) -> impl Iterator<Item = u64> + '_ {
        self.items().filter(|(_, end)| *end == OPEN).map(|(start, _)| start)
    }

    fn with(&self, start: u64, end: u64, pos: u64) -> State {
        let mut next = self.clone();
        next.starts[self.count as usize] = start;
        next.ends[self.count as usize] = end;
        next.count += 1;
        next.pos = pos;
        next
    }

    /// "Registering a fixed item of length f at position p needs p+f bytes, else 1 (length of the
    /// container's bytes, p+f). Registering a variable one reads an offset (else 2, with the bytes
    /// left and 4), then refuses in this order: 7 if above the length, 6 if below the previous
    /// offset." 14 comes before the crate's own.
    fn step(&self, registration: u64, bytes: &[u8]) -> Result<State, Head> {
        let length = bytes.len() as u64;
        if registration != VARIABLE {
            if registration > LIMIT {
                return Err(Head::new(14, registration, LIMIT));
            }
            let end = self.pos + registration;
            if end > length {
                return Err(Head::new(1, length, end));
            }
            return Ok(self.with(self.pos, end, end));
        }
        let Some(word) = bytes.get(self.pos as usize..self.pos as usize + 4) else {
            return Err(Head::new(2, length - self.pos, 4));
        };
        let offset = u64::from(u32::from_le_bytes(word.try_into().expect("four bytes")));
        if offset > length {
            return Err(Head::new(7, offset, 0));
        }
        if self.offsets().last().is_some_and(|previous| offset < previous) {
            return Err(Head::new(6, offset, 0));
        }
        Ok(self.with(offset, OPEN, self.pos + 4))
    }

    /// "It comes first"; "For a builder, after 23: bytes of 2^32 or more 21, a 65th item 26".
    fn registered(&self, registration: u64, bytes: &[u8]) -> Result<State, Head> {
        if !self.is_reached(bytes) {
            return Err(BAD_STATE);
        }
        if self.count == MOST_ITEMS as u64 {
            return Err(FULL);
        }
        self.step(registration, bytes)
    }

    /// "the first offset must equal the fixed portion (4 below it, 5 above it). With no variable
    /// field the fixed portion must be the whole length, else 1. Each variable item ends where the
    /// next starts, the last at the end."
    fn built(&self, bytes: &[u8]) -> Result<Vec<u64>, Head> {
        if !self.is_reached(bytes) {
            return Err(BAD_STATE);
        }
        let length = bytes.len() as u64;
        match self.offsets().next() {
            Some(first) if first < self.pos => return Err(Head::new(4, first, 0)),
            Some(first) if first > self.pos => return Err(Head::new(5, first, 0)),
            None if self.pos != length => return Err(Head::new(1, length, self.pos)),
            _ => (),
        }
        let mut next_starts = self.offsets().skip(1).chain([length]);
        let mut closed = |end: u64| if end == OPEN { next_starts.next() } else { Some(end) };
        let ranges = self.items().map(|(start, end)| [start, closed(end).expect("an end")]);
        Ok(ranges.flatten().collect())
    }
}

/// A fresh run.
fn ran(registrations: &[u64], bytes: &[u8]) -> Result<State, Head> {
    registrations.iter().try_fold(State::FRESH, |state, item| state.step(*item, bytes))
}

/// One call: a registration, or the end.
fn case(bytes: &[u8], state: &State, registration: Option<u64>) -> Case {
    let question = vec![bytes.to_vec(), state.part(), registration.map_or(Vec::new(), number)];
    let (head, results) = match registration {
        Some(item) => match state.registered(item, bytes) {
            Ok(next) => (Head::SUCCESS, vec![next.part(), Vec::new()]),
            // "refusals return the old state".
            Err(head) => (head, vec![state.part(), Vec::new()]),
        },
        None => match state.built(bytes) {
            Ok(ranges) => (Head::SUCCESS, vec![Vec::new(), row(&ranges)]),
            Err(head) => (head, vec![Vec::new(), Vec::new()]),
        },
    };
    Case { op: 52, question, head, results }
}

/// A message and the registrations to make over it, sound or damaged.
struct Message {
    bytes: Vec<u8>,
    registrations: Vec<u64>,
}

impl Message {
    fn random(rng: &mut Rng) -> Message {
        let Made::Question(_, question) = make::random(50, rng) else {
            panic!("a builder's question is not answered yet");
        };
        Message { bytes: question[0].clone(), registrations: to_row(&question[1]) }
    }

    /// The states of the run, up to its first refusal.
    fn states(&self) -> Vec<State> {
        let mut found = vec![State::FRESH];
        for item in &self.registrations {
            match found[found.len() - 1].step(*item, &self.bytes) {
                Ok(next) => found.push(next),
                Err(_) => break,
            }
        }
        found
    }
}

/// The registration that comes next, another one, or the end.
fn call(state: &State, message: &Message, rng: &mut Rng) -> Option<u64> {
    match rng.below(4) {
        0 => None,
        1 => Some(rng.pick(&[VARIABLE, 0, 1, 4, 8, LIMIT, LIMIT + 1, u64::MAX - 1])),
        _ => message.registrations.get(state.count as usize).copied(),
    }
}

/// The same bytes with a byte or an offset changed, cut, or longer.
fn changed(bytes: &[u8], rng: &mut Rng) -> Vec<u8> {
    let mut found = bytes.to_vec();
    match rng.below(4) {
        0 => found.truncate(rng.between(0, bytes.len() as u64) as usize),
        1 => found.extend(rng.bytes(1)),
        _ if bytes.is_empty() => (),
        2 => found[rng.below(bytes.len() as u64) as usize] ^= 1 << rng.below(8),
        _ => found[rng.below(bytes.len() as u64) as usize] = rng.byte(),
    }
    found
}

/// A number near the given one, or at a border.
fn other(value: u64, rng: &mut Rng) -> u64 {
    let near = [value.wrapping_add(1), value.wrapping_sub(1), value.wrapping_add(4)];
    let far = [0, 1, 4, 63, 64, 65, LIMIT, OPEN, OPEN - 1, 1 << 63, rng.below(100)];
    if rng.one_in(2) {
        rng.pick(&near)
    } else {
        rng.pick(&far)
    }
}

/// One number of the state changed: the count, the position, a start or an end, in use or not.
fn damaged(state: &State, rng: &mut Rng) -> State {
    let mut found = state.clone();
    let used = state.count.max(1);
    let place = if rng.one_in(3) { rng.below(64) } else { rng.below(used.min(64)) } as usize;
    match rng.below(5) {
        0 => found.count = other(state.count, rng),
        1 => found.pos = other(state.pos, rng),
        2 => found.starts[place] = other(state.starts[place], rng),
        3 => found.ends[place] = other(state.ends[place], rng),
        // Two items in each other's place.
        _ => {
            let second = rng.below(used.min(64)) as usize;
            found.starts.swap(place, second);
            found.ends.swap(place, second);
        }
    }
    found
}

pub fn cases(rng: &mut Rng, take: Take) {
    let messages: Vec<Message> = (0..MESSAGES).map(|_| Message::random(rng)).collect();
    for (at, message) in messages.iter().enumerate() {
        let states = message.states();
        for turn in 0..CASES_OF_EACH {
            let state = states[rng.below(states.len() as u64) as usize].clone();
            let call = call(&state, message, rng);
            take(match turn % 4 {
                0 => case(&message.bytes, &state, call),
                1 => case(&changed(&message.bytes, rng), &state, call),
                2 => case(&messages[(at + 1 + turn) % MESSAGES].bytes, &state, call),
                _ => case(&message.bytes, &damaged(&state, rng), call),
            });
        }
    }
    full(rng, take);
    small(take);
}

/// 64 items are registered: 26, but 23 first.
fn full(rng: &mut Rng, take: Take) {
    let offsets: Vec<u8> = (0..64).flat_map(|_| 256_u32.to_le_bytes()).collect();
    let rows = [(vec![3; 64], [1; 64]), (vec![], [0; 64]), (offsets, [VARIABLE; 64])];
    for (bytes, registrations) in rows {
        let state = ran(&registrations, &bytes).expect("64 items are registered");
        for call in [None, Some(0), Some(1), Some(VARIABLE), Some(LIMIT + 1)] {
            take(case(&bytes, &state, call));
            for _ in 0..20 {
                take(case(&bytes, &damaged(&state, rng), call));
                take(case(&changed(&bytes, rng), &state, call));
            }
        }
    }
}

/// Every state of a few numbers with one entry, over short bytes.
fn small(take: Take) {
    let strings: [&[u8]; 6] =
        [&[], &[7], &[4, 0, 0, 0], &[5, 0, 0, 0, 9], &[1, 0, 0, 0], &[0, 0, 0, 0, 4]];
    for bytes in strings {
        for state in small_states() {
            for call in [None, Some(1), Some(VARIABLE)] {
                take(case(bytes, &state, call));
            }
        }
    }
}

fn small_states() -> Vec<State> {
    let places = [0, 1, 4, 5];
    let mut found = Vec::new();
    for (count, pos) in (0..=2).flat_map(|count| places.map(|pos| (count, pos))) {
        for (start, end) in places.into_iter().flat_map(|s| [0, 1, 4, 5, OPEN].map(|e| (s, e))) {
            let mut state = State { count, pos, ..State::FRESH };
            (state.starts[0], state.ends[0]) = (start, end);
            found.push(state);
        }
    }
    found
}

#[cfg(test)]
mod tests {
    use super::*;
    use crate::format::to_number;

    /// The crate's own fresh runs: how many registrations it accepts, and what the end gives.
    #[test]
    fn fresh_runs_agree_with_the_crate() {
        let mut rng = Rng::new(11);
        for _ in 0..5_000 {
            let asked = make::random(50, &mut rng).case();
            let (bytes, registrations) = (&asked.question[0], to_row(&asked.question[1]));
            let message = Message { bytes: bytes.clone(), registrations: registrations.clone() };
            let states = message.states();
            assert_eq!(to_number(&asked.results[0]), states.len() as u64 - 1);
            let last = &states[states.len() - 1];
            assert!(last.is_reached(bytes));
            let own = match registrations.get(last.count as usize) {
                Some(item) => last.registered(*item, bytes).map(|_| unreachable!("a refusal")),
                None => last.built(bytes),
            };
            let ranges = own.as_ref().map_or(Vec::new(), |ranges| row(ranges));
            assert_eq!(own.map_or_else(|head| head, |_| Head::SUCCESS), asked.head);
            assert_eq!(ranges, asked.results[1]);
        }
    }

    #[test]
    fn a_foreign_state_is_refused_or_goes_on_as_a_fresh_run() {
        let (mut refused, mut went_on) = (0, 0);
        cases(&mut Rng::new(3), &mut |case| {
            let (bytes, told) = (&case.question[0], to_row(&case.question[1]));
            if case.head.number == 23 {
                refused += 1;
                return;
            }
            // Not refused: a fresh run of what the record tells comes to the very state.
            let state = State {
                count: told[0],
                pos: told[1],
                starts: told[2..66].try_into().unwrap(),
                ends: told[66..].try_into().unwrap(),
            };
            assert_eq!(ran(&state.registrations().unwrap(), bytes), Ok(state));
            went_on += 1;
        });
        assert!(refused > 4_000 && went_on > 4_000, "{refused} refused, {went_on} not");
    }
}
