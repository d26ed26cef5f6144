//! The comparison itself, and what it found.

use crate::answers::{expected, Known};
use crate::types::Subject;
use crate::watch::Notes;
use cartwhisker::{check, list_into, listing, Record, Refusal, RECORD_BYTES};
use std::collections::btree_map::{BTreeMap, Entry};
use std::fmt;
use std::time::{Duration, Instant};

/// Something that was seen so many times, with the shortest message that shows it.
struct Seen {
    count: u64,
    message: Vec<u8>,
    told: String,
}

impl Seen {
    fn first(message: &[u8], told: String) -> Self {
        Self { count: 1, message: message.to_vec(), told }
    }

    /// Once more; the text is asked for only if the message is the shortest so far.
    fn again(&mut self, message: &[u8], told: impl FnOnce() -> String) {
        self.count += 1;
        if message.len() < self.message.len() {
            (self.message, self.told) = (message.to_vec(), told());
        }
    }
}

#[derive(Default)]
struct Tally {
    cases: u64,
    /// By the answer's number, 0 for an acceptance.
    numbers: BTreeMap<u32, u64>,
}

pub struct Report {
    goal: u64,
    count: u64,
    tallies: Vec<(&'static str, Tally)>,
    known: BTreeMap<Known, Seen>,
    /// By the subject's name and the two numbers.
    differences: BTreeMap<(&'static str, u32, u32), Seen>,
    notes: Notes,
    buffer: Vec<u8>,
    begun: Instant,
    told: Duration,
}

/// Every so many comparisons the clock is looked at.
const LOOK: u64 = 1 << 14;
/// A run that takes longer tells how far it is, this often.
const PROGRESS: Duration = Duration::from_secs(5);
/// Differences that are printed.
const SHOWN: usize = 20;

impl Report {
    pub fn new(goal: u64) -> Self {
        Self {
            goal,
            count: 0,
            tallies: Vec::new(),
            known: BTreeMap::new(),
            differences: BTreeMap::new(),
            notes: Notes::default(),
            buffer: Vec::new(),
            begun: Instant::now(),
            told: Duration::ZERO,
        }
    }

    pub fn count(&self) -> u64 {
        self.count
    }

    pub fn differences(&self) -> u64 {
        self.differences.values().map(|difference| difference.count).sum()
    }

    /// How often each known difference was met.
    pub fn known(&self) -> Vec<(&'static str, u64)> {
        let count = |known| self.known.get(&known).map_or(0, |seen| seen.count);
        Known::ALL.map(|known| (known.told(), count(known))).into()
    }

    pub fn reached(&self) -> BTreeMap<u32, u64> {
        let mut all = BTreeMap::new();
        for (number, count) in self.tallies.iter().flat_map(|(_, tally)| &tally.numbers) {
            *all.entry(*number).or_default() += count;
        }
        all
    }

    /// Compares a message that must be accepted; says whether ours does.
    pub fn compare_valid(&mut self, subject: &Subject, message: &[u8]) -> bool {
        self.compare(subject, message);
        let told = check(&subject.table, message);
        if let Err(refusal) = told {
            self.differ(subject, message, 0, refusal.number, format!("a valid message: {refusal}"));
        }
        told.is_ok()
    }

    pub fn compare(&mut self, subject: &Subject, message: &[u8]) {
        let decoded = (subject.decode)(message, &mut self.notes);
        let expected = expected(&subject.layout, message, decoded, &self.notes, |note| {
            subject.number_of(note)
        });
        let ours = self.ours(subject, message);
        let number = |answer: &Result<Vec<Record>, Refusal>| {
            answer.as_ref().map_or_else(|refusal| refusal.number, |_| 0)
        };
        self.add(subject.name, number(&expected.answer));
        if let Some(known) = expected.known {
            let told = || format!("{}, table {:?}", subject.name, subject.layout.words());
            match self.known.entry(known) {
                Entry::Occupied(mut seen) => seen.get_mut().again(message, told),
                Entry::Vacant(none) => drop(none.insert(Seen::first(message, told()))),
            }
        }
        if ours != expected.answer {
            let told = format!("expected {:?}, ours {ours:?}", expected.answer);
            self.differ(subject, message, number(&expected.answer), number(&ours), told);
        }
    }

    /// What ours says: the check and the listing must say the same, and now and then the listing
    /// is asked for with every kind of room.
    fn ours(&mut self, subject: &Subject, message: &[u8]) -> Result<Vec<Record>, Refusal> {
        let checked = check(&subject.table, message);
        let listed = listing(&subject.table, message);
        if listed.as_ref().map(|_| ()) != checked.as_ref().map(|_| ()) {
            let told = format!("check says {checked:?}, listing {listed:?}");
            self.differ(subject, message, u32::MAX, u32::MAX, told);
        }
        if self.count % 64 == 0 {
            if let Err(told) = self.rooms(subject, message, &listed) {
                self.differ(subject, message, u32::MAX, u32::MAX, told);
            }
        }
        listed
    }

    /// Too little room, just enough, and more: what is refused, what is written, what is kept.
    fn rooms(
        &mut self,
        subject: &Subject,
        message: &[u8],
        listed: &Result<Vec<Record>, Refusal>,
    ) -> Result<(), String> {
        let count = listed.as_ref().map_or(1, |records| records.len());
        let whole = count * RECORD_BYTES;
        for room in [0, whole - RECORD_BYTES, whole - 1, whole, whole + 1, whole + RECORD_BYTES] {
            self.buffer.clear();
            self.buffer.resize(room, 0xa5);
            let told = list_into(&subject.table, message, &mut self.buffer);
            let expected = match listed {
                Ok(_) if room < whole => Err(Refusal {
                    number: 22,
                    a: count as u64,
                    b: (room / RECORD_BYTES) as u64,
                    type_number: 0,
                    start: 0,
                }),
                Ok(_) => Ok(count),
                Err(refusal) => Err(*refusal),
            };
            let mut after: Vec<u8> = match (listed, &expected) {
                (Ok(records), Ok(_)) => records.iter().flat_map(written).collect(),
                _ => Vec::new(),
            };
            after.resize(room, 0xa5);
            if told != expected || self.buffer != after {
                return Err(format!("with room for {room} bytes: {told:?}, {:?}", self.buffer));
            }
        }
        Ok(())
    }

    fn add(&mut self, name: &'static str, number: u32) {
        // The last one that was asked is asked again, mostly.
        let at = match self.tallies.iter().rposition(|(other, _)| *other == name) {
            Some(at) => at,
            None => {
                self.tallies.push((name, Tally::default()));
                self.tallies.len() - 1
            }
        };
        let tally = &mut self.tallies[at].1;
        tally.cases += 1;
        *tally.numbers.entry(number).or_default() += 1;
        self.count += 1;
        if self.count % LOOK == 0 {
            self.progress();
        }
    }

    fn progress(&mut self) {
        let taken = self.begun.elapsed();
        if taken >= self.told + PROGRESS {
            self.told = taken;
            eprintln!(
                "{:>6} s: {} of {} comparisons, {} differences",
                taken.as_secs(),
                self.count,
                self.goal.max(self.count),
                self.differences()
            );
        }
    }

    fn differ(&mut self, subject: &Subject, message: &[u8], theirs: u32, ours: u32, told: String) {
        let told = format!("{told}, table {:?}", subject.layout.words());
        match self.differences.entry((subject.name, theirs, ours)) {
            Entry::Occupied(mut seen) => seen.get_mut().again(message, || told),
            Entry::Vacant(none) => drop(none.insert(Seen::first(message, told))),
        }
    }
}

fn written(record: &Record) -> Vec<u8> {
    let words = [record.type_number, record.start, record.end];
    words.iter().flat_map(|word| word.to_le_bytes()).collect()
}

fn hex(bytes: &[u8]) -> String {
    if bytes.is_empty() {
        return "no bytes".to_string();
    }
    bytes.iter().map(|byte| format!("{byte:02x}")).collect::<Vec<String>>().join(" ")
}

fn listed(numbers: &BTreeMap<u32, u64>) -> String {
    let refusals = numbers.iter().filter(|(number, _)| **number != 0);
    let each: Vec<String> = refusals.map(|(number, count)| format!("{number}: {count}")).collect();
    if each.is_empty() {
        "none".to_string()
    } else {
        each.join(", ")
    }
}

impl fmt::Display for Report {
    fn fmt(&self, out: &mut fmt::Formatter) -> fmt::Result {
        writeln!(out, "{:34}{:>11}{:>11}  refusals", "type", "compared", "accepted")?;
        for (name, tally) in &self.tallies {
            let accepted = tally.numbers.get(&0).copied().unwrap_or(0);
            let refused = listed(&tally.numbers);
            writeln!(out, "{name:34}{:>11}{accepted:>11}  {refused}", tally.cases)?;
        }
        writeln!(out, "refusals by number: {}", listed(&self.reached()))?;
        for (known, seen) in &self.known {
            writeln!(out, "known difference, {} times: {}", seen.count, known.told())?;
            writeln!(out, "  the shortest message: {}, {}", hex(&seen.message), seen.told)?;
        }
        // The shortest message first: it is the one to look at.
        let mut found: Vec<_> = self.differences.iter().collect();
        found.sort_by_key(|(_, seen)| seen.message.len());
        for ((name, _, _), seen) in found.into_iter().take(SHOWN) {
            writeln!(out, "DIFFERS {} times: {name}: {}", seen.count, hex(&seen.message))?;
            writeln!(out, "  {}", seen.told)?;
        }
        if self.differences.len() > SHOWN {
            writeln!(out, "and {} more kinds of difference", self.differences.len() - SHOWN)?;
        }
        write!(
            out,
            "{} comparisons in {:.1} s, {} differences",
            self.count,
            self.begun.elapsed().as_secs_f64(),
            self.differences()
        )
    }
}
