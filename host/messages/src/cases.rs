//! Messages as recorded cases, operations 71 and 72 of docs/CASES.md: for who has no oracle.
//!
//! Of each type and each answer's number the shortest messages that a run comes by are kept; for the
//! recorded list, which has operation 72 from here, fewer. Heads and records are the crate's answers
//! with the known differences, as `answers` gives them; the counts of the value form are counted here
//! from the crate's slices. 20 is the answer of the model of a table's check.

use crate::answers::expected;
use crate::forms::{at_limits, checked};
use crate::rng::Rng;
use crate::types::Subject;
use crate::watch::Notes;
use crate::{damage, random_tables, types};
use cartwhisker::{Kind, Record, Refusal, Type, RECORD_BYTES};
use std::collections::{BTreeMap, BTreeSet};
use std::io::{self, Write};

/// A message with its answer.
#[derive(Clone, PartialEq, Eq, PartialOrd, Ord)]
struct Kept {
    /// First, so that the shortest come first.
    length: usize,
    message: Vec<u8>,
    table: Vec<u8>,
    answer: Answer,
}

impl Kept {
    fn new(subject: &Subject, message: &[u8], told: &Result<Vec<Record>, Refusal>) -> Self {
        Self {
            length: message.len(),
            message: message.to_vec(),
            table: subject.table.clone(),
            answer: answer(subject, message, told),
        }
    }

    /// A table that is refused with this head, whatever the message.
    fn refused(table: Vec<u8>, head: [u64; 5]) -> Self {
        let answer = Answer { head, records: Vec::new(), words: 0, bytes: 0 };
        Self { length: 0, message: Vec::new(), table, answer }
    }
}

#[derive(Clone, PartialEq, Eq, PartialOrd, Ord)]
struct Answer {
    /// Number, a, b, type, start.
    head: [u64; 5],
    /// The listing as it is written, and the counts of contents words and body bytes.
    records: Vec<u8>,
    words: u64,
    bytes: u64,
}

/// Messages of one type and one number that are kept; more of random tables, which are many types.
const KEPT: usize = 2;
const KEPT_OF_TABLES: usize = 12;

#[derive(Default)]
struct Sample {
    kept: BTreeMap<(&'static str, u64), Vec<Kept>>,
    notes: Notes,
}

impl Sample {
    fn take(&mut self, subject: &Subject, message: &[u8]) {
        let told = told(subject, message, &mut self.notes);
        let number = told.as_ref().map_or_else(|refusal| u64::from(refusal.number), |_| 0);
        let most = if subject.types.is_empty() { KEPT_OF_TABLES } else { KEPT };
        let kept = self.kept.entry((subject.name, number)).or_default();
        if kept.len() == most && kept.last().is_some_and(|last| last.length <= message.len()) {
            return;
        }
        let new = Kept::new(subject, message, &told);
        if let Err(place) = kept.binary_search(&new) {
            kept.insert(place, new);
            kept.truncate(most);
        }
    }
}

/// What is to be answered: the listing, or the refusal.
fn told(subject: &Subject, message: &[u8], notes: &mut Notes) -> Result<Vec<Record>, Refusal> {
    let decoded = (subject.decode)(message, notes);
    expected(&subject.layout, message, decoded, notes, |note| subject.number_of(note)).answer
}

fn answer(subject: &Subject, message: &[u8], told: &Result<Vec<Record>, Refusal>) -> Answer {
    match *told {
        Ok(ref records) => {
            let (words, bytes) = counts(subject, message, records);
            let records = records.iter().flat_map(written).collect();
            Answer { head: [0; 5], records, words, bytes }
        }
        Err(Refusal { number, a, b, type_number, start }) => Answer {
            head: [u64::from(number), a, b, u64::from(type_number), start],
            records: Vec::new(),
            words: 0,
            bytes: 0,
        },
    }
}

fn written(record: &Record) -> Vec<u8> {
    let words = [record.type_number, record.start, record.end];
    words.iter().flat_map(|word| word.to_le_bytes()).collect()
}

/// "Contents ... one word each: byte length of free bytes, bit length of a bit list, selector of a
/// union. Bodies: the leaves' bytes one after another, bitfields as raw bytes." "A contents word for
/// a list's count."
fn counts(subject: &Subject, message: &[u8], records: &[Record]) -> (u64, u64) {
    let (mut words, mut bytes) = (0, 0);
    for record in records {
        let body = record.bytes(message);
        match subject.layout.kind(Type::from_number(record.type_number)) {
            Some(Kind::Container(_) | Kind::Vector(..)) => (),
            Some(Kind::Union(_) | Kind::List(..)) => words += 1,
            Some(Kind::FreeBytes(_)) => {
                words += 1;
                bytes += body.len() as u64;
            }
            Some(Kind::BitList(_)) => {
                words += 1;
                let last = body.last().copied().unwrap_or(1);
                let bits = 8 * body.len() as u64 - 1 - u64::from(last.leading_zeros());
                bytes += bits.div_ceil(8).max(1);
            }
            _ => bytes += body.len() as u64,
        }
    }
    (words, bytes)
}

pub(crate) fn record(op: u32, parts: &[&[u8]], output: &mut dyn Write) -> io::Result<()> {
    output.write_all(&op.to_le_bytes())?;
    output.write_all(&(parts.len() as u32).to_le_bytes())?;
    for part in parts {
        output.write_all(&(part.len() as u32).to_le_bytes())?;
        output.write_all(part)?;
    }
    Ok(())
}

pub(crate) fn row(numbers: &[u64]) -> Vec<u8> {
    numbers.iter().flat_map(|number| number.to_le_bytes()).collect()
}

/// Operation 72 with so many bytes of room.
fn write_listing(
    kept: &Kept,
    room: usize,
    rng: &mut Rng,
    output: &mut dyn Write,
) -> io::Result<()> {
    let Kept { message, table, answer, .. } = kept;
    let needed = answer.records.len();
    let count = (needed / RECORD_BYTES) as u64;
    let before = rng.bytes(room);
    let mut after = before.clone();
    let (head, count) = if answer.head[0] != 0 {
        (row(&answer.head), Vec::new())
    } else if room < needed {
        (row(&[22, count, (room / RECORD_BYTES) as u64, 0, 0]), Vec::new())
    } else {
        after[..needed].copy_from_slice(&answer.records);
        (row(&answer.head), row(&[count]))
    };
    record(72, &[table, message, &before, &head, &count, &after], output)
}

/// Operation 71, and operation 72 with more room than is needed, just enough and too little.
fn write_case(kept: &Kept, rng: &mut Rng, output: &mut dyn Write) -> io::Result<u64> {
    let Kept { message, table, answer, .. } = kept;
    let accepted = answer.head[0] == 0;
    let number = |value: u64| if accepted { row(&[value]) } else { Vec::new() };
    let needed = answer.records.len();
    let counts = [(needed / RECORD_BYTES) as u64, answer.words, answer.bytes].map(number);
    let head = row(&answer.head);
    record(71, &[table, message, &head, &counts[0], &counts[1], &counts[2]], output)?;
    let rooms = if accepted {
        vec![needed + rng.below(30) as usize, needed, needed - 1, rng.below(needed as u64) as usize]
    } else {
        vec![rng.below(40) as usize]
    };
    for room in &rooms {
        write_listing(kept, *room, rng, output)?;
    }
    Ok(1 + rooms.len() as u64)
}

/// Asks about random values' encodings, values above their limits and damaged encodings, until there
/// are so many; with `tables` every other one is under a table at random.
fn ask(count: u64, tables: bool, rng: &mut Rng, take: &mut dyn FnMut(&Subject, &[u8])) {
    let subjects = types::all();
    let most = if tables { 2 * subjects.len() } else { subjects.len() };
    let mut asked = 0;
    while asked < count {
        for number in 0..most {
            let made;
            let subject = match subjects.get(number) {
                Some(subject) => subject,
                None => {
                    made = random_tables::subject(rng);
                    &made
                }
            };
            let valid = (subject.encode)(rng);
            let mut take = |message: &[u8]| {
                asked += 1;
                take(subject, message);
            };
            take(&valid);
            let above = subject.encode_above(rng);
            take(&above);
            damage::of(&subject.layout, &valid, rng, &mut take);
        }
    }
}

/// Writes the shortest messages that so many random ones show; gives the number of cases.
pub fn write(seed: u64, count: u64, output: &mut dyn Write) -> io::Result<u64> {
    let mut sample = Sample::default();
    let mut rng = Rng::new(seed);
    ask(count, true, &mut rng, &mut |subject, message| sample.take(subject, message));
    let mut cases = 0;
    for kept in sample.kept.values().flatten() {
        cases += write_case(kept, &mut rng, output)?;
    }
    output.flush()?;
    Ok(cases)
}

/// For the recorded list so many messages are looked through, and a refusal is kept of so many types.
const LOOKED: u64 = 200_000;
const REFUSED: usize = 6;
/// What is longer, table, message and listing together, is kept only if it names the most types.
const LONG: usize = 500;
/// Of so many bad tables at the limits one is kept.
const TABLES: usize = 6;

/// Why a message of a Rust type is kept.
#[derive(Clone, Copy, PartialEq, Eq, PartialOrd, Ord)]
enum Why {
    /// Its listing names as many types of the table as any.
    Most,
    /// Its listing names this type: lists are not all empty, and each body of a union is met.
    Names(u32),
    /// Its listing names a type twice: of lists it is the second element that shows the step.
    Twice,
    Refused(u64),
}

/// Of each Rust type the shortest message for each of these, and how many types it does not name.
#[derive(Default)]
struct Listings {
    kept: BTreeMap<(Why, &'static str), (usize, Kept)>,
    notes: Notes,
}

impl Listings {
    fn take(&mut self, subject: &Subject, message: &[u8]) {
        let told = told(subject, message, &mut self.notes);
        let reasons = match &told {
            Ok(records) => {
                let named: BTreeSet<u32> = records.iter().map(|item| item.type_number).collect();
                let lacking = subject.layout.kinds().len() - named.len();
                let twice = (named.len() < records.len()).then_some((Why::Twice, 0));
                let each = named.into_iter().map(|of| (Why::Names(of), 0));
                each.chain(twice).chain([(Why::Most, lacking)]).collect()
            }
            Err(refusal) => vec![(Why::Refused(u64::from(refusal.number)), 0)],
        };
        for (why, lacking) in reasons {
            let key = (why, subject.name);
            let old = self.kept.get(&key).map(|(lacking, kept)| (*lacking, kept.length));
            if old.map_or(true, |old| (lacking, message.len()) < old) {
                self.kept.insert(key, (lacking, Kept::new(subject, message, &told)));
            }
        }
    }
}

/// Writes cases of operation 72 for the recorded list, and gives their number: listings with as much
/// room as is needed or more, with too little, and refusals, of messages and of tables.
pub fn write_sample(seed: u64, output: &mut dyn Write) -> io::Result<u64> {
    let mut listings = Listings::default();
    let mut rng = Rng::new(seed);
    ask(LOOKED, false, &mut rng, &mut |subject, message| listings.take(subject, message));
    let mut chosen = BTreeSet::new();
    let mut short = BTreeSet::new();
    let mut refused: BTreeMap<u64, BTreeSet<&Kept>> = BTreeMap::new();
    for ((why, _), (_, kept)) in &listings.kept {
        let is_short = kept.table.len() + kept.length + kept.answer.records.len() <= LONG;
        if let Why::Refused(number) = why {
            refused.entry(*number).or_default().insert(kept);
        } else if is_short || *why == Why::Most {
            chosen.insert(kept);
        }
        if is_short && *why == Why::Most {
            short.insert(kept);
        }
    }
    let mut cases = 0;
    let mut put = |kept: &Kept, room: usize, rng: &mut Rng| {
        cases += 1;
        write_listing(kept, room, rng, output)
    };
    for kept in chosen {
        let more = rng.pick(&[0, 1, 7, 12, 29]);
        put(kept, kept.answer.records.len() + more, &mut rng)?;
    }
    for kept in short {
        let needed = kept.answer.records.len();
        let fewer = rng.below(needed as u64) as usize;
        let room = rng.pick(&[0, fewer, needed - 1]);
        put(kept, room, &mut rng)?;
    }
    let tables = at_limits().into_iter().filter_map(|table| {
        let word = checked(&table).err()?;
        Some(Kept::refused(table, [20, word as u64, 0, 0, 0]))
    });
    let tables: Vec<Kept> = tables.step_by(TABLES).collect();
    let messages = refused.into_values().flat_map(|all| all.into_iter().take(REFUSED));
    for kept in messages.chain(&tables) {
        let room = rng.below(30) as usize;
        put(kept, room, &mut rng)?;
    }
    output.flush()?;
    Ok(cases)
}
