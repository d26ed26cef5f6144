//! The file of cases: records of parts, all numbers little-endian.

use crate::ops::{self, Kind};
use std::io::{self, Read, Write};

pub type Part = Vec<u8>;

/// No record is longer, so that a replaying program can set its memory aside beforehand.
pub const LONGEST_RECORD: usize = 262_144;

/// Room of a held bitfield in bits, and its bytes.
pub const HELD_BITS: u64 = 2_048;
pub const HELD_BYTES: usize = 256;

/// A builder's state and an encoder's as parts.
pub const BUILDER_BYTES: usize = 8 * 130;
pub const ENCODER_BYTES: usize = 8 * 3;

/// Stands in a row of registrations for a variable item.
pub const VARIABLE: u64 = u64::MAX;

/// An answer's head. Type and start are 0 for every operation that this driver asks about.
#[derive(Clone, Copy, PartialEq, Eq, Debug)]
pub struct Head {
    pub number: u64,
    pub a: u64,
    pub b: u64,
}

impl Head {
    pub const SUCCESS: Head = Head::new(0, 0, 0);

    pub const fn new(number: u64, a: u64, b: u64) -> Self {
        Self { number, a, b }
    }

    pub fn part(self) -> Part {
        row(&[self.number, self.a, self.b, 0, 0])
    }
}

/// Puts a record of these parts, question and answer, behind what is there.
pub fn put_record(record: &mut Vec<u8>, op: u32, parts: &[&[u8]]) {
    record.extend_from_slice(&op.to_le_bytes());
    record.extend_from_slice(&(parts.len() as u32).to_le_bytes());
    for part in parts {
        record.extend_from_slice(&(part.len() as u32).to_le_bytes());
        record.extend_from_slice(part);
    }
}

pub struct Case {
    pub op: u32,
    pub question: Vec<Part>,
    pub head: Head,
    pub results: Vec<Part>,
}

impl Case {
    /// The case's record. Panics if it does not have the shape that its operation has: a wrong
    /// file would otherwise be found out only by whoever replays it.
    pub fn record(&self) -> Vec<u8> {
        self.assert_shape();
        let head = self.head.part();
        let answer = std::iter::once(&head).chain(&self.results);
        let parts: Vec<&[u8]> = self.question.iter().chain(answer).map(|part| &part[..]).collect();
        let mut record = Vec::new();
        put_record(&mut record, self.op, &parts);
        assert!(record.len() <= LONGEST_RECORD, "record of operation {} too long", self.op);
        record
    }

    fn assert_shape(&self) {
        let op = ops::find(self.op).expect("an operation of the table");
        let refused = self.head.number != 0;
        assert_eq!(self.question.len(), op.asks.len(), "question of {}", op.name);
        assert_eq!(self.results.len(), op.gives.len(), "results of {}", op.name);
        for (part, kind) in self.question.iter().zip(op.asks) {
            assert!(fits(part, *kind), "{kind:?} in a question of {}", op.name);
        }
        for (part, kind) in self.results.iter().zip(op.gives) {
            let given = !refused || matches!(kind, Kind::Buffer | Kind::Count | Kind::BuilderAfter);
            let right = if given { fits(part, *kind) } else { part.is_empty() };
            assert!(right, "{kind:?} in an answer of {}", op.name);
        }
    }
}

fn fits(part: &[u8], kind: Kind) -> bool {
    match kind {
        Kind::Bytes | Kind::Buffer | Kind::Items => true,
        Kind::Number | Kind::Count => part.len() == 8,
        Kind::Maybe => part.is_empty() || part.len() == 8,
        Kind::Held => part.len() == HELD_BYTES + 16,
        Kind::Ranges => part.len() % 16 == 0,
        Kind::Registrations => part.len() % 8 == 0,
        Kind::Builder => part.len() == BUILDER_BYTES,
        Kind::BuilderAfter => part.is_empty() || part.len() == BUILDER_BYTES,
        Kind::Encoder => part.len() == ENCODER_BYTES,
        Kind::EncoderAfter => part.is_empty() || part.len() == ENCODER_BYTES,
    }
}

/// One number as a part.
pub fn number(value: u64) -> Part {
    value.to_le_bytes().to_vec()
}

/// Numbers in a row as a part.
pub fn row(values: &[u64]) -> Part {
    values.iter().flat_map(|value| value.to_le_bytes()).collect()
}

/// The number of a part. Panics if it is none.
pub fn to_number(part: &[u8]) -> u64 {
    u64::from_le_bytes(part.try_into().expect("a number of eight bytes"))
}

pub fn to_row(part: &[u8]) -> Vec<u64> {
    part.chunks(8).map(to_number).collect()
}

pub fn maybe(value: Option<u64>) -> Part {
    value.map_or(Vec::new(), number)
}

pub fn to_maybe(part: &[u8]) -> Option<u64> {
    (!part.is_empty()).then(|| to_number(part))
}

/// A held bitfield, whether or not it is one that a call could have given.
#[derive(Clone, PartialEq, Eq, Debug)]
pub struct Held {
    pub bytes: [u8; HELD_BYTES],
    pub length: u64,
    pub n: u64,
}

impl Held {
    pub fn zero(length: u64, n: u64) -> Self {
        Self { bytes: [0; HELD_BYTES], length, n }
    }

    pub fn with_bits(mut self, bits: &[u64]) -> Self {
        for bit in bits {
            self.bytes[(bit / 8) as usize] |= 1 << (bit % 8);
        }
        self
    }

    pub fn bit(&self, i: u64) -> bool {
        self.bytes[(i / 8) as usize] >> (i % 8) & 1 == 1
    }

    /// How many bytes are in use: at least one.
    pub fn raw_bytes(length: u64) -> usize {
        length.div_ceil(8).max(1) as usize
    }

    pub fn part(&self) -> Part {
        let mut part = self.bytes.to_vec();
        part.extend(row(&[self.length, self.n]));
        part
    }

    pub fn from_part(part: &[u8]) -> Self {
        Self {
            bytes: part[..HELD_BYTES].try_into().expect("a held bitfield"),
            length: to_number(&part[HELD_BYTES..HELD_BYTES + 8]),
            n: to_number(&part[HELD_BYTES + 8..]),
        }
    }
}

/// An item that an encoder is to append.
#[derive(Clone, PartialEq, Eq, Debug)]
pub struct Item {
    pub fixed: bool,
    pub bytes: Vec<u8>,
}

pub fn items(items: &[Item]) -> Part {
    let mut part = Vec::new();
    for item in items {
        part.extend(u32::from(!item.fixed).to_le_bytes());
        part.extend((item.bytes.len() as u32).to_le_bytes());
        part.extend(&item.bytes);
    }
    part
}

pub fn to_items(part: &[u8]) -> Vec<Item> {
    let mut rest = part;
    let mut found = Vec::new();
    while !rest.is_empty() {
        let word = |at: usize| u32::from_le_bytes(rest[at..at + 4].try_into().expect("a word"));
        let (kind, end) = (word(0), 8 + word(4) as usize);
        found.push(Item { fixed: kind == 0, bytes: rest[8..end].to_vec() });
        rest = &rest[end..];
    }
    found
}

/// The buffer with `bytes` stored at its start and the rest kept.
pub fn stored(buffer: &[u8], bytes: &[u8]) -> Part {
    let mut after = buffer.to_vec();
    after[..bytes.len()].copy_from_slice(bytes);
    after
}

/// A record as it stands in a file, its parts not yet told apart.
pub struct Raw {
    pub op: u32,
    pub parts: Vec<Part>,
}

/// The next record, or nothing at the file's end.
pub fn read_record(input: &mut impl Read) -> io::Result<Option<Raw>> {
    let mut first = [0; 1];
    if input.read(&mut first)? == 0 {
        return Ok(None);
    }
    let mut rest = [0; 3];
    input.read_exact(&mut rest)?;
    let op = u32::from_le_bytes([first[0], rest[0], rest[1], rest[2]]);
    let count = read_word(input)?;
    let mut parts = Vec::new();
    for _ in 0..count {
        let length = read_word(input)? as usize;
        if length > LONGEST_RECORD {
            return Err(io::Error::other("a part longer than a record may be"));
        }
        let mut part = vec![0; length];
        input.read_exact(&mut part)?;
        parts.push(part);
    }
    Ok(Some(Raw { op, parts }))
}

fn read_word(input: &mut impl Read) -> io::Result<u32> {
    let mut word = [0; 4];
    input.read_exact(&mut word)?;
    Ok(u32::from_le_bytes(word))
}

/// Writes a record and says how many bytes it took.
pub fn write_record(output: &mut impl Write, case: &Case) -> io::Result<usize> {
    let record = case.record();
    output.write_all(&record)?;
    Ok(record.len())
}

#[cfg(test)]
mod tests {
    use super::*;

    fn small() -> Case {
        Case {
            op: 1,
            question: vec![vec![7, 0, 0, 0, 9]],
            head: Head::SUCCESS,
            results: vec![number(7)],
        }
    }

    #[test]
    fn a_record_byte_by_byte() {
        let mut expected = vec![1, 0, 0, 0, 3, 0, 0, 0];
        expected.extend([5, 0, 0, 0, 7, 0, 0, 0, 9]);
        expected.extend([40, 0, 0, 0]);
        expected.extend([0; 40]);
        expected.extend([8, 0, 0, 0, 7, 0, 0, 0, 0, 0, 0, 0]);
        assert_eq!(small().record(), expected);
    }

    #[test]
    fn a_refusal_has_its_numbers_and_no_result() {
        let mut case = small();
        case.question = vec![vec![1]];
        case.head = Head::new(2, 1, 4);
        case.results = vec![Vec::new()];
        let record = case.record();
        assert_eq!(record[17..41], row(&[2, 1, 4])[..]);
        assert_eq!(record[41..57], [0; 16]);
        assert_eq!(record[57..], [0; 4]);
    }

    #[test]
    #[should_panic(expected = "Number in an answer of read_offset")]
    fn a_refusal_with_a_result_is_found_out() {
        let mut case = small();
        case.head = Head::new(2, 1, 4);
        case.record();
    }

    #[test]
    fn records_are_read_back() {
        let mut file = small().record();
        file.extend(small().record());
        let mut input = &file[..];
        for _ in 0..2 {
            let raw = read_record(&mut input).unwrap().unwrap();
            assert_eq!(raw.op, 1);
            assert_eq!(raw.parts.len(), 3);
            assert_eq!(raw.parts[0], [7, 0, 0, 0, 9]);
        }
        assert!(read_record(&mut input).unwrap().is_none());
        assert!(read_record(&mut &file[..20]).is_err());
    }

    #[test]
    fn held_fields_and_items_there_and_back() {
        let held = Held::zero(12, 17).with_bits(&[0, 11]);
        assert_eq!(held.part().len(), 272);
        assert_eq!(held.part()[..2], [1, 8]);
        assert_eq!(Held::from_part(&held.part()), held);
        let row = [Item { fixed: true, bytes: vec![] }, Item { fixed: false, bytes: vec![5, 6] }];
        let part = items(&row);
        assert_eq!(part, [0, 0, 0, 0, 0, 0, 0, 0, 1, 0, 0, 0, 2, 0, 0, 0, 5, 6]);
        assert_eq!(to_items(&part), row);
    }

    #[test]
    fn raw_bytes_of_lengths() {
        let found: Vec<usize> = [0, 1, 8, 9, 2_048].map(Held::raw_bytes).to_vec();
        assert_eq!(found, [1, 1, 1, 2, 256]);
    }
}
