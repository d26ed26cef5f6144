//! The public standard's cases and document 01's. No oracle is asked: what is expected stands here,
//! written from the standard's rules, a refusal's numbers from document 01's and document 02's.
//!
//! A name says where its case comes from:
//! - `example/..`: type, value and bytes well known from the tests of the standard's Python code;
//! - `ssz_generic/..`: a case of this shape is in the standard's ssz_generic tests, whose values are
//!   mostly random: type and fault are theirs, the bytes are the rule's;
//! - `rule/..`: neither; a neighbour of the others that the standard forbids as well;
//! - `document/..`: document 01's worked bid and proved cases.

mod elements;
mod shapes;
#[cfg(test)]
mod tests;
mod worked;

use crate::format::{number, put_record, row, Part};
use crate::Cases;
use std::io::{self, Write};

/// A message under a table, and what is to be said of it.
pub struct Asked {
    name: String,
    table: Vec<u8>,
    message: Vec<u8>,
    answer: Result<Form, Head>,
}

/// A refusal: number, a, b, type, start.
type Head = [u64; 5];

/// How many items the listing has, and the value form.
pub struct Form {
    records: usize,
    contents: Vec<u32>,
    bodies: Vec<u8>,
}

/// A type as the table's words have it, the kind first; the message has the last of them.
type Types<'a> = &'a [&'a [u32]];

const NUMBER: u32 = 0;
const BOOLEAN: u32 = 1;
const FREE: u32 = 3;
const VECTOR: u32 = 4;
const LIST: u32 = 5;
const CONTAINER: u32 = 6;
const UNION: u32 = 7;
const LIST_OF: u32 = 8;
const VECTOR_OF: u32 = 9;
const NO_BODY: u32 = u32::MAX;

const SINGLE: Types = &[&[NUMBER, 1], &[CONTAINER, 1, 0]];
const SMALL: Types = &[&[NUMBER, 2], &[CONTAINER, 2, 0, 0]];
const FIXED: Types = &[&[NUMBER, 1], &[NUMBER, 8], &[NUMBER, 4], &[CONTAINER, 3, 0, 1, 2]];
const BITS: Types = &[
    &[LIST, 5],
    &[VECTOR, 2],
    &[VECTOR, 1],
    &[LIST, 6],
    &[VECTOR, 8],
    &[CONTAINER, 5, 0, 1, 2, 3, 4],
];
const UNION_16: Types = &[&[NUMBER, 2], &[UNION, 1, 0]];
const MAYBE_16: Types = &[&[NUMBER, 2], &[UNION, 2, NO_BODY, 0]];
const EITHER: Types = &[&[NUMBER, 2], &[NUMBER, 4], &[UNION, 2, 0, 1]];

const LIST_16: Types = &[&[NUMBER, 2], &[LIST_OF, 0, 32]];
const LIST_32: Types = &[&[NUMBER, 4], &[LIST_OF, 0, 128]];
const VAR: Types = &[&[NUMBER, 2], &[LIST_OF, 0, 1024], &[NUMBER, 1], &[CONTAINER, 3, 0, 1, 2]];
const COMPLEX: Types = &[
    &[NUMBER, 2],
    &[LIST_OF, 0, 1024],
    &[NUMBER, 1],
    &[CONTAINER, 3, 0, 1, 2],
    &[LIST_OF, 0, 128],
    &[FREE, 256],
    &[NUMBER, 8],
    &[NUMBER, 4],
    &[CONTAINER, 3, 2, 6, 7],
    &[VECTOR_OF, 8, 4],
    &[VECTOR_OF, 3, 2],
    &[CONTAINER, 7, 0, 4, 2, 5, 3, 9, 10],
];

/// Name, type, serialization; the listing's items, contents, bodies.
type Example = (&'static str, Types<'static>, &'static str, usize, &'static [u32], &'static str);

const EXAMPLES: &[Example] = &[
    ("uint16 4567", &[&[NUMBER, 2]], "6745", 1, &[], "6745"),
    ("boolean F", &[&[BOOLEAN]], "00", 1, &[], "00"),
    ("boolean T", &[&[BOOLEAN]], "01", 1, &[], "01"),
    ("bitvector TTFTFTFF", &[&[VECTOR, 8]], "2b", 1, &[], "2b"),
    ("bitlist TTFTFTFF", &[&[LIST, 8]], "2b01", 1, &[8], "2b"),
    ("bitvector FTFT", &[&[VECTOR, 4]], "0a", 1, &[], "0a"),
    ("bitlist FTFT", &[&[LIST, 4]], "1a", 1, &[4], "0a"),
    ("bitvector FTF", &[&[VECTOR, 3]], "02", 1, &[], "02"),
    ("bitlist FTF", &[&[LIST, 3]], "0a", 1, &[3], "02"),
    ("bitvector TFTFFFTTFT", &[&[VECTOR, 10]], "c502", 1, &[], "c502"),
    ("bitlist TFTFFFTTFT", &[&[LIST, 16]], "c506", 1, &[10], "c502"),
    ("bitvector TFTFFFTTFTFFFFTT", &[&[VECTOR, 16]], "c5c2", 1, &[], "c5c2"),
    ("bitlist TFTFFFTTFTFFFFTT", &[&[LIST, 16]], "c5c201", 1, &[16], "c5c2"),
    ("SingleFieldTestStruct", SINGLE, "ab", 2, &[], "ab"),
    ("SmallTestStruct", SMALL, "67452301", 3, &[], "67452301"),
    ("FixedTestStruct", FIXED, "ab33221100ddccbbaa78563412", 4, &[], "ab33221100ddccbbaa78563412"),
    ("union uint16", UNION_16, "00bbaa", 2, &[0], "bbaa"),
    ("union None", MAYBE_16, "00", 1, &[0], ""),
    ("union None, uint16", MAYBE_16, "01bbaa", 2, &[1], "bbaa"),
    ("union uint16, uint32", EITHER, "01efbeadde", 2, &[1], "efbeadde"),
    ("uint16 list", LIST_16, "bbaaadc0ffee", 4, &[3], "bbaaadc0ffee"),
    ("uint32 list", LIST_32, "bbaa0000adc00000ffee0000", 4, &[3], "bbaa0000adc00000ffee0000"),
    ("VarTestStruct nil", VAR, "cdab07000000ff", 4, &[0], "cdabff"),
    ("VarTestStruct some", VAR, "cdab07000000ff010002000300", 7, &[3], "cdab010002000300ff"),
    ("complexTestStruct", COMPLEX, COMPLEX_MESSAGE, 46, &[2, 6, 3, 3, 3], COMPLEX_BODIES),
];

/// The offsets of B, D and E, then four FixedTestStruct, then the offset of G; B, foobar, E; in G two
/// offsets of its own and two VarTestStruct.
const COMPLEX_MESSAGE: &str = "bbaa 47000000 ff 4b000000 51000000 \
    cc424242424242424237133713 dd3333333333333333cdabcdab \
    ee444444444444444433221100 ff555555555555555577665544 5e000000 \
    22114433 666f6f626172 cdab07000000ff010002000300 \
    08000000 15000000 adde0700000011010002000300 efbe0700000022040005000600";
const COMPLEX_BODIES: &str = "bbaa 22114433 ff 666f6f626172 cdab 010002000300 ff \
    cc424242424242424237133713 dd3333333333333333cdabcdab \
    ee444444444444444433221100 ff555555555555555577665544 \
    adde 010002000300 11 efbe 040005000600 22";

/// All cases, in the order in which they are recorded.
pub fn all() -> Vec<Asked> {
    let examples = EXAMPLES.iter().map(|(name, types, message, records, contents, bodies)| {
        let contents = contents.to_vec();
        let form = Form { records: *records, contents, bodies: hex(bodies) };
        accepted(format!("example/{name}"), types, hex(message), form)
    });
    let shapes = shapes::all().chain(elements::all());
    examples.chain(long_examples()).chain(shapes).chain(worked::all()).collect()
}

/// 512 bits, all set.
fn long_examples() -> [Asked; 2] {
    let ones = vec![0xff; 64];
    let form = |contents| Form { records: 1, contents, bodies: ones.clone() };
    let marked = [&ones[..], &[1]].concat();
    let name = |what: &str| format!("example/long {what}");
    [
        accepted(name("bitvector"), &[&[VECTOR, 512]], ones.clone(), form(vec![])),
        accepted(name("bitlist"), &[&[LIST, 512]], marked, form(vec![512])),
    ]
}

fn accepted(name: String, types: Types, message: Vec<u8>, form: Form) -> Asked {
    Asked { name, table: table(types), message, answer: Ok(form) }
}

fn refused(name: String, types: Types, message: Vec<u8>, head: Head) -> Asked {
    Asked { name, table: table(types), message, answer: Err(head) }
}

/// "Word 0 is the number of types T. Words 1 to T say at which word each type's body starts."
fn table(types: Types) -> Vec<u8> {
    let mut words = vec![types.len() as u32];
    let mut start = types.len() + 1;
    for body in types {
        words.push(start as u32);
        start += body.len();
    }
    words.extend(types.concat());
    bytes_of(&words)
}

fn bytes_of(words: &[u32]) -> Vec<u8> {
    words.iter().flat_map(|word| word.to_le_bytes()).collect()
}

fn hex(text: &str) -> Vec<u8> {
    let digits: Vec<u8> =
        text.chars().filter_map(|digit| digit.to_digit(16)).map(|digit| digit as u8).collect();
    digits.chunks(2).map(|pair| 16 * pair[0] + pair[1]).collect()
}

/// What a lent buffer holds before the call; it has room for one more than is needed.
const FILLER: u8 = 0xa5;

impl Asked {
    /// 0 for an acceptance.
    fn refusal(&self) -> u64 {
        self.answer.as_ref().err().map_or(0, |head| head[0])
    }

    fn head(&self) -> Part {
        row(self.answer.as_ref().err().unwrap_or(&[0; 5]))
    }

    /// A result, which on a refusal is empty.
    fn told(&self, count: impl Fn(&Form) -> usize) -> Part {
        self.answer.as_ref().map_or(Part::new(), |form| number(count(form) as u64))
    }

    /// A buffer for the form's contents or its bodies, before and after the call.
    fn lent(&self, each: usize, part: impl Fn(&Form) -> Vec<u8>) -> [Part; 2] {
        let bytes = self.answer.as_ref().map_or(Part::new(), part);
        let before = vec![FILLER; bytes.len() + each];
        [before, [bytes, vec![FILLER; each]].concat()]
    }

    fn check(&self) -> Vec<Part> {
        let counts =
            [self.told(|form| form.records), self.told(Form::words), self.told(Form::bytes)];
        let asked = vec![self.table.clone(), self.message.clone(), self.head()];
        [asked, counts.into()].concat()
    }

    fn unfolding(&self) -> Vec<Part> {
        let [contents, contents_after] = self.lent(4, Form::contents);
        let [bodies, bodies_after] = self.lent(1, |form| form.bodies.clone());
        let asked = vec![self.table.clone(), self.message.clone(), contents, bodies, self.head()];
        let told = vec![self.told(Form::words), self.told(Form::bytes)];
        [asked, told, vec![contents_after, bodies_after]].concat()
    }

    /// Of a value only: a message that is refused has no form.
    fn writing(&self) -> Option<Vec<Part>> {
        let form = self.answer.as_ref().ok()?;
        let [buffer, after] = self.lent(1, |_| self.message.clone());
        let asked = vec![self.table.clone(), form.contents(), form.bodies.clone(), buffer];
        Some([asked, vec![self.head(), number(self.message.len() as u64), after]].concat())
    }

    /// Each operation's record.
    fn records(&self) -> Vec<(u32, Vec<u8>)> {
        let asked = [(71, Some(self.check())), (73, Some(self.unfolding())), (74, self.writing())];
        let made = asked.into_iter().filter_map(|(op, parts)| Some((op, parts?)));
        made.map(|(op, parts)| {
            let mut record = Vec::new();
            put_record(&mut record, op, &parts.iter().map(|part| &part[..]).collect::<Vec<_>>());
            (op, record)
        })
        .collect()
    }
}

impl Form {
    fn words(&self) -> usize {
        self.contents.len()
    }

    fn bytes(&self) -> usize {
        self.bodies.len()
    }

    fn contents(&self) -> Vec<u8> {
        bytes_of(&self.contents)
    }
}

/// Writes the file, and prints each case's name behind the number of its first record.
pub fn write(out: &str) -> io::Result<()> {
    let mut cases = Cases::create(out, (0, 1))?;
    for asked in all() {
        println!("{:>5}  {}", cases.seen, asked.name);
        for (op, record) in asked.records() {
            cases.output.write_all(&record)?;
            cases.tally.add(op, asked.refusal(), record.len());
            cases.seen += 1;
        }
    }
    cases.end()
}
