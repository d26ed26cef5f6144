//! Records of operation 70, and of 73 and 74 with buffers of any size.

use super::tables::checked;
use super::value::Form;
use super::writer::{written, Fault};
use crate::cases::{record, row};
use crate::rng::Rng;
use cartwhisker::Layout;

/// No record is longer.
const LONGEST: usize = 262_144;

/// A case as it is written, and what it is about.
#[derive(Clone, Debug)]
pub struct Case {
    pub op: u32,
    /// The answer's number, 0 for an acceptance.
    pub number: u64,
    /// Of a refusal 25.
    pub fault: Option<Fault>,
    /// Whose message or form it is, and what was done to it or to its buffers.
    pub subject: &'static str,
    pub what: &'static str,
    pub record: Vec<u8>,
}

/// An answer's head on a refusal: number, a, b, type, start.
pub type Head = [u64; 5];

/// Names the cases that are made of one value.
#[derive(Clone, Copy)]
pub struct About {
    pub subject: &'static str,
    pub what: &'static str,
}

fn case(op: u32, head: Head, fault: Option<Fault>, about: About, parts: &[&[u8]]) -> Option<Case> {
    let mut bytes = Vec::new();
    record(op, parts, &mut bytes).expect("a vector takes every byte");
    let About { subject, what } = about;
    (bytes.len() <= LONGEST).then_some(Case {
        op,
        number: head[0],
        fault,
        subject,
        what,
        record: bytes,
    })
}

pub fn bytes_of(words: &[u32]) -> Vec<u8> {
    words.iter().flat_map(|word| word.to_le_bytes()).collect()
}

/// The buffer with these bytes stored at its start and the rest kept.
fn stored(buffer: &[u8], bytes: &[u8]) -> Vec<u8> {
    [bytes, &buffer[bytes.len()..]].concat()
}

/// Operation 70: the table alone.
pub fn layout_check(about: About, table: &[u8]) -> Option<Case> {
    let head = match checked(table) {
        Ok(_) => [0; 5],
        Err(word) => [20, word as u64, 0, 0, 0],
    };
    case(70, head, None, about, &[table, &row(&head)])
}

/// Operation 73 with so many words and bytes of room.
pub fn unfolding(
    about: About,
    (table, message): (&[u8], &[u8]),
    told: &Result<Form, Head>,
    (words, bytes): (usize, usize),
    rng: &mut Rng,
) -> Option<Case> {
    let (contents, bodies) = (rng.bytes(4 * words), rng.bytes(bytes));
    let short = |form: &Form| form.contents.len() > words || form.bodies.len() > bytes;
    let refused = match told {
        Err(head) => Some(*head),
        Ok(form) if short(form) => {
            Some([22, form.contents.len() as u64, form.bodies.len() as u64, 0, 0])
        }
        Ok(_) => None,
    };
    let head = refused.unwrap_or_default();
    let ([first, second], contents_after, bodies_after) = match (refused, told) {
        (None, Ok(form)) => (
            [form.contents.len(), form.bodies.len()].map(|length| row(&[length as u64])),
            stored(&contents, &bytes_of(&form.contents)),
            stored(&bodies, &form.bodies),
        ),
        _ => (Default::default(), contents.clone(), bodies.clone()),
    };
    let answer = [&row(&head), &first, &second, &contents_after, &bodies_after];
    let [a, b, c, d, e] = answer.map(|part| &part[..]);
    case(73, head, None, about, &[table, message, &contents, &bodies, a, b, c, d, e])
}

/// What the writer is to answer: the message, or the refusal, which is 20 or 25.
pub fn message_of(table: &[u8], form: &Form) -> Result<Vec<u8>, (Head, Option<Fault>)> {
    let layout = checked(table).map_err(|word| ([20, word as u64, 0, 0, 0], None))?;
    under(&layout, form)
}

/// The same under a layout that is known to be legal.
pub fn under(layout: &Layout, form: &Form) -> Result<Vec<u8>, (Head, Option<Fault>)> {
    let refused = |wrong: super::Wrong| ([25, wrong.side, wrong.index, 0, 0], Some(wrong.fault));
    written(layout, form).map_err(refused)
}

/// Operation 74 with so many bytes of room.
pub fn writing(
    about: About,
    (table, form): (&[u8], &Form),
    told: &Result<Vec<u8>, (Head, Option<Fault>)>,
    room: usize,
    rng: &mut Rng,
) -> Option<Case> {
    let buffer = rng.bytes(room);
    let (head, fault, length, after) = match told {
        Err((head, fault)) => (*head, *fault, Vec::new(), buffer.clone()),
        Ok(message) if message.len() > room => {
            ([22, message.len() as u64, room as u64, 0, 0], None, Vec::new(), buffer.clone())
        }
        Ok(message) => ([0; 5], None, row(&[message.len() as u64]), stored(&buffer, message)),
    };
    let contents = bytes_of(&form.contents);
    let question: [&[u8]; 4] = [table, &contents, &form.bodies, &buffer];
    let answer: [&[u8]; 3] = [&row(&head), &length, &after];
    case(74, head, fault, about, &[&question[..], &answer[..]].concat())
}
