//! What the crate answers, as document 01 numbers it, and where ours is to answer otherwise.

use crate::watch::{Note, Notes};
use cartwhisker::{Kind, Layout, Record, Refusal, Type};
use ssz::DecodeError;

/// Where ours differs from the crate by a rule, and not by mistake.
#[derive(Clone, Copy, Debug, PartialEq, Eq, PartialOrd, Ord)]
pub enum Known {
    /// "Free bytes above their limit: 14" (document 01, rules of reading; reading 21 for limit 0).
    /// The crate's `Vec<u8>` has no limit: it takes the bytes and goes on.
    Limit,
    /// "Then 14 (count, limit)", "count above limit 14" (document 02, [1]). The crate's `Vec` has no
    /// limit either: it reads the elements, and may refuse one of them.
    Count,
    /// "1 (length, element length) if not a multiple" (reading 26). The crate cuts the list into
    /// pieces of the element's length, and it is the last, short one that it refuses, as an element
    /// of that kind is: with 12 for a bit vector.
    LastPiece,
    /// The same where an earlier element is bad too: the crate refuses that one.
    LengthFirst,
    /// "Further offsets 4, then 7, then 6; then elements in order" (reading 27). The crate reads each
    /// element as soon as its end is known, and refuses one that comes before the bad offset.
    OffsetsFirst,
}

impl Known {
    pub const ALL: [Known; 5] =
        [Known::Limit, Known::Count, Known::LastPiece, Known::LengthFirst, Known::OffsetsFirst];

    pub fn told(self) -> &'static str {
        match self {
            Known::Limit => "14 for free bytes above their limit, where the crate has no limit",
            Known::Count => "14 for a list above its limit, where the crate has no limit",
            Known::LastPiece => {
                "1 for a list whose length is no multiple, where the crate refuses its last piece"
            }
            Known::LengthFirst => {
                "1 for a list whose length is no multiple, where the crate refuses an element first"
            }
            Known::OffsetsFirst => {
                "4, 7 or 6 for a list's offset, where the crate refuses an earlier element first"
            }
        }
    }
}

/// What is expected of ours: the listing, or the refusal; and which known difference made it so.
pub struct Expected {
    pub answer: Result<Vec<Record>, Refusal>,
    pub known: Option<Known>,
}

/// A refusal's number, a and b.
pub type Numbers = (u32, u64, u64);

/// The crate's answer in our numbers, with the known differences.
///
/// Items are noted in the order in which ours checks them, and what the crate refuses it has noted.
/// So the first noted item that a rule of ours refuses, where the crate's rule is another, is what
/// ours refuses, and where there is none the crate's answer stands.
pub fn expected(
    layout: &Layout,
    message: &[u8],
    decoded: Result<(), DecodeError>,
    notes: &Notes,
    number_of: impl Fn(&Note) -> u32,
) -> Expected {
    let start = |note: &Note| note.address - message.as_ptr() as usize;
    let record = |note: &Note| {
        let start = start(note) as u32;
        let end = start + note.length as u32;
        Record { type_number: number_of(note), start, end }
    };
    let refused = |note: &Note, (number, a, b): Numbers| Refusal {
        number,
        a,
        b,
        type_number: number_of(note),
        start: start(note) as u64,
    };
    let theirs = decoded.as_ref().err().map(|error| {
        let failed = notes.failed.as_ref().expect("an error has a place");
        refused(failed, numbers(error))
    });
    let by_rule = notes.items.iter().find_map(|note| {
        let bytes = &message[start(note)..start(note) + note.length];
        let (numbers, rule) = by_rule(layout, Type::from_number(number_of(note)), bytes)?;
        // What the crate refuses inside of the item.
        let inside = theirs.filter(|theirs| {
            let range = start(note) as u64..=(start(note) + note.length) as u64;
            range.contains(&theirs.start) && theirs.type_number < number_of(note)
        });
        Some((refused(note, numbers), rule, inside))
    });
    if let Some((refusal, rule, inside)) = by_rule {
        if theirs == Some(refusal) {
            return Expected { answer: Err(refusal), known: None };
        }
        if let Some(known) = rule.known(&refusal, inside) {
            return Expected { answer: Err(refusal), known: Some(known) };
        }
    }
    let answer = match theirs {
        None => Ok(notes.items.iter().map(record).collect()),
        Some(refusal) => Err(refusal),
    };
    Expected { answer, known: None }
}

/// A rule that the crate does not have, or has in another place.
enum Rule {
    Limit,
    Count,
    /// So many bytes are whole elements, of this type; then some are left.
    Length(u64, Type),
    FirstOffset,
    FurtherOffset,
}

impl Rule {
    /// The known difference, if the crate says what it says where ours refuses by this rule.
    fn known(&self, ours: &Refusal, inside: Option<Refusal>) -> Option<Known> {
        match self {
            Rule::Limit => Some(Known::Limit),
            Rule::Count => Some(Known::Count),
            Rule::Length(whole, element) => {
                let theirs = inside?;
                let last = (ours.start + whole, element.number());
                match theirs.start {
                    start if start < last.0 => Some(Known::LengthFirst),
                    start => ((start, theirs.type_number) == last).then_some(Known::LastPiece),
                }
            }
            Rule::FirstOffset => None,
            Rule::FurtherOffset => inside.map(|_| Known::OffsetsFirst),
        }
    }
}

/// What our rules say of an item's own bytes, as far as the crate's may say otherwise.
fn by_rule(layout: &Layout, of: Type, bytes: &[u8]) -> Option<(Numbers, Rule)> {
    let length = bytes.len() as u64;
    match layout.kind(of)? {
        Kind::FreeBytes(limit) => over(length, *limit).map(|numbers| (numbers, Rule::Limit)),
        Kind::List(element, limit) => match layout.fixed_length(*element) {
            Some(each) if length % each != 0 => {
                Some(((1, length, each), Rule::Length(length / each * each, *element)))
            }
            Some(each) => over(length / each, *limit).map(|numbers| (numbers, Rule::Count)),
            None => by_offsets(bytes, *limit),
        },
        _ => None,
    }
}

/// "14 (length, limit)", "14 (count, limit)".
fn over(length: u64, limit: u32) -> Option<Numbers> {
    (length > u64::from(limit)).then_some((14, length, u64::from(limit)))
}

/// "Empty is no elements; else 2; first offset above the length 7; zero or not a multiple of four 15
/// (offset); count above limit 14; further offsets 4 (below the first), then 7, then 6."
fn by_offsets(bytes: &[u8], limit: u32) -> Option<(Numbers, Rule)> {
    if bytes.is_empty() {
        return None;
    }
    let length = bytes.len() as u64;
    let Some(first) = offset(bytes, 0) else {
        return Some(((2, length, 4), Rule::FirstOffset));
    };
    if first > length {
        return Some(((7, first, 0), Rule::FirstOffset));
    }
    if first == 0 || first % 4 != 0 {
        return Some(((15, first, 0), Rule::FirstOffset));
    }
    if let Some(numbers) = over(first / 4, limit) {
        return Some((numbers, Rule::Count));
    }
    // The first offset is within the bytes, so those in front of it are whole.
    let offsets: Vec<u64> = (0..first / 4).filter_map(|i| offset(bytes, 4 * i as usize)).collect();
    offsets.windows(2).find_map(|pair| {
        let number = match pair[1] {
            next if next < first => 4,
            next if next > length => 7,
            next if next < pair[0] => 6,
            _ => return None,
        };
        Some(((number, pair[1], 0), Rule::FurtherOffset))
    })
}

/// The offset at this place, if its four bytes are there.
fn offset(bytes: &[u8], at: usize) -> Option<u64> {
    let four = bytes.get(at..at + 4)?;
    Some(u64::from(u32::from_le_bytes(four.try_into().expect("four bytes"))))
}

/// The number, a and b of the crate's error.
pub fn numbers(error: &DecodeError) -> Numbers {
    let (number, a, b) = match error {
        DecodeError::InvalidByteLength { len, expected } => (1, *len, *expected),
        DecodeError::InvalidLengthPrefix { len, expected } => (2, *len, *expected),
        DecodeError::OutOfBoundsByte { i } => (3, *i, 0),
        DecodeError::OffsetIntoFixedPortion(offset) => (4, *offset, 0),
        DecodeError::OffsetSkipsVariableBytes(offset) => (5, *offset, 0),
        DecodeError::OffsetsAreDecreasing(offset) => (6, *offset, 0),
        DecodeError::OffsetOutOfBounds(offset) => (7, *offset, 0),
        DecodeError::UnionSelectorInvalid(selector) => (8, usize::from(*selector), 0),
        DecodeError::InvalidListFixedBytesLen(offset) => (15, *offset, 0),
        DecodeError::BytesInvalid(text) => by_text(text),
        other => panic!("no number for {other:?}"),
    };
    (number, a as u64, b as u64)
}

/// A bitfield's error and a boolean's come as text.
fn by_text(text: &str) -> (u32, usize, usize) {
    if let Some(byte) = text.strip_prefix("Out-of-range for boolean: ") {
        return (13, byte.parse().expect("the byte"), 0);
    }
    let error = ["BitList", "BitVector"]
        .iter()
        .find_map(|kind| text.strip_prefix(kind)?.strip_prefix(" failed to decode: "))
        .unwrap_or_else(|| panic!("no number for {text}"));
    let name = error.split(' ').next().unwrap_or("");
    let mut figures =
        error.split(|letter: char| !letter.is_ascii_digit()).filter(|part| !part.is_empty());
    let mut figure = || figures.next().map_or(0, |digits| digits.parse().expect("digits"));
    match name {
        "OutOfBounds" => (9, figure(), figure()),
        "MissingLengthInformation" => (10, 0, 0),
        "ExcessBits" => (11, 0, 0),
        "InvalidByteCount" => (12, figure(), figure()),
        _ => panic!("no number for {text}"),
    }
}
