//! The operations that this driver asks about: their numbers, names and the shapes of their parts.

/// What a part holds.
#[derive(Clone, Copy, PartialEq, Eq, Debug)]
pub enum Kind {
    /// Bytes that are only read, or that are a result.
    Bytes,
    /// Eight bytes.
    Number,
    /// Eight bytes, or none for the crate's `None`.
    Maybe,
    /// 256 bytes, length, N.
    Held,
    /// Pairs of numbers: start, end.
    Ranges,
    /// Numbers: a fixed length each, or `VARIABLE`.
    Registrations,
    /// Items of an encoder.
    Items,
    /// A lent buffer: whole in the question and whole in the answer, refused or not.
    Buffer,
    /// A number that is given on a refusal too.
    Count,
    /// A builder's state: count, position, 64 starts, 64 ends.
    Builder,
    /// The same behind a registration, refused or not; none behind the end.
    BuilderAfter,
    /// An encoder's state: fixed size, bytes used of each buffer.
    Encoder,
    /// The same behind an append; none behind the end.
    EncoderAfter,
}

pub struct Op {
    pub number: u32,
    pub name: &'static str,
    pub asks: &'static [Kind],
    pub gives: &'static [Kind],
}

use Kind::*;

const fn op(number: u32, name: &'static str, asks: &'static [Kind], gives: &'static [Kind]) -> Op {
    Op { number, name, asks, gives }
}

pub const OPS: &[Op] = &[
    op(1, "read_offset", &[Bytes], &[Number]),
    op(2, "encode_length", &[Number], &[Bytes]),
    op(3, "sanitize_offset", &[Number, Maybe, Number, Maybe], &[Number]),
    op(4, "split_union_bytes", &[Bytes], &[Number, Bytes]),
    op(10, "BitList with_capacity", &[Number, Number], &[Held]),
    op(11, "BitList from_bytes", &[Bytes, Number], &[Held]),
    op(12, "BitList into_bytes", &[Held, Buffer], &[Number, Buffer]),
    op(13, "BitList intersection", &[Held, Held], &[Held]),
    op(14, "BitList union", &[Held, Held], &[Held]),
    op(15, "BitList is_subset", &[Held, Held], &[Number]),
    op(16, "BitList resize", &[Held, Number], &[Held]),
    op(17, "BitList clone_zeroed", &[Held], &[Held]),
    op(18, "BitList set", &[Held, Number, Number], &[Held]),
    op(19, "BitList get", &[Held, Number], &[Number]),
    op(20, "BitList highest_set_bit", &[Held], &[Number]),
    op(21, "BitList is_zero", &[Held], &[Number]),
    op(22, "BitList num_set_bits", &[Held], &[Number]),
    op(23, "BitList difference", &[Held, Held], &[Held]),
    op(24, "BitList not", &[Held], &[Held]),
    op(25, "BitList shift_up", &[Held, Number], &[Held]),
    op(30, "BitVector new", &[Number], &[Held]),
    op(31, "BitVector from_bytes", &[Bytes, Number], &[Held]),
    op(32, "BitVector into_bytes", &[Held, Buffer], &[Number, Buffer]),
    op(33, "BitVector intersection", &[Held, Held], &[Held]),
    op(34, "BitVector union", &[Held, Held], &[Held]),
    op(35, "BitVector is_subset", &[Held, Held], &[Number]),
    op(38, "BitVector set", &[Held, Number, Number], &[Held]),
    op(39, "BitVector get", &[Held, Number], &[Number]),
    op(40, "BitVector highest_set_bit", &[Held], &[Number]),
    op(41, "BitVector is_zero", &[Held], &[Number]),
    op(42, "BitVector num_set_bits", &[Held], &[Number]),
    op(43, "BitVector difference", &[Held, Held], &[Held]),
    op(44, "BitVector not", &[Held], &[Held]),
    op(45, "BitVector shift_up", &[Held, Number], &[Held]),
    op(50, "builder", &[Bytes, Registrations], &[Count, Ranges]),
    op(51, "reader's item", &[Bytes, Ranges, Number], &[Bytes]),
    op(60, "encoder", &[Number, Items, Buffer, Buffer], &[Count, Number, Buffer, Buffer]),
];

/// Operations that this driver reads and does not ask by their parts: `messages` makes their cases.
const MESSAGES: &[Op] = &[
    op(70, "layout check", &[Bytes], &[]),
    op(71, "message check", &[Bytes, Bytes], &[Number, Number, Number]),
    op(72, "listing", &[Bytes, Bytes, Buffer], &[Number, Buffer]),
    op(73, "unfolding", &[Bytes, Bytes, Buffer, Buffer], &[Number, Number, Buffer, Buffer]),
    op(74, "value writer", &[Bytes, Bytes, Bytes, Buffer], &[Number, Buffer]),
];

/// Operations of our own, which the crate cannot be asked: `document` makes their cases.
const STATES: &[Op] = &[
    op(52, "builder's state", &[Bytes, Builder, Maybe], &[BuilderAfter, Ranges]),
    op(61, "encoder's state", &[Encoder, Items, Buffer, Buffer], STATE_GIVES),
];

const STATE_GIVES: &[Kind] = &[EncoderAfter, Maybe, Buffer, Buffer];

pub fn find(number: u32) -> Option<&'static Op> {
    OPS.iter().chain(STATES).chain(MESSAGES).find(|op| op.number == number)
}

/// A BitVector's operation has the number of the BitList's plus 20.
pub const VECTOR: u32 = 20;

pub fn is_vector(op: u32) -> bool {
    (30..=45).contains(&op)
}

/// The number that the same call has for a BitList.
pub fn as_list(op: u32) -> u32 {
    if is_vector(op) {
        op - VECTOR
    } else {
        op
    }
}

/// The operations of a list as `1-4,11,50`. A range leaves out the numbers that are no operation.
pub fn parse_list(text: &str) -> Result<Vec<u32>, String> {
    let mut found = Vec::new();
    for item in text.split(',') {
        let (low, high) = item.split_once('-').unwrap_or((item, item));
        let read =
            |t: &str| t.trim().parse::<u32>().map_err(|_| format!("no list of operations: {text}"));
        let (low, high) = (read(low)?, read(high)?);
        let before = found.len();
        found.extend(OPS.iter().map(|op| op.number).filter(|n| (low..=high).contains(n)));
        if found.len() == before {
            return Err(format!("no operation is numbered {item}"));
        }
    }
    found.sort_unstable();
    found.dedup();
    Ok(found)
}

#[cfg(test)]
mod tests {
    use super::*;

    #[test]
    fn lists_of_operations() {
        assert_eq!(parse_list("3,1-2").unwrap(), [1, 2, 3]);
        assert_eq!(parse_list("35-38").unwrap(), [35, 38]);
        assert!(parse_list("36").is_err());
        assert!(parse_list("one").is_err());
    }

    #[test]
    fn vector_operations_mirror_those_of_lists() {
        for op in OPS.iter().filter(|op| is_vector(op.number) && op.number != 30) {
            let list = find(as_list(op.number)).unwrap();
            assert_eq!(op.asks, list.asks);
            assert_eq!(op.gives, list.gives);
            assert_eq!(op.name.replace("BitVector", "BitList"), list.name);
        }
    }
}
