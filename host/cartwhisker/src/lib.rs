//! Cartwhisker for Rust programs: is a message the SSZ encoding of a value under a layout, and if
//! not, what is wrong with it and where?
//!
//! The reader itself is proved and comes as an archive with two C calls; this crate holds safe
//! calls over them, a builder of layout tables and refusals in words. A message is accepted exactly
//! if one value under the layout is written as these very bytes.
//!
//! # A bid
//!
//! A bid has a price of 8 bytes, a note of at most 16 bytes and at most 8 flags:
//!
//! ```
//! use cartwhisker::{check, listing, Layout, Record};
//!
//! let mut layout = Layout::new();
//! let price = layout.number(8);
//! let note = layout.free_bytes(16);
//! let flags = layout.bit_list(8);
//! let bid = layout.container([price, note, flags]);
//! let table = layout.bytes();
//!
//! let message = [
//!     0x2a, 0, 0, 0, 0, 0, 0, 0, // the price, 42
//!     0x10, 0, 0, 0, // the note's offset
//!     0x13, 0, 0, 0, // the flags' offset
//!     0x0a, 0x0b, 0x0c, // the note
//!     0x0d, // the flags 1, 0, 1, and the set bit behind them
//! ];
//! assert_eq!(check(&table, &message), Ok(()));
//! assert_eq!(
//!     listing(&table, &message).unwrap(),
//!     [
//!         Record::new(bid, 0, 20),
//!         Record::new(price, 0, 8),
//!         Record::new(note, 16, 19),
//!         Record::new(flags, 19, 20),
//!     ]
//! );
//! ```
//!
//! A bid that is cut within an offset:
//!
//! ```
//! # let mut layout = cartwhisker::Layout::new();
//! # let (price, note, flags) = (layout.number(8), layout.free_bytes(16), layout.bit_list(8));
//! # layout.container([price, note, flags]);
//! # let message = [0x2a, 0, 0, 0, 0, 0, 0, 0, 0x10, 0, 0, 0];
//! let refusal = cartwhisker::check(&layout.bytes(), &message[..10]).unwrap_err();
//! assert_eq!((refusal.number, refusal.a, refusal.b), (2, 2, 4));
//! assert_eq!((refusal.type_number, refusal.start), (3, 0));
//! assert_eq!(
//!     refusal.to_string(),
//!     "refusal 2 (InvalidLengthPrefix) in the item of type 3 at byte 0: 2 bytes are left where \
//!      an offset takes 4; write the offset of every variable field or element whole"
//! );
//! ```
//!
//! # What it costs
//!
//! The check reads offsets, selectors, booleans and bits; numbers, fixed and free bytes are stepped
//! over, and a list or vector of numbers or fixed bytes at once. It allocates nothing. An accepted message is one C call; a refused one is asked for its
//! four further numbers.

#![deny(unsafe_code)]
#![warn(missing_debug_implementations)]

mod calls;
mod layout;
mod owners;
mod refusal;

use calls::Which;

pub use layout::{Kind, Layout, Type};
pub use owners::{owners, Owner, Part, Path, Step};
pub use refusal::Refusal;

/// Bytes of a record as the C call writes it.
pub const RECORD_BYTES: usize = 12;

/// An item of a message: its type and its bytes, from `start` up to but not including `end`.
#[derive(Clone, Copy, Debug, PartialEq, Eq, Hash)]
pub struct Record {
    pub type_number: u32,
    pub start: u32,
    pub end: u32,
}

impl Record {
    pub fn new(of: Type, start: u32, end: u32) -> Self {
        Self { type_number: of.number(), start, end }
    }

    pub fn type_handle(&self) -> Type {
        Type::from_number(self.type_number)
    }

    /// The item's bytes in its message.
    ///
    /// # Panics
    ///
    /// If this is another message, and shorter.
    pub fn bytes<'a>(&self, message: &'a [u8]) -> &'a [u8] {
        &message[self.start as usize..self.end as usize]
    }
}

/// Little-endian words; a cut last one is left out.
fn words(bytes: &[u8]) -> impl Iterator<Item = u32> + '_ {
    bytes.chunks_exact(4).map(|word| u32::from_le_bytes([word[0], word[1], word[2], word[3]]))
}

/// The refusal with this number, whose other numbers the same call gives.
#[cold]
fn refusal(number: u64, mut ask: impl FnMut(Which) -> u64) -> Refusal {
    Refusal {
        number: number as u32,
        a: ask(Which::A),
        b: ask(Which::B),
        type_number: ask(Which::Type) as u32,
        start: ask(Which::Start),
    }
}

/// Whether the message is the encoding of a value under the layout, which is given as its words in
/// little-endian bytes ([`Layout::bytes`]).
pub fn check(layout: &[u8], message: &[u8]) -> Result<(), Refusal> {
    match calls::check(layout, message, Which::Number) {
        0 => Ok(()),
        number => Err(refusal(number, |which| calls::check(layout, message, which))),
    }
}

/// The number of [`check`]'s refusal, or 0 for an accepted message: one call whatever the answer,
/// where the number is all that is asked.
pub fn check_number(layout: &[u8], message: &[u8]) -> u32 {
    calls::check(layout, message, Which::Number) as u32
}

/// Whether the layout is a legal table; if not, refusal 20 with its first bad word.
pub fn check_layout(layout: &[u8]) -> Result<(), Refusal> {
    // A bad table is told before anything of the message.
    check(layout, &[]).or_else(|refusal| if refusal.number == 20 { Err(refusal) } else { Ok(()) })
}

/// No type has this number, so a record that still has it was not written.
const UNWRITTEN: [u8; 4] = [0xff; 4];

/// The message's items in preorder: the whole message first, a container's fields behind it in
/// their order, a union's body behind the union, the elements of a list or vector behind it.
///
/// A byte of a list can be an item within as many as 63 others, so that the records can take several
/// hundred times the message's length: [`record_count`] says how many there are, and allocates none.
pub fn listing(layout: &[u8], message: &[u8]) -> Result<Vec<Record>, Refusal> {
    // Mostly there are no more items than words in the table, so a small table gets a small buffer;
    // long lists are counted first.
    if layout.len() <= 64 {
        listing_by_guess::<{ 16 * RECORD_BYTES }>(layout, message)
    } else {
        listing_by_guess::<{ 64 * RECORD_BYTES }>(layout, message)
    }
}

/// Tries with `ROOM` bytes on the stack before any records are counted.
///
/// A success keeps what is behind its records. So one call on a buffer of marks gives the records
/// and their count, and only a longer listing has to be counted first.
fn listing_by_guess<const ROOM: usize>(
    layout: &[u8],
    message: &[u8],
) -> Result<Vec<Record>, Refusal> {
    let mut guess = [UNWRITTEN[0]; ROOM];
    match calls::list(layout, message, &mut guess, Which::Number) {
        0 => Ok(written(&guess)),
        22 => {
            let count = calls::list(layout, message, &mut [], Which::A) as usize;
            let mut records = vec![UNWRITTEN[0]; count * RECORD_BYTES];
            match calls::list(layout, message, &mut records, Which::Number) {
                0 => Ok(written(&records)),
                number => {
                    Err(refusal(number, |which| calls::list(layout, message, &mut records, which)))
                }
            }
        }
        number => Err(refusal(number, |which| calls::list(layout, message, &mut guess, which))),
    }
}

/// The records of a buffer up to the first mark, in a vector of just that length.
fn written(buffer: &[u8]) -> Vec<Record> {
    let records = || buffer.chunks_exact(RECORD_BYTES);
    let count = records().take_while(|record| record[..4] != UNWRITTEN).count();
    let mut found = Vec::with_capacity(count);
    found.extend(buffer[..count * RECORD_BYTES].chunks_exact(RECORD_BYTES).map(record));
    found
}

fn record(bytes: &[u8]) -> Record {
    let bytes: &[u8; RECORD_BYTES] = bytes.try_into().expect("a record has so many bytes");
    let [a, b, c, d, e, f, g, h, i, j, k, l] = *bytes;
    Record {
        type_number: u32::from_le_bytes([a, b, c, d]),
        start: u32::from_le_bytes([e, f, g, h]),
        end: u32::from_le_bytes([i, j, k, l]),
    }
}

/// Writes the listing into a lent buffer, [`RECORD_BYTES`] a record, and gives the count of
/// records. This is the C call as it is: a buffer without room for them is refusal 22 with the
/// count and the room, a refusal leaves the buffer as it was, and what is behind the records stays.
///
/// ```
/// use cartwhisker::{list_into, Layout};
///
/// let mut layout = Layout::new();
/// layout.boolean();
/// let mut buffer = [7; 13];
/// assert_eq!(list_into(&layout.bytes(), &[1], &mut buffer), Ok(1));
/// assert_eq!(buffer, [0, 0, 0, 0, 0, 0, 0, 0, 1, 0, 0, 0, 7]);
/// let refusal = list_into(&layout.bytes(), &[1], &mut buffer[..11]).unwrap_err();
/// assert_eq!((refusal.number, refusal.a, refusal.b), (22, 1, 0));
/// ```
pub fn list_into(layout: &[u8], message: &[u8], records: &mut [u8]) -> Result<usize, Refusal> {
    match calls::list(layout, message, records, Which::Number) {
        0 => Ok(calls::list(layout, message, records, Which::A) as usize),
        number => Err(refusal(number, |which| calls::list(layout, message, records, which))),
    }
}

/// Like [`list_into`], with the number of the refusal, or 0, alone: one call whatever the answer.
pub fn list_number(layout: &[u8], message: &[u8], records: &mut [u8]) -> u32 {
    calls::list(layout, message, records, Which::Number) as u32
}

/// How many records the listing has: what a buffer for [`list_into`] must have room for.
pub fn record_count(layout: &[u8], message: &[u8]) -> Result<usize, Refusal> {
    // Every message has an item, so an empty buffer is always short: refusal 22 comes last and says
    // how many are needed.
    match list_into(layout, message, &mut []) {
        Ok(count) => Ok(count),
        Err(refusal) if refusal.number == 22 => Ok(refusal.a as usize),
        Err(refusal) => Err(refusal),
    }
}
