//! What the crate's decoder does, reported by the types that it decodes.
//!
//! A container's fields and a union's body are decoded through `watched`, which notes the type and
//! the slice before the crate's own code sees it. Slices lie in the message, so their addresses are
//! their places; items are decoded in preorder, so the notes of an accepted message are its listing.

use crate::shapes::Shape;
use ssz::{Decode, DecodeError, Encode};
use std::any::TypeId;
use std::cell::RefCell;

/// An item that was handed out: which type, where, how long.
#[derive(Clone, Copy, Debug, PartialEq, Eq)]
pub struct Note {
    pub of: Tag,
    pub address: usize,
    pub length: usize,
}

/// A Rust type, or a type of a table.
#[derive(Clone, Copy, Debug, PartialEq, Eq)]
pub enum Tag {
    Rust(TypeId),
    Table(u32),
}

#[derive(Default)]
pub struct Notes {
    pub items: Vec<Note>,
    /// The innermost item that failed.
    pub failed: Option<Note>,
}

thread_local! {
    static NOTES: RefCell<Notes> = const { RefCell::new(Notes { items: Vec::new(), failed: None }) };
}

/// Decodes the item and notes it. The first to see an error is the innermost.
pub fn watched_as<T>(
    of: Tag,
    bytes: &[u8],
    decode: impl FnOnce(&[u8]) -> Result<T, DecodeError>,
) -> Result<T, DecodeError> {
    let note = Note { of, address: bytes.as_ptr() as usize, length: bytes.len() };
    NOTES.with_borrow_mut(|notes| notes.items.push(note));
    let decoded = decode(bytes);
    if decoded.is_err() {
        NOTES.with_borrow_mut(|notes| *notes.failed.get_or_insert(note));
    }
    decoded
}

pub fn watched<T: Shape>(bytes: &[u8]) -> Result<T, DecodeError> {
    watched_as(Tag::Rust(TypeId::of::<T>()), bytes, T::from_ssz_bytes)
}

/// Runs the decoder with no notes, and hands over those that it makes.
pub fn notes_of<T>(decode: impl FnOnce() -> T, notes: &mut Notes) -> T {
    NOTES.with_borrow_mut(|own| {
        std::mem::swap(own, notes);
        own.items.clear();
        own.failed = None;
    });
    let decoded = decode();
    NOTES.with_borrow_mut(|own| std::mem::swap(own, notes));
    decoded
}

/// A field of the crate's own tuples and options, watched.
pub struct At<T>(pub T);

impl<T: Shape> Decode for At<T> {
    fn is_ssz_fixed_len() -> bool {
        <T as Decode>::is_ssz_fixed_len()
    }

    fn ssz_fixed_len() -> usize {
        <T as Decode>::ssz_fixed_len()
    }

    fn from_ssz_bytes(bytes: &[u8]) -> Result<Self, DecodeError> {
        watched(bytes).map(At)
    }
}

impl<T: Shape> Encode for At<T> {
    fn is_ssz_fixed_len() -> bool {
        <T as Encode>::is_ssz_fixed_len()
    }

    fn ssz_fixed_len() -> usize {
        <T as Encode>::ssz_fixed_len()
    }

    fn ssz_bytes_len(&self) -> usize {
        self.0.ssz_bytes_len()
    }

    fn ssz_append(&self, buffer: &mut Vec<u8>) {
        self.0.ssz_append(buffer)
    }
}
