//! A root for the crate's own `decode.rs`, so that `sanitize_offset` can be called.
//!
//! The crate keeps `sanitize_offset` to itself: `decode` is a private module and its root does not
//! hand the function on. `decode.rs`, `decode/` and `union_selector.rs` in this folder are links to
//! the crate's source, made by `prepare`. They name their surroundings by `super::*` and
//! `crate::*`, so the few names they use have to stand in this root.

// Most of what the linked files define is used through the crate itself and idle here.
#![allow(dead_code, unused_imports)]

mod decode;
mod union_selector;

pub use decode::{sanitize_offset, Decode, DecodeError};
pub use ssz::{BYTES_PER_LENGTH_OFFSET, MAX_UNION_SELECTOR};
pub use union_selector::UnionSelector;
