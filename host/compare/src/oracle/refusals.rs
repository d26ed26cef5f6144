//! The crate's errors and the numbers that document 01's table gives them.

use crate::format::Head;
use ssz::BitfieldError;

/// The same error comes as two types: the crate's own, and that of `decode.rs` under our root.
macro_rules! decode_errors {
    ($($root:ident)*) => { $(
        impl From<$root::DecodeError> for Head {
            fn from(error: $root::DecodeError) -> Head {
                use $root::DecodeError::*;
                let (number, a, b) = match error {
                    InvalidByteLength { len, expected } => (1, len, expected),
                    InvalidLengthPrefix { len, expected } => (2, len, expected),
                    OutOfBoundsByte { i } => (3, i, 0),
                    OffsetIntoFixedPortion(offset) => (4, offset, 0),
                    OffsetSkipsVariableBytes(offset) => (5, offset, 0),
                    OffsetsAreDecreasing(offset) => (6, offset, 0),
                    OffsetOutOfBounds(offset) => (7, offset, 0),
                    UnionSelectorInvalid(selector) => (8, usize::from(selector), 0),
                    other => panic!("no number for {other:?}"),
                };
                Head::new(number, a as u64, b as u64)
            }
        }
    )* };
}

decode_errors!(ssz open_decode);

impl From<BitfieldError> for Head {
    fn from(error: BitfieldError) -> Head {
        let (number, a, b) = match error {
            BitfieldError::OutOfBounds { i, len } => (9, i, len),
            BitfieldError::MissingLengthInformation => (10, 0, 0),
            BitfieldError::ExcessBits => (11, 0, 0),
            BitfieldError::InvalidByteCount { given, expected } => (12, given, expected),
        };
        Head::new(number, a as u64, b as u64)
    }
}
