//! The few shapes of `alloy_primitives` that the oracle implements its traits for.
//!
//! No comparison goes through here: these are byte arrays with the names and the methods that the
//! oracle's source mentions, and nothing else.

use std::ops::Deref;

#[derive(Clone, Copy, Debug, PartialEq, Eq)]
pub struct FixedBytes<const N: usize>(pub [u8; N]);

impl<const N: usize> FixedBytes<N> {
    /// Panics if the length is another, as an array's own copy does.
    pub fn from_slice(bytes: &[u8]) -> Self {
        let mut array = [0; N];
        array.copy_from_slice(bytes);
        Self(array)
    }

    pub fn as_slice(&self) -> &[u8] {
        &self.0
    }
}

impl<const N: usize> Deref for FixedBytes<N> {
    type Target = [u8; N];

    fn deref(&self) -> &[u8; N] {
        &self.0
    }
}

/// A byte array under a name of its own.
macro_rules! named_array {
    ($name:ident, $length:literal) => {
        #[derive(Clone, Copy, Debug, PartialEq, Eq)]
        pub struct $name(pub FixedBytes<$length>);

        impl $name {
            pub fn from_slice(bytes: &[u8]) -> Self {
                Self(FixedBytes::from_slice(bytes))
            }

            pub fn as_slice(&self) -> &[u8] {
                self.0.as_slice()
            }

            pub fn from_le_slice(bytes: &[u8]) -> Self {
                Self::from_slice(bytes)
            }

            pub fn as_le_slice(&self) -> &[u8] {
                self.as_slice()
            }
        }
    };
}

named_array!(Address, 20);
named_array!(Bloom, 256);
named_array!(U128, 16);
named_array!(U256, 32);

#[derive(Clone, Debug, PartialEq, Eq)]
pub struct Bytes(pub Vec<u8>);

impl From<Vec<u8>> for Bytes {
    fn from(bytes: Vec<u8>) -> Self {
        Self(bytes)
    }
}
