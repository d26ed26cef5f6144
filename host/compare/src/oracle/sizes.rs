//! The numbers N that bitfields are asked with. In the crate N is a type, so there is a fixed set.

use typenum::{Diff, Sum, U1, U1024, U2048, U512, U8};

pub type U1025 = Sum<U1024, U1>;
pub type U1536 = Sum<U1024, U512>;
pub type U2040 = Diff<U2048, U8>;
pub type U2047 = Diff<U2048, U1>;

/// Hands the types to a macro. Every number up to 20, then the neighbours of each power of two and
/// a few between, up to the greatest that a held bitfield has.
macro_rules! with_sizes {
    ($callback:ident) => {
        $callback! {
            U0 U1 U2 U3 U4 U5 U6 U7 U8 U9 U10 U11 U12 U13 U14 U15 U16 U17 U18 U19 U20
            U31 U32 U33 U63 U64 U65 U100 U127 U128 U129 U255 U256 U257 U511 U512 U513
            U1000 U1023 U1024 U1025 U1536 U2040 U2047 U2048
        }
    };
}
pub(crate) use with_sizes;

/// The same for the sizes that `resize` goes to: each of them is asked from each size above, and
/// all pairs would make two thousand calls to build.
macro_rules! with_targets {
    ($callback:ident) => {
        $callback! {
            U0 U1 U2 U3 U4 U5 U6 U7 U8 U9 U10 U15 U16 U17 U64 U65 U256 U1024 U2047 U2048
        }
    };
}
pub(crate) use with_targets;

macro_rules! numbers {
    ($($n:ident)*) => {
        /// The set as numbers, rising.
        pub const SIZES: &[u64] = &[$(<all::$n as typenum::Unsigned>::U64),*];
    };
}

/// The types under one roof: those of the library and the four made here.
pub mod all {
    pub use super::{U1025, U1536, U2040, U2047};
    pub use typenum::consts::*;
}

with_sizes!(numbers);

macro_rules! target_numbers {
    ($($n:ident)*) => {
        /// The sizes that `resize` goes to, rising.
        pub const TARGETS: &[u64] = &[$(<all::$n as typenum::Unsigned>::U64),*];
    };
}

with_targets!(target_numbers);

#[cfg(test)]
mod tests {
    use super::SIZES;

    #[test]
    fn the_sizes_rise_and_end_at_the_held_limit() {
        assert!(SIZES.windows(2).all(|pair| pair[0] < pair[1]));
        assert_eq!(SIZES.last(), Some(&crate::format::HELD_BITS));
        assert_eq!(SIZES[..21], (0..=20).collect::<Vec<u64>>()[..]);
    }
}
