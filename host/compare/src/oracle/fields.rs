//! The crate's bitfields under one face, whatever their family and N.
//!
//! N is a type in the crate, and its own trait over the families is not exported. Everything that
//! is written once here is made anew for each type when the driver is built, so it is kept to the
//! crate's own calls.

use super::sizes::{all, with_sizes, with_targets};
use smallvec::SmallVec;
use ssz::{BitList, BitVector, BitfieldError};
use std::any::Any;
use typenum::Unsigned;

pub type Made = Result<Box<dyn Field>, BitfieldError>;

pub trait Field {
    fn as_any(&self) -> &dyn Any;
    fn limit(&self) -> u64;
    fn length(&self) -> u64;
    fn raw(&self) -> &[u8];
    fn written(&self) -> Vec<u8>;
    fn both(&self, other: &dyn Field) -> Box<dyn Field>;
    fn either(&self, other: &dyn Field) -> Box<dyn Field>;
    fn within(&self, other: &dyn Field) -> bool;
    fn without(&self, other: &dyn Field) -> Box<dyn Field>;
    fn flipped(&self) -> Box<dyn Field>;
    fn put(&mut self, i: u64, value: bool) -> Result<(), BitfieldError>;
    fn at(&self, i: u64) -> Result<bool, BitfieldError>;
    fn highest(&self) -> Option<usize>;
    fn none(&self) -> bool;
    fn count(&self) -> usize;
    fn shift(&mut self, n: u64) -> Result<(), BitfieldError>;
    /// Lists only.
    fn resized(&self, m: u64) -> Made;
    /// Lists only.
    fn zeroed(&self) -> Box<dyn Field>;
}

/// The other operand as the same type. Unlike ones cannot be asked of the crate at all.
fn same<F: 'static>(other: &dyn Field) -> &F {
    other.as_any().downcast_ref().expect("two fields of the same type")
}

/// The two families differ in the last two calls only.
macro_rules! field {
    ($family:ident, $resized:expr, $zeroed:expr) => {
        impl<N: Unsigned + Clone + 'static> Field for $family<N> {
            fn as_any(&self) -> &dyn Any {
                self
            }
            fn limit(&self) -> u64 {
                N::U64
            }
            fn length(&self) -> u64 {
                self.len() as u64
            }
            fn raw(&self) -> &[u8] {
                self.as_slice()
            }
            fn written(&self) -> Vec<u8> {
                self.clone().into_bytes().to_vec()
            }
            fn both(&self, other: &dyn Field) -> Box<dyn Field> {
                Box::new(self.intersection(same(other)))
            }
            fn either(&self, other: &dyn Field) -> Box<dyn Field> {
                Box::new(self.union(same(other)))
            }
            fn within(&self, other: &dyn Field) -> bool {
                self.is_subset(same(other))
            }
            fn without(&self, other: &dyn Field) -> Box<dyn Field> {
                Box::new(self.difference(same(other)))
            }
            fn flipped(&self) -> Box<dyn Field> {
                Box::new(self.not())
            }
            fn put(&mut self, i: u64, value: bool) -> Result<(), BitfieldError> {
                self.set(i as usize, value)
            }
            fn at(&self, i: u64) -> Result<bool, BitfieldError> {
                self.get(i as usize)
            }
            fn highest(&self) -> Option<usize> {
                self.highest_set_bit()
            }
            fn none(&self) -> bool {
                self.is_zero()
            }
            fn count(&self) -> usize {
                self.num_set_bits()
            }
            fn shift(&mut self, n: u64) -> Result<(), BitfieldError> {
                self.shift_up(n as usize)
            }
            fn resized(&self, m: u64) -> Made {
                $resized(self, m)
            }
            fn zeroed(&self) -> Box<dyn Field> {
                $zeroed(self)
            }
        }
    };
}

field!(BitList, resize_list, |list: &Self| Box::new(list.clone_zeroed()));
field!(BitVector, |_, _| panic!("a vector has no resize"), |_| panic!(
    "a vector has no clone_zeroed"
));

fn boxed<F: Field + 'static>(field: F) -> Box<dyn Field> {
    Box::new(field)
}

macro_rules! define_resize_list {
    ($($m:ident)*) => {
        fn resize_list<N: Unsigned + Clone>(list: &BitList<N>, m: u64) -> Made {
            match m {
                $(<all::$m as Unsigned>::U64 => list.resize::<all::$m>().map(boxed),)*
                _ => panic!("{m} is none of the targets"),
            }
        }
    };
}

with_targets!(define_resize_list);

macro_rules! define_makers {
    ($($n:ident)*) => {
        /// `with_capacity` of a list.
        pub fn capacity(bits: u64, n: u64) -> Made {
            match n {
                $(<all::$n as Unsigned>::U64 => {
                    BitList::<all::$n>::with_capacity(bits as usize).map(boxed)
                })*
                _ => panic!("{n} is none of the sizes"),
            }
        }

        fn new(n: u64) -> Box<dyn Field> {
            match n {
                $(<all::$n as Unsigned>::U64 => boxed(BitVector::<all::$n>::new()),)*
                _ => panic!("{n} is none of the sizes"),
            }
        }

        /// `from_bytes` of a vector or a list.
        pub fn read(vector: bool, bytes: &[u8], n: u64) -> Made {
            let bytes = SmallVec::from_slice(bytes);
            match n {
                $(<all::$n as Unsigned>::U64 if vector => {
                    BitVector::<all::$n>::from_bytes(bytes).map(boxed)
                })*
                $(<all::$n as Unsigned>::U64 => {
                    BitList::<all::$n>::from_bytes(bytes).map(boxed)
                })*
                _ => panic!("{n} is none of the sizes"),
            }
        }
    };
}

with_sizes!(define_makers);

/// A field of the length, all zero.
pub fn blank(vector: bool, length: u64, n: u64) -> Box<dyn Field> {
    if vector {
        assert_eq!(length, n, "a vector's length is its N");
        new(n)
    } else {
        capacity(length, n).expect("a length of at most N")
    }
}
