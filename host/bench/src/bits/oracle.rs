//! The crate's side.
//!
//! What the crate's interface asks of a caller who wants to keep his own is within the time: a copy
//! of the bytes before `from_bytes`, a copy of the field before `into_bytes` and `shift_up`. Its own
//! encoding and decoding do the same, and ours takes its fields by value, which copies them. The
//! result is dropped within the time as well, which is where a field of 2,048 bits gives its heap
//! memory back.

use super::{Call, Input, Kind, Timed};
use crate::ours::Adds;
use std::hint::black_box;
use std::time::{Duration, Instant};
use typenum::{U2048, U512, U64};

/// Everything that a call is handed goes through `black_box`, and so does what it gives: otherwise
/// the compiler would work the answer out once, or not at all.
fn repeated<T>(count: u64, mut call: impl FnMut() -> T) -> Duration {
    let start = Instant::now();
    for _ in 0..count {
        black_box(call());
    }
    start.elapsed()
}

/// The calls for lists or for vectors, which are two types with the same names.
macro_rules! calls {
    ($module:ident, $field:ident) => {
        mod $module {
            use super::*;
            use smallvec::SmallVec;
            use ssz::$field as Field;
            use typenum::Unsigned;

            fn read<N: Unsigned + Clone>(bytes: &[u8]) -> Field<N> {
                Field::from_bytes(SmallVec::from_slice(bytes)).expect("a full field")
            }

            /// By one bit, always of the same field.
            fn shifted<N: Unsigned + Clone>(field: &Field<N>, places: usize) -> Field<N> {
                let mut shifted = field.clone();
                shifted.shift_up(places).expect("no further than its length");
                shifted
            }

            pub fn timed<N: Unsigned + Clone>(call: Call, input: &Input, count: u64) -> Duration {
                let bytes = &input.first[..];
                let (first, second) = (read::<N>(bytes), read::<N>(&input.second));
                let (f, g) = (&first, &second);
                match call {
                    Call::FromBytes => repeated(count, || read::<N>(black_box(bytes))),
                    Call::IntoBytes => repeated(count, || black_box(f).clone().into_bytes()),
                    Call::Intersection => {
                        repeated(count, || black_box(f).intersection(black_box(g)))
                    }
                    Call::Union => repeated(count, || black_box(f).union(black_box(g))),
                    Call::Difference => repeated(count, || black_box(f).difference(black_box(g))),
                    Call::NumSetBits => repeated(count, || black_box(f).num_set_bits()),
                    Call::ShiftUp => repeated(count, || shifted(black_box(f), black_box(1))),
                }
            }

            pub fn adds<N: Unsigned + Clone>(call: Call, input: &Input) -> Adds {
                let (f, g) = (read::<N>(&input.first), read::<N>(&input.second));
                let of = |field: Field<N>| Adds {
                    number: field.len() as u64,
                    bytes: field.as_slice().to_vec(),
                };
                match call {
                    Call::FromBytes => of(f),
                    Call::IntoBytes => {
                        let bytes = f.into_bytes().to_vec();
                        Adds { number: bytes.len() as u64, bytes }
                    }
                    Call::Intersection => of(f.intersection(&g)),
                    Call::Union => of(f.union(&g)),
                    Call::Difference => of(f.difference(&g)),
                    Call::NumSetBits => Adds { number: f.num_set_bits() as u64, bytes: vec![] },
                    Call::ShiftUp => of(shifted(&f, 1)),
                }
            }
        }
    };
}

calls!(lists, BitList);
calls!(vectors, BitVector);

/// How long a number of calls takes, preparations left out. N is the number of bits.
pub fn timed(kind: Kind, call: Call, bits: usize) -> Timed {
    match (kind, bits) {
        (Kind::List, 64) => lists::timed::<U64>,
        (Kind::List, 512) => lists::timed::<U512>,
        (Kind::List, 2_048) => lists::timed::<U2048>,
        (Kind::Vector, 64) => vectors::timed::<U64>,
        (Kind::Vector, 512) => vectors::timed::<U512>,
        (Kind::Vector, 2_048) => vectors::timed::<U2048>,
        _ => panic!("{call:?} is not built for {bits} bits"),
    }
}

/// What the crate answers, as a round of ours adds it up.
pub fn adds(call: Call, input: &Input) -> Adds {
    match (input.kind, input.bits) {
        (Kind::List, 64) => lists::adds::<U64>(call, input),
        (Kind::List, 512) => lists::adds::<U512>(call, input),
        (Kind::List, 2_048) => lists::adds::<U2048>(call, input),
        (Kind::Vector, 64) => vectors::adds::<U64>(call, input),
        (Kind::Vector, 512) => vectors::adds::<U512>(call, input),
        (Kind::Vector, 2_048) => vectors::adds::<U2048>(call, input),
        (_, bits) => panic!("{call:?} is not built for {bits} bits"),
    }
}
