//! Rust types that the crate decodes, each with its table and its random values.

use crate::rng::Rng;
use crate::watch::{watched, At};
use cartwhisker::{Layout, Type};
use ssz::{BitList, BitVector, Decode, DecodeError, Encode};
use ssz::{SszDecoder, SszDecoderBuilder, SszEncoder};
use std::any::TypeId;
use std::cell::Cell;
use typenum::Unsigned;

pub trait Shape: Decode + Encode + 'static {
    /// Adds the type to the table, behind those that it is made of.
    fn piece(pieces: &mut Pieces) -> Type;

    fn random(rng: &mut Rng) -> Self;
}

/// A table in the making, in which each Rust type has one type.
#[derive(Default)]
pub struct Pieces {
    pub layout: Layout,
    pub known: Vec<(TypeId, Type)>,
}

impl Pieces {
    pub fn of<T: Shape>(&mut self) -> Type {
        let id = TypeId::of::<T>();
        if let Some((_, known)) = self.known.iter().find(|(other, _)| *other == id) {
            return *known;
        }
        let piece = T::piece(self);
        self.known.push((id, piece));
        piece
    }
}

macro_rules! numbers {
    ($($number:ident: $width:literal)*) => { $(
        impl Shape for $number {
            fn piece(pieces: &mut Pieces) -> Type {
                pieces.layout.number($width)
            }

            fn random(rng: &mut Rng) -> Self {
                (u128::from(rng.next()) << 64 | u128::from(rng.next())) as $number
            }
        }
    )* };
}

numbers!(u8: 1 u16: 2 u32: 4 u64: 8 u128: 16);

impl Shape for bool {
    fn piece(pieces: &mut Pieces) -> Type {
        pieces.layout.boolean()
    }

    fn random(rng: &mut Rng) -> Self {
        rng.one_in(2)
    }
}

impl<const N: usize> Shape for [u8; N] {
    fn piece(pieces: &mut Pieces) -> Type {
        pieces.layout.fixed_bytes(N as u32)
    }

    fn random(rng: &mut Rng) -> Self {
        std::array::from_fn(|_| rng.byte())
    }
}

thread_local! {
    /// By how much a random value may be above its limits.
    static ABOVE: Cell<u32> = const { Cell::new(0) };
}

/// Makes values that may be above their limits by so much.
pub fn above_limits<T>(by: u32, make: impl FnOnce() -> T) -> T {
    ABOVE.set(by);
    let made = make();
    ABOVE.set(0);
    made
}

/// The most that a random value may have of what has this limit.
pub fn most(limit: u32) -> u64 {
    u64::from(limit) + u64::from(ABOVE.get())
}

/// Mostly a few bytes, none at all now and then, seldom many.
fn random_bytes(rng: &mut Rng, most: u64) -> Vec<u8> {
    let length = match rng.below(8) {
        0 => 0,
        1 => rng.between(0, most),
        _ => rng.between(0, most.min(6)),
    };
    rng.bytes(length as usize)
}

impl Shape for Vec<u8> {
    fn piece(pieces: &mut Pieces) -> Type {
        pieces.layout.free_bytes(u32::MAX)
    }

    fn random(rng: &mut Rng) -> Self {
        random_bytes(rng, 40)
    }
}

/// Some bits, sparse or dense.
fn random_bits(rng: &mut Rng, count: usize, mut set: impl FnMut(usize)) {
    let one_in = rng.pick(&[1, 2, 2, 8]);
    (0..count).filter(|_| rng.one_in(one_in)).for_each(&mut set);
}

impl<N: Unsigned + Clone + 'static> Shape for BitList<N> {
    fn piece(pieces: &mut Pieces) -> Type {
        pieces.layout.bit_list(N::to_u32())
    }

    fn random(rng: &mut Rng) -> Self {
        let length = match rng.below(4) {
            0 => N::to_u64(),
            _ => rng.between(0, N::to_u64()),
        };
        let mut list = BitList::with_capacity(length as usize).expect("at most N bits");
        random_bits(rng, length as usize, |i| list.set(i, true).expect("a bit of the list"));
        list
    }
}

impl<N: Unsigned + Clone + 'static> Shape for BitVector<N> {
    fn piece(pieces: &mut Pieces) -> Type {
        pieces.layout.bit_vector(N::to_u32())
    }

    fn random(rng: &mut Rng) -> Self {
        let mut vector = BitVector::new();
        random_bits(rng, N::to_usize(), |i| vector.set(i, true).expect("a bit of the vector"));
        vector
    }
}

impl<T: Shape> Shape for Option<At<T>> {
    fn piece(pieces: &mut Pieces) -> Type {
        let body = pieces.of::<T>();
        pieces.layout.union([None, Some(body)])
    }

    fn random(rng: &mut Rng) -> Self {
        (!rng.one_in(4)).then(|| At(T::random(rng)))
    }
}

macro_rules! tuples {
    ($(($($T:ident)+))*) => { $(
        impl<$($T: Shape),+> Shape for ($(At<$T>,)+) {
            fn piece(pieces: &mut Pieces) -> Type {
                let fields = [$(pieces.of::<$T>()),+];
                pieces.layout.container(fields)
            }

            fn random(rng: &mut Rng) -> Self {
                ($(At($T::random(rng)),)+)
            }
        }
    )* };
}

tuples!((A B) (A B C) (A B C D) (A B C D E) (A B C D E F) (A B C D E F G H));

/// A type that the crate decodes as `$inner` and that has a table entry of its own.
macro_rules! decoded_as {
    ([$($generics:tt)*] $name:ty => $inner:ty) => {
        impl<$($generics)*> Decode for $name {
            fn is_ssz_fixed_len() -> bool {
                <$inner as Decode>::is_ssz_fixed_len()
            }

            fn ssz_fixed_len() -> usize {
                <$inner as Decode>::ssz_fixed_len()
            }

            fn from_ssz_bytes(bytes: &[u8]) -> Result<Self, DecodeError> {
                <$inner as Decode>::from_ssz_bytes(bytes).map(Self)
            }
        }

        impl<$($generics)*> Encode for $name {
            fn is_ssz_fixed_len() -> bool {
                <$inner as Encode>::is_ssz_fixed_len()
            }

            fn ssz_fixed_len() -> usize {
                <$inner as Encode>::ssz_fixed_len()
            }

            fn ssz_bytes_len(&self) -> usize {
                self.0.ssz_bytes_len()
            }

            fn ssz_append(&self, buffer: &mut Vec<u8>) {
                self.0.ssz_append(buffer)
            }
        }
    };
}

/// Free bytes with a limit. The crate has none, so it takes what is longer.
pub struct Limited<const LIMIT: u32>(pub Vec<u8>);

decoded_as!([const LIMIT: u32] Limited<LIMIT> => Vec<u8>);

impl<const LIMIT: u32> Shape for Limited<LIMIT> {
    fn piece(pieces: &mut Pieces) -> Type {
        pieces.layout.free_bytes(LIMIT)
    }

    fn random(rng: &mut Rng) -> Self {
        Limited(random_bytes(rng, most(LIMIT)))
    }
}

/// How many elements a random list has: mostly few, none now and then, and where the limit is low
/// often as many as it allows.
pub fn random_count(rng: &mut Rng, limit: u32) -> u64 {
    match rng.below(8) {
        0 => 0,
        1 => rng.between(0, most(limit).min(20)),
        2 | 3 => most(limit).min(4),
        _ => rng.between(0, most(limit).min(4)),
    }
}

/// The crate's own list, of watched elements.
impl<T: Shape> Shape for Vec<At<T>> {
    fn piece(pieces: &mut Pieces) -> Type {
        let element = pieces.of::<T>();
        pieces.layout.list(element, u32::MAX)
    }

    fn random(rng: &mut Rng) -> Self {
        (0..random_count(rng, u32::MAX)).map(|_| At(T::random(rng))).collect()
    }
}

/// A list with a limit. The crate's `Vec` has none, so it takes what is longer.
pub struct List<T, const LIMIT: u32>(pub Vec<At<T>>);

decoded_as!([T: Shape, const LIMIT: u32] List<T, LIMIT> => Vec<At<T>>);

impl<T: Shape, const LIMIT: u32> Shape for List<T, LIMIT> {
    fn piece(pieces: &mut Pieces) -> Type {
        let element = pieces.of::<T>();
        pieces.layout.list(element, LIMIT)
    }

    fn random(rng: &mut Rng) -> Self {
        List((0..random_count(rng, LIMIT)).map(|_| At(T::random(rng))).collect())
    }
}

/// The crate has no vectors but arrays of bytes. One of fixed elements is read as a field of its whole
/// length, since "fixed vector of wrong length" is 1 with that length, and then as a list is.
pub fn whole(bytes: &[u8], length: usize) -> Result<(), DecodeError> {
    let mut builder = SszDecoderBuilder::new(bytes);
    builder.register_type_parameterized(true, length)?;
    builder.build().map(|_| ())
}

/// One of variable elements is the container of so many variable fields: "read by the container
/// rules, whatever its count".
pub fn offsets(bytes: &[u8], count: usize) -> Result<SszDecoder<'_>, DecodeError> {
    let mut builder = SszDecoderBuilder::new(bytes);
    for _ in 0..count {
        builder.register_anonymous_variable_length_item()?;
    }
    builder.build()
}

/// A vector of `N` elements.
pub struct Row<T, const N: usize>(pub Vec<T>);

impl<T: Shape, const N: usize> Decode for Row<T, N> {
    fn is_ssz_fixed_len() -> bool {
        <T as Decode>::is_ssz_fixed_len()
    }

    fn ssz_fixed_len() -> usize {
        if <T as Decode>::is_ssz_fixed_len() {
            N * <T as Decode>::ssz_fixed_len()
        } else {
            ssz::BYTES_PER_LENGTH_OFFSET
        }
    }

    fn from_ssz_bytes(bytes: &[u8]) -> Result<Self, DecodeError> {
        if <T as Decode>::is_ssz_fixed_len() {
            whole(bytes, <Self as Decode>::ssz_fixed_len())?;
            let elements = Vec::<At<T>>::from_ssz_bytes(bytes)?;
            return Ok(Row(elements.into_iter().map(|At(element)| element).collect()));
        }
        let mut decoder = offsets(bytes, N)?;
        (0..N).map(|_| decoder.decode_next_with(watched)).collect::<Result<_, _>>().map(Row)
    }
}

impl<T: Shape, const N: usize> Encode for Row<T, N> {
    fn is_ssz_fixed_len() -> bool {
        <T as Encode>::is_ssz_fixed_len()
    }

    fn ssz_fixed_len() -> usize {
        <Self as Decode>::ssz_fixed_len()
    }

    fn ssz_bytes_len(&self) -> usize {
        self.0.ssz_bytes_len()
    }

    fn ssz_append(&self, buffer: &mut Vec<u8>) {
        let mut encoder = SszEncoder::container(buffer, N * <T as Encode>::ssz_fixed_len());
        self.0.iter().for_each(|element| encoder.append(element));
        encoder.finalize();
    }
}

impl<T: Shape, const N: usize> Shape for Row<T, N> {
    fn piece(pieces: &mut Pieces) -> Type {
        let element = pieces.of::<T>();
        pieces.layout.vector(element, N as u32)
    }

    fn random(rng: &mut Rng) -> Self {
        Row((0..N).map(|_| T::random(rng)).collect())
    }
}

/// A number of 32 bytes.
pub struct Wide(pub [u8; 32]);

decoded_as!([] Wide => [u8; 32]);

impl Shape for Wide {
    fn piece(pieces: &mut Pieces) -> Type {
        pieces.layout.number(32)
    }

    fn random(rng: &mut Rng) -> Self {
        Wide(Shape::random(rng))
    }
}

/// A struct that is decoded by the crate's builder and its decoder, as the crate's derive does it.
macro_rules! container {
    ($(struct $name:ident $(<$($G:ident),+>)? { $($field:ident: $of:ty),+ $(,)? })*) => { $(
        pub struct $name $(<$($G),+>)? { $(pub $field: $of),+ }

        impl $(<$($G: Shape),+>)? ssz::Decode for $name $(<$($G),+>)? {
            fn is_ssz_fixed_len() -> bool {
                $(<$of as ssz::Decode>::is_ssz_fixed_len())&&+
            }

            fn ssz_fixed_len() -> usize {
                if <Self as ssz::Decode>::is_ssz_fixed_len() {
                    0 $(+ <$of as ssz::Decode>::ssz_fixed_len())+
                } else {
                    ssz::BYTES_PER_LENGTH_OFFSET
                }
            }

            fn from_ssz_bytes(bytes: &[u8]) -> Result<Self, ssz::DecodeError> {
                let mut builder = ssz::SszDecoderBuilder::new(bytes);
                $(builder.register_type::<$of>()?;)+
                let mut decoder = builder.build()?;
                Ok(Self { $($field: decoder.decode_next_with($crate::watch::watched)?),+ })
            }
        }

        impl $(<$($G: Shape),+>)? ssz::Encode for $name $(<$($G),+>)? {
            fn is_ssz_fixed_len() -> bool {
                $(<$of as ssz::Encode>::is_ssz_fixed_len())&&+
            }

            fn ssz_fixed_len() -> usize {
                <Self as ssz::Decode>::ssz_fixed_len()
            }

            fn ssz_bytes_len(&self) -> usize {
                let mut length = 0;
                $(
                    length += <$of as ssz::Encode>::ssz_fixed_len();
                    if !<$of as ssz::Encode>::is_ssz_fixed_len() {
                        length += self.$field.ssz_bytes_len();
                    }
                )+
                length
            }

            fn ssz_append(&self, buffer: &mut Vec<u8>) {
                let portion = 0 $(+ <$of as ssz::Encode>::ssz_fixed_len())+;
                let mut encoder = ssz::SszEncoder::container(buffer, portion);
                $(encoder.append(&self.$field);)+
                encoder.finalize();
            }
        }

        impl $(<$($G: Shape),+>)? $crate::shapes::Shape for $name $(<$($G),+>)? {
            fn piece(pieces: &mut $crate::shapes::Pieces) -> cartwhisker::Type {
                let fields = [$(pieces.of::<$of>()),+];
                pieces.layout.container(fields)
            }

            fn random(rng: &mut $crate::rng::Rng) -> Self {
                Self { $($field: $crate::shapes::Shape::random(rng)),+ }
            }
        }
    )* };
}

/// An enum that is decoded by the crate's `split_union_bytes`. Its options are numbered by their
/// selectors, from 0 on; an option without a type has no body, and is read as the crate's `Option`
/// reads `None`.
macro_rules! union {
    ($(enum $name:ident { $($selector:literal => $option:ident $(($of:ty))?),+ $(,)? })*) => { $(
        pub enum $name { $($option $(($of))?),+ }

        impl ssz::Decode for $name {
            fn is_ssz_fixed_len() -> bool {
                false
            }

            fn from_ssz_bytes(bytes: &[u8]) -> Result<Self, ssz::DecodeError> {
                let (selector, body) = ssz::split_union_bytes(bytes)?;
                match u8::from(selector) {
                    $($selector => union!(@read $name $option body $($of)?),)+
                    other => Err(ssz::DecodeError::UnionSelectorInvalid(other)),
                }
            }
        }

        impl ssz::Encode for $name {
            fn is_ssz_fixed_len() -> bool {
                false
            }

            fn ssz_bytes_len(&self) -> usize {
                let mut buffer = Vec::new();
                self.ssz_append(&mut buffer);
                buffer.len()
            }

            fn ssz_append(&self, buffer: &mut Vec<u8>) {
                match self {
                    $(union!(@bind $name $option value $($of)?) => {
                        buffer.push($selector);
                        union!(@write buffer value $($of)?);
                    })+
                }
            }
        }

        impl $crate::shapes::Shape for $name {
            fn piece(pieces: &mut $crate::shapes::Pieces) -> cartwhisker::Type {
                let options = [$(union!(@piece pieces $($of)?)),+];
                pieces.layout.union(options)
            }

            fn random(rng: &mut $crate::rng::Rng) -> Self {
                let options: &[fn(&mut $crate::rng::Rng) -> Self] =
                    &[$(union!(@random $name $option $($of)?)),+];
                rng.pick(options)(rng)
            }
        }
    )* };
    (@read $name:ident $option:ident $body:ident $of:ty) => {
        $crate::watch::watched::<$of>($body).map($name::$option)
    };
    (@read $name:ident $option:ident $body:ident) => {
        if $body.is_empty() {
            Ok($name::$option)
        } else {
            Err(ssz::DecodeError::InvalidByteLength { len: $body.len(), expected: 0 })
        }
    };
    (@bind $name:ident $option:ident $value:ident $of:ty) => { $name::$option($value) };
    (@bind $name:ident $option:ident $value:ident) => { $name::$option };
    (@write $buffer:ident $value:ident $of:ty) => { $value.ssz_append($buffer) };
    (@write $buffer:ident $value:ident) => {};
    (@piece $pieces:ident $of:ty) => { Some($pieces.of::<$of>()) };
    (@piece $pieces:ident) => { None };
    (@random $name:ident $option:ident $of:ty) => {
        |rng| $name::$option($crate::shapes::Shape::random(rng))
    };
    (@random $name:ident $option:ident) => { |_| $name::$option };
}

pub(crate) use {container, union};
