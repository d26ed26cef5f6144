//! The crate beside what is expected here, of every case: each type has a Rust type.

use super::elements::{BIT_LISTS, LISTS, TEXTS, TEXT_ROW};
use super::worked::BID;
use super::{all, table, Asked, Types, BITS, BOOLEAN, COMPLEX, EITHER, FIXED, LIST, LIST_16};
use super::{LIST_32, MAYBE_16, NUMBER, SINGLE, SMALL, UNION_16, VAR, VECTOR, VECTOR_OF};
use ssz::{BitList, BitVector, Decode, DecodeError, Encode, SszDecoderBuilder, SszEncoder};
use std::collections::{BTreeMap, BTreeSet};
use typenum::consts::*;
use typenum::Unsigned;

/// What the crate says of a message: the value form and the value's encoding, or the error.
type Told = Result<(Vec<u32>, Vec<u8>, Vec<u8>), DecodeError>;
type Reader = fn(&[u8]) -> Told;

trait Formed: Decode + Encode {
    fn form(&self, contents: &mut Vec<u32>, bodies: &mut Vec<u8>);
}

fn read<T: Formed>(message: &[u8]) -> Told {
    let value = T::from_ssz_bytes(message)?;
    let (mut contents, mut bodies) = (Vec::new(), Vec::new());
    value.form(&mut contents, &mut bodies);
    Ok((contents, bodies, value.as_ssz_bytes()))
}

macro_rules! fixed {
    ($($of:ty)*) => { $(
        impl Formed for $of {
            fn form(&self, _: &mut Vec<u32>, bodies: &mut Vec<u8>) {
                bodies.extend(self.as_ssz_bytes());
            }
        }
    )* };
}

// The crate has no number of 32 bytes without a further package: those are read as bytes.
fixed!(u8 u16 u32 u64 u128 [u8; 32] bool);

impl<N: Unsigned + Clone> Formed for BitVector<N> {
    fn form(&self, _: &mut Vec<u32>, bodies: &mut Vec<u8>) {
        bodies.extend(self.as_slice());
    }
}

impl<N: Unsigned + Clone> Formed for BitList<N> {
    fn form(&self, contents: &mut Vec<u32>, bodies: &mut Vec<u8>) {
        contents.push(self.len() as u32);
        bodies.extend(self.as_slice());
    }
}

impl Formed for Vec<u8> {
    fn form(&self, contents: &mut Vec<u32>, bodies: &mut Vec<u8>) {
        contents.push(self.len() as u32);
        bodies.extend(self);
    }
}

/// A list, by the crate's `Vec`.
struct Many<T>(Vec<T>);

impl<T: Decode> Decode for Many<T> {
    fn is_ssz_fixed_len() -> bool {
        false
    }

    fn from_ssz_bytes(bytes: &[u8]) -> Result<Self, DecodeError> {
        Vec::from_ssz_bytes(bytes).map(Many)
    }
}

impl<T: Encode> Encode for Many<T> {
    fn is_ssz_fixed_len() -> bool {
        false
    }

    fn ssz_bytes_len(&self) -> usize {
        self.0.ssz_bytes_len()
    }

    fn ssz_append(&self, buffer: &mut Vec<u8>) {
        self.0.ssz_append(buffer);
    }
}

impl<T: Formed> Formed for Many<T> {
    fn form(&self, contents: &mut Vec<u32>, bodies: &mut Vec<u8>) {
        contents.push(self.0.len() as u32);
        self.0.iter().for_each(|element| element.form(contents, bodies));
    }
}

/// A vector, which the crate has of bytes alone: of fixed elements it is one field of their whole
/// length, read as a list then; of variable ones the container of so many fields.
struct Row<T, const N: usize>(Vec<T>);

impl<T: Decode, const N: usize> Decode for Row<T, N> {
    fn is_ssz_fixed_len() -> bool {
        T::is_ssz_fixed_len()
    }

    fn ssz_fixed_len() -> usize {
        if T::is_ssz_fixed_len() {
            N * T::ssz_fixed_len()
        } else {
            ssz::BYTES_PER_LENGTH_OFFSET
        }
    }

    fn from_ssz_bytes(bytes: &[u8]) -> Result<Self, DecodeError> {
        let mut builder = SszDecoderBuilder::new(bytes);
        if T::is_ssz_fixed_len() {
            builder.register_type::<Self>()?;
            builder.build()?;
            return Vec::from_ssz_bytes(bytes).map(Row);
        }
        (0..N).try_for_each(|_| builder.register_type::<T>())?;
        let mut decoder = builder.build()?;
        (0..N).map(|_| decoder.decode_next()).collect::<Result<_, _>>().map(Row)
    }
}

impl<T: Encode + Decode, const N: usize> Encode for Row<T, N> {
    fn is_ssz_fixed_len() -> bool {
        <T as Encode>::is_ssz_fixed_len()
    }

    fn ssz_fixed_len() -> usize {
        <Self as Decode>::ssz_fixed_len()
    }

    fn ssz_bytes_len(&self) -> usize {
        self.0.ssz_bytes_len()
    }

    fn ssz_append(&self, buffer: &mut Vec<u8>) {
        self.0.ssz_append(buffer);
    }
}

impl<T: Formed, const N: usize> Formed for Row<T, N> {
    fn form(&self, contents: &mut Vec<u32>, bodies: &mut Vec<u8>) {
        self.0.iter().for_each(|element| element.form(contents, bodies));
    }
}

/// A struct that the crate's builder reads and its encoder writes, as its derive does it.
macro_rules! container {
    ($($name:ident { $($field:ident: $of:ty),+ })*) => { $(
        struct $name { $($field: $of),+ }

        impl Decode for $name {
            fn is_ssz_fixed_len() -> bool {
                $(<$of as Decode>::is_ssz_fixed_len())&&+
            }

            fn ssz_fixed_len() -> usize {
                if <Self as Decode>::is_ssz_fixed_len() {
                    0 $(+ <$of as Decode>::ssz_fixed_len())+
                } else {
                    ssz::BYTES_PER_LENGTH_OFFSET
                }
            }

            fn from_ssz_bytes(bytes: &[u8]) -> Result<Self, DecodeError> {
                let mut builder = SszDecoderBuilder::new(bytes);
                $(builder.register_type::<$of>()?;)+
                let mut decoder = builder.build()?;
                Ok(Self { $($field: decoder.decode_next()?),+ })
            }
        }

        impl Encode for $name {
            fn is_ssz_fixed_len() -> bool {
                <Self as Decode>::is_ssz_fixed_len()
            }

            fn ssz_fixed_len() -> usize {
                <Self as Decode>::ssz_fixed_len()
            }

            fn ssz_bytes_len(&self) -> usize {
                unreachable!("asked of fields only")
            }

            fn ssz_append(&self, buffer: &mut Vec<u8>) {
                let portion = 0 $(+ <$of as Encode>::ssz_fixed_len())+;
                let mut encoder = SszEncoder::container(buffer, portion);
                $(encoder.append(&self.$field);)+
                encoder.finalize();
            }

            fn as_ssz_bytes(&self) -> Vec<u8> {
                let mut buffer = Vec::new();
                self.ssz_append(&mut buffer);
                buffer
            }
        }

        impl Formed for $name {
            fn form(&self, contents: &mut Vec<u32>, bodies: &mut Vec<u8>) {
                $(self.$field.form(contents, bodies);)+
            }
        }
    )* };
}

container! {
    Single { a: u8 }
    Small { a: u16, b: u16 }
    Fixed { a: u8, b: u64, c: u32 }
    Bid { price: u64, note: Vec<u8>, flags: BitList<U8> }
    Bits {
        a: BitList<U5>,
        b: BitVector<U2>,
        c: BitVector<U1>,
        d: BitList<U6>,
        e: BitVector<U8>
    }
    Var { a: u16, b: Many<u16>, c: u8 }
    Complex {
        a: u16,
        b: Many<u16>,
        c: u8,
        d: Vec<u8>,
        e: Var,
        f: Row<Fixed, 4>,
        g: Row<Var, 2>
    }
}

/// A union by the crate's split: the selector is a contents word, an option without body is `None`.
fn read_union(message: &[u8], options: &[Option<Reader>]) -> Told {
    let (selector, body) = ssz::split_union_bytes(message)?;
    let selector = u8::from(selector);
    let none: Reader = |body| match body.len() {
        0 => Ok(Default::default()),
        len => Err(DecodeError::InvalidByteLength { len, expected: 0 }),
    };
    let option = options.get(usize::from(selector));
    let option = option.ok_or(DecodeError::UnionSelectorInvalid(selector))?;
    let (mut contents, bodies, encoding) = option.unwrap_or(none)(body)?;
    contents.insert(0, selector.into());
    Ok((contents, bodies, [vec![selector], encoding].concat()))
}

macro_rules! bits {
    ($readers:ident $($n:ident)*) => { $(
        $readers.insert(table(&[&[LIST, $n::U32]]), read::<BitList<$n>> as Reader);
        $readers.insert(table(&[&[VECTOR, $n::U32]]), read::<BitVector<$n>>);
    )* };
}

macro_rules! vectors {
    ($readers:ident $($n:literal)*) => { $(
        $readers.insert(table(&[&[BOOLEAN], &[VECTOR_OF, 0, $n]]), read::<Row<bool, $n>> as Reader);
        $readers.insert(table(&[&[NUMBER, 2], &[VECTOR_OF, 0, $n]]), read::<Row<u16, $n>>);
    )* };
}

/// The crate's reader of each table.
fn readers() -> BTreeMap<Vec<u8>, Reader> {
    let mut readers = BTreeMap::new();
    bits!(readers U1 U2 U3 U4 U5 U8 U9 U10 U16 U31 U32 U512 U513);
    vectors!(readers 1 2 3 5 8 31);
    let others: [(Types, Reader); 23] = [
        (LIST_16, read::<Many<u16>>),
        (LIST_32, read::<Many<u32>>),
        (VAR, read::<Var>),
        (COMPLEX, read::<Complex>),
        (TEXTS, read::<Many<Vec<u8>>>),
        (TEXT_ROW, read::<Row<Vec<u8>, 2>>),
        (LISTS, read::<Many<Many<u16>>>),
        (BIT_LISTS, read::<Many<BitList<U5>>>),
        (&[&[NUMBER, 1]], read::<u8>),
        (&[&[NUMBER, 2]], read::<u16>),
        (&[&[NUMBER, 4]], read::<u32>),
        (&[&[NUMBER, 8]], read::<u64>),
        (&[&[NUMBER, 16]], read::<u128>),
        (&[&[NUMBER, 32]], read::<[u8; 32]>),
        (&[&[BOOLEAN]], read::<bool>),
        (SINGLE, read::<Single>),
        (SMALL, read::<Small>),
        (FIXED, read::<Fixed>),
        (BITS, read::<Bits>),
        (BID, read::<Bid>),
        (UNION_16, |message| read_union(message, &[Some(read::<u16>)])),
        (MAYBE_16, |message| read_union(message, &[None, Some(read::<u16>)])),
        (EITHER, |message| read_union(message, &[Some(read::<u16>), Some(read::<u32>)])),
    ];
    readers.extend(others.map(|(types, reader)| (table(types), reader)));
    readers
}

/// The crate accepts with this form and writes the same bytes again, or refuses with these numbers.
fn agrees(asked: &Asked, told: &Told) -> bool {
    match (&asked.answer, told) {
        (Ok(form), Ok((contents, bodies, encoding))) => {
            (&form.contents, &form.bodies, &asked.message) == (contents, bodies, encoding)
        }
        #[cfg(feature = "messages")]
        (Err([number, a, b, ..]), Err(error)) => {
            (*number as u32, *a, *b) == messages::numbers(error)
        }
        (expected, told) => expected.is_err() && told.is_err(),
    }
}

#[test]
fn the_crate_agrees_with_every_case() {
    let readers = readers();
    // 20 is a table of no type.
    for asked in all().into_iter().filter(|asked| asked.refusal() != 20) {
        let told = readers[&asked.table](&asked.message);
        assert!(agrees(&asked, &told), "{}: {told:?}", asked.name);
    }
}

#[test]
fn names_are_told_apart_and_say_their_origin() {
    let cases = all();
    let names: BTreeSet<&str> = cases.iter().map(|asked| &asked.name[..]).collect();
    assert_eq!(names.len(), cases.len());
    let origins = ["example/", "ssz_generic/", "rule/", "document/"];
    assert!(names.iter().all(|name| origins.iter().any(|origin| name.starts_with(origin))));
}

#[test]
fn records_have_the_parts_of_their_operations() {
    for (op, record) in all().iter().flat_map(Asked::records) {
        let raw = crate::format::read_record(&mut &record[..]).unwrap().unwrap();
        let shape = crate::ops::find(op).unwrap();
        assert_eq!((raw.op, raw.parts.len()), (op, shape.asks.len() + 1 + shape.gives.len()));
        assert_eq!(raw.parts[shape.asks.len()].len(), 40);
    }
}
