//! Tables at random, read by the crate's builder and its union split.
//!
//! A Rust type is fixed when a program is built; the crate's builder also takes whether an item is
//! fixed and how long it is as arguments, and its decoder takes a closure. So any table can be read
//! by the crate's code: containers and vectors by its builder, lists by its `Vec`, unions by its
//! split, leaves by its own types.

use crate::rng::Rng;
use crate::shapes::{most, offsets, random_count, whole, Shape};
use crate::types::Subject;
use crate::watch::{notes_of, watched_as, Tag};
use cartwhisker::{Kind, Layout, Type};
use ssz::{split_union_bytes, BitList, BitVector, Decode, DecodeError, Encode};
use ssz::{SszDecoderBuilder, SszEncoder};
use std::cell::RefCell;
use std::sync::Arc;
use typenum as n;

/// A table at random whose messages have not too many items.
pub fn subject(rng: &mut Rng) -> Subject {
    loop {
        let layout = layout(rng);
        if items(&layout, layout.message().expect("at least one type")) <= 200 {
            return under("random tables", layout);
        }
    }
}

/// Any table whose leaves are those of the crate's types that are named here.
pub fn under(name: &'static str, layout: Layout) -> Subject {
    let last = layout.message().expect("at least one type");
    let table = layout.bytes();
    let (read, write) = (Arc::new(layout.clone()), layout.clone());
    Subject {
        name,
        layout,
        table,
        short: false,
        long: false,
        decode: Arc::new(move |bytes, notes| notes_of(|| decode(&read, last, bytes), notes)),
        encode: Arc::new(move |rng| {
            let mut buffer = Vec::new();
            encode(&write, last, rng, &mut buffer);
            buffer
        }),
        types: Vec::new(),
    }
}

fn layout(rng: &mut Rng) -> Layout {
    let mut layout = Layout::new();
    let types = rng.between(1, 10) as u32;
    for number in 0..types {
        // What is made of others is worth most, above some leaves.
        let kind = match number {
            0 => rng.below(6),
            _ => rng.pick(&[0, 1, 2, 3, 4, 5, 6, 6, 6, 7, 7, 8, 8, 8, 9, 9]),
        };
        let lower = |rng: &mut Rng| Type::from_number(rng.below(u64::from(number)) as u32);
        layout.add(match kind {
            0 => Kind::Number(rng.pick(&[1, 2, 4, 8, 16, 32])),
            1 => Kind::Boolean,
            2 => Kind::FixedBytes(rng.pick(LENGTHS)),
            3 => Kind::FreeBytes(rng.pick(&[0, 1, 2, 7, 30, 1_000_000, u32::MAX])),
            4 => Kind::BitVector(rng.pick(VECTORS)),
            5 => Kind::BitList(rng.pick(LISTS)),
            6 => {
                let count = rng.pick(&[1, 2, 2, 3, 3, 4, 5, 8]);
                Kind::Container((0..count).map(|_| lower(rng)).collect())
            }
            7 => {
                let count = rng.pick(&[1, 2, 2, 3, 5]);
                let option = |rng: &mut Rng| (!rng.one_in(4)).then(|| lower(rng));
                Kind::Union((0..count).map(|_| option(rng)).collect())
            }
            8 => Kind::List(lower(rng), rng.pick(&[0, 1, 1, 2, 2, 3, 4, 7, 1_000_000, u32::MAX])),
            _ => Kind::Vector(lower(rng), rng.pick(&[1, 1, 2, 2, 3, 4, 5, 66])),
        });
    }
    layout
}

/// Items at most, as far as a few hundred.
pub(crate) fn items(layout: &Layout, of: Type) -> u64 {
    match layout.kind(of) {
        Some(Kind::Container(fields)) => {
            fields.iter().fold(
                1_u64,
                |sum, field| if sum > 1_000 { sum } else { sum + items(layout, *field) },
            )
        }
        Some(Kind::Union(options)) => {
            1 + options.iter().flatten().map(|body| items(layout, *body)).max().unwrap_or(0)
        }
        Some(Kind::List(element, limit)) => {
            1 + u64::from(*limit).min(4) * items(layout, *element).min(1_000)
        }
        Some(Kind::Vector(element, count)) => {
            1 + u64::from(*count).min(1_000) * items(layout, *element).min(1_000)
        }
        _ => 1,
    }
}

/// Picks the crate's type with this number in it and calls the function on it.
macro_rules! by_number {
    ($call:ident, $number:expr, $with:expr; $($literal:literal => $of:ty),+ $(,)?) => {
        match $number {
            $($literal => $call::<$of>($with),)+
            other => unreachable!("{other} is not asked"),
        }
    };
}

const LENGTHS: &[u32] = &[1, 2, 3, 4, 5, 8, 20, 32, 48];
const VECTORS: &[u32] = &[1, 4, 7, 8, 9, 15, 16, 17, 64, 100];
const LISTS: &[u32] = &[0, 1, 4, 7, 8, 9, 15, 16, 17, 64, 100];

/// Calls a function on the crate's type of a leaf.
macro_rules! leaf {
    ($call:ident, $kind:expr, $with:expr) => {
        match $kind {
            Kind::Number(width) => by_number!($call, width, $with;
                1 => u8, 2 => u16, 4 => u32, 8 => u64, 16 => u128, 32 => [u8; 32]),
            Kind::Boolean => $call::<bool>($with),
            Kind::FixedBytes(length) => by_number!($call, length, $with;
                1 => [u8; 1], 2 => [u8; 2], 3 => [u8; 3], 4 => [u8; 4], 5 => [u8; 5],
                8 => [u8; 8], 20 => [u8; 20], 32 => [u8; 32], 48 => [u8; 48]),
            Kind::FreeBytes(_) => $call::<Vec<u8>>($with),
            Kind::BitVector(bits) => by_number!($call, bits, $with;
                1 => BitVector<n::U1>, 4 => BitVector<n::U4>, 7 => BitVector<n::U7>,
                8 => BitVector<n::U8>, 9 => BitVector<n::U9>, 15 => BitVector<n::U15>,
                16 => BitVector<n::U16>, 17 => BitVector<n::U17>, 64 => BitVector<n::U64>,
                100 => BitVector<n::U100>),
            Kind::BitList(limit) => by_number!($call, limit, $with;
                0 => BitList<n::U0>, 1 => BitList<n::U1>, 4 => BitList<n::U4>,
                7 => BitList<n::U7>, 8 => BitList<n::U8>, 9 => BitList<n::U9>,
                15 => BitList<n::U15>, 16 => BitList<n::U16>, 17 => BitList<n::U17>,
                64 => BitList<n::U64>, 100 => BitList<n::U100>),
            Kind::Container(_) | Kind::Union(_) | Kind::List(..) | Kind::Vector(..) => {
                unreachable!("no leaf")
            }
        }
    };
}

fn read<T: Decode>(bytes: &[u8]) -> Result<(), DecodeError> {
    T::from_ssz_bytes(bytes).map(|_| ())
}

/// The crate's own length of a fixed type, or `None`.
fn crate_length<T: Decode>(_: ()) -> Option<usize> {
    T::is_ssz_fixed_len().then(T::ssz_fixed_len)
}

fn length(layout: &Layout, of: Type) -> Option<usize> {
    match layout.kind(of).expect("a type of the table") {
        Kind::Container(fields) => fields.iter().map(|field| length(layout, *field)).sum(),
        Kind::Vector(element, count) => Some(length(layout, *element)? * *count as usize),
        Kind::Union(_) | Kind::List(..) => None,
        kind => leaf!(crate_length, *kind, ()),
    }
}

/// Whether an item is fixed, and what it takes in a fixed portion.
fn parameters(layout: &Layout, of: Type) -> (bool, usize) {
    let length = length(layout, of);
    (length.is_some(), length.unwrap_or(ssz::BYTES_PER_LENGTH_OFFSET))
}

thread_local! {
    /// The element types of the lists that are being read, the innermost last.
    static ELEMENTS: RefCell<Vec<(Arc<Layout>, Type)>> = const { RefCell::new(Vec::new()) };
}

/// An element of the innermost list that is being read: a Rust type for the crate's `Vec`, which asks
/// it whether it is fixed, how long it is, and to read each of the elements.
struct Element;

fn element() -> (Arc<Layout>, Type) {
    ELEMENTS.with_borrow(|all| all.last().cloned().expect("a list is being read"))
}

impl Decode for Element {
    fn is_ssz_fixed_len() -> bool {
        let (layout, of) = element();
        parameters(&layout, of).0
    }

    fn ssz_fixed_len() -> usize {
        let (layout, of) = element();
        parameters(&layout, of).1
    }

    fn from_ssz_bytes(bytes: &[u8]) -> Result<Self, DecodeError> {
        let (layout, of) = element();
        decode(&layout, of, bytes).map(|()| Element)
    }
}

/// A list, by the crate's own `Vec`.
fn list(layout: &Arc<Layout>, element: Type, bytes: &[u8]) -> Result<(), DecodeError> {
    ELEMENTS.with_borrow_mut(|all| all.push((layout.clone(), element)));
    let decoded = Vec::<Element>::from_ssz_bytes(bytes);
    ELEMENTS.with_borrow_mut(|all| all.pop());
    decoded.map(|_| ())
}

fn decode(layout: &Arc<Layout>, of: Type, bytes: &[u8]) -> Result<(), DecodeError> {
    watched_as(Tag::Table(of.number()), bytes, |bytes| unwatched(layout, of, bytes))
}

fn unwatched(layout: &Arc<Layout>, of: Type, bytes: &[u8]) -> Result<(), DecodeError> {
    match layout.kind(of).expect("a type of the table") {
        Kind::Container(fields) => {
            let mut builder = SszDecoderBuilder::new(bytes);
            for field in fields {
                let (fixed, length) = parameters(layout, *field);
                builder.register_type_parameterized(fixed, length)?;
            }
            let mut decoder = builder.build()?;
            for field in fields {
                decoder.decode_next_with(|bytes| decode(layout, *field, bytes))?;
            }
            Ok(())
        }
        Kind::Union(options) => {
            let (selector, body) = split_union_bytes(bytes)?;
            let selector = u8::from(selector);
            match options.get(usize::from(selector)) {
                Some(Some(of)) => decode(layout, *of, body),
                // As the crate's `Option` reads `None`.
                Some(None) if body.is_empty() => Ok(()),
                Some(None) => Err(DecodeError::InvalidByteLength { len: body.len(), expected: 0 }),
                None => Err(DecodeError::UnionSelectorInvalid(selector)),
            }
        }
        Kind::List(element, _) => list(layout, *element, bytes),
        Kind::Vector(element, count) => match length(layout, of) {
            Some(length) => {
                whole(bytes, length)?;
                list(layout, *element, bytes)
            }
            None => {
                let mut decoder = offsets(bytes, *count as usize)?;
                let mut next = || decoder.decode_next_with(|bytes| decode(layout, *element, bytes));
                (0..*count).try_for_each(|_| next())
            }
        },
        kind => leaf!(read, *kind, bytes),
    }
}

fn random<T: Shape + Encode>((rng, buffer): (&mut Rng, &mut Vec<u8>)) {
    T::random(rng).ssz_append(buffer);
}

/// A container's fields, or the elements of a list or vector.
fn encode_all(layout: &Layout, fields: &[Type], rng: &mut Rng, buffer: &mut Vec<u8>) {
    let portion = fields.iter().map(|field| parameters(layout, *field).1).sum();
    let mut encoder = SszEncoder::container(buffer, portion);
    for field in fields {
        let mut item = Vec::new();
        encode(layout, *field, rng, &mut item);
        let fixed = parameters(layout, *field).0;
        encoder.append_parameterized(fixed, |buffer| buffer.extend(&item));
    }
    encoder.finalize();
}

fn encode(layout: &Layout, of: Type, rng: &mut Rng, buffer: &mut Vec<u8>) {
    match layout.kind(of).expect("a type of the table") {
        Kind::Container(fields) => encode_all(layout, fields, rng, buffer),
        Kind::Vector(element, count) => {
            encode_all(layout, &vec![*element; *count as usize], rng, buffer);
        }
        Kind::List(element, limit) => {
            // Mostly few: an element may be many items.
            let count = random_count(rng, *limit).min(if rng.one_in(8) { 9 } else { 4 });
            encode_all(layout, &vec![*element; count as usize], rng, buffer);
        }
        Kind::Union(options) => {
            let selector = rng.below(options.len() as u64) as u8;
            buffer.push(selector);
            if let Some(body) = options[usize::from(selector)] {
                encode(layout, body, rng, buffer);
            }
        }
        Kind::FreeBytes(limit) => {
            let length = rng.between(0, most(*limit).min(10));
            buffer.extend(rng.bytes(length as usize));
        }
        kind => leaf!(random, *kind, (rng, buffer)),
    }
}
