//! The types that are compared.

use crate::random_tables;
use crate::rng::Rng;
use crate::shapes::{above_limits, container, union};
use crate::shapes::{Limited, List, Pieces, Row, Shape, Wide};
use crate::watch::{notes_of, watched, At, Note, Notes, Tag};
use cartwhisker::Layout;
use ssz::{BitList, BitVector, Decode, DecodeError, Encode, SszDecoderBuilder, SszEncoder};
use std::any::TypeId;
use std::sync::Arc;
use typenum::{U0, U1, U12, U16, U17, U20, U2048, U256, U3, U33, U4, U5, U512, U64, U8, U9};

/// Something that both sides read.
pub struct Subject {
    pub name: &'static str,
    pub layout: Layout,
    pub table: Vec<u8>,
    /// Whether every string of three bytes is worth asking.
    pub short: bool,
    /// Whether strings of two bytes say no more than those of one.
    pub long: bool,
    /// The crate's decoding, with its notes.
    pub decode: Decoder,
    /// The encoding of a random value.
    pub encode: Encoder,
    /// The number in the table of each Rust type.
    pub types: Vec<(TypeId, u32)>,
}

pub type Decoder = Arc<dyn Fn(&[u8], &mut Notes) -> Result<(), DecodeError>>;
pub type Encoder = Arc<dyn Fn(&mut Rng) -> Vec<u8>>;

impl Subject {
    /// The encoding of a random value that may be above its limits.
    pub fn encode_above(&self, rng: &mut Rng) -> Vec<u8> {
        let by = rng.between(1, 2) as u32;
        above_limits(by, || (self.encode)(rng))
    }

    pub fn number_of(&self, note: &Note) -> u32 {
        match note.of {
            Tag::Table(number) => number,
            Tag::Rust(id) => {
                let found = self.types.iter().find(|(other, _)| *other == id);
                found.expect("a type of the table").1
            }
        }
    }
}

fn subject<T: Shape>(name: &'static str, short: bool) -> Subject {
    let mut pieces = Pieces::default();
    pieces.of::<T>();
    let table = pieces.layout.bytes();
    Subject {
        name,
        layout: pieces.layout,
        table,
        short,
        long: false,
        decode: Arc::new(|bytes, notes| notes_of(|| watched::<T>(bytes).map(|_| ()), notes)),
        encode: Arc::new(|rng| T::random(rng).as_ssz_bytes()),
        types: pieces.known.iter().map(|(id, of)| (*id, of.number())).collect(),
    }
}

/// A type that begins with offsets, or is long.
fn long<T: Shape>(name: &'static str) -> Subject {
    Subject { long: true, ..subject::<T>(name, false) }
}

macro_rules! tuple {
    ($($of:ty),+) => { ($(At<$of>,)+) };
}

container! {
    struct One<T> { only: T }
    struct Bid { price: u64, note: Limited<16>, flags: BitList<U8> }
    struct Numbers { a: u8, b: u16, c: u32, d: u64, e: u128, f: Wide }
    struct Flags { a: bool, b: BitVector<U9>, c: bool, d: [u8; 4] }
    struct Checkpoint { epoch: u64, root: [u8; 32] }
    struct Vote { slot: u64, index: u64, root: [u8; 32], source: Checkpoint, target: Checkpoint }
    struct Attestation { seats: BitList<U2048>, data: Vote, signature: [u8; 96] }
    struct Texts { a: Vec<u8>, b: Vec<u8>, c: Vec<u8>, d: Vec<u8> }
    struct Spread { a: Vec<u8>, b: u8, c: BitList<U12>, d: [u8; 3], e: Limited<0>, f: bool }
    struct Inner { left: Vec<u8>, middle: u16, right: BitList<U5> }
    struct Outer { first: Inner, flag: bool, second: Inner, third: Texts }
    struct Chosen { before: u8, choice: Choice, after: Option<At<u16>>, last: Choice }
    struct Sender { address: [u8; 20], key: [u8; 48], nonce: u32 }
    struct Order {
        sender: Sender,
        price: u64,
        note: Vec<u8>,
        seats: BitList<U64>,
        mask: BitVector<U512>,
        choice: Choice,
        urgent: bool,
        amount: u128,
        vote: Vote,
        inner: Outer,
        tip: Option<At<u64>>,
        proof: [u8; 256],
    }
    struct Pair { flag: bool, byte: u8 }
    struct Block {
        slot: u64,
        transactions: List<Limited<30>, 5>,
        roots: Row<[u8; 32], 2>,
        votes: List<Checkpoint, 3>,
        seats: Row<BitList<U9>, 3>,
        batch: Batch,
        bids: Vec<At<Bid>>,
    }
}

union! {
    enum Choice {
        0 => Nothing,
        1 => Number(u16),
        2 => Note(Limited<8>),
        3 => Bits(BitList<U9>),
        4 => Seats(BitVector<U12>),
        5 => Yes(bool),
        6 => Pair(Flags),
        7 => Inner(Inner),
        8 => Nested(Small),
        9 => Bare,
    }
    enum Small { 0 => Byte(u8), 1 => Bytes(Vec<u8>), 2 => Nothing }
    enum Batch {
        0 => Nothing,
        1 => Numbers(List<u16, 3>),
        2 => Texts(Vec<At<Vec<u8>>>),
        3 => Pairs(List<Pair, 2>),
        4 => Flags(Row<bool, 3>),
        5 => Bits(Row<BitList<U3>, 2>),
        6 => Choices(List<Small, 2>),
        7 => Deep(List<List<List<Limited<2>, 2>, 2>, 2>),
    }
    enum Single { 0 => Only(BitList<U4>) }
    enum Empty { 0 => Nothing }
}

/// 64 fields, as many as a container has: bytes and free bytes in turn.
struct Many(Vec<(u8, Vec<u8>)>);

const PAIRS: usize = 32;

impl Decode for Many {
    fn is_ssz_fixed_len() -> bool {
        false
    }

    fn from_ssz_bytes(bytes: &[u8]) -> Result<Self, DecodeError> {
        let mut builder = SszDecoderBuilder::new(bytes);
        for _ in 0..PAIRS {
            builder.register_type::<u8>()?;
            builder.register_type::<Vec<u8>>()?;
        }
        let mut decoder = builder.build()?;
        let pair = |_| Ok((decoder.decode_next_with(watched)?, decoder.decode_next_with(watched)?));
        (0..PAIRS).map(pair).collect::<Result<_, _>>().map(Many)
    }
}

impl Encode for Many {
    fn is_ssz_fixed_len() -> bool {
        false
    }

    fn ssz_bytes_len(&self) -> usize {
        self.0.iter().map(|(_, bytes)| 5 + bytes.len()).sum()
    }

    fn ssz_append(&self, buffer: &mut Vec<u8>) {
        let mut encoder = SszEncoder::container(buffer, 5 * PAIRS);
        for (byte, bytes) in &self.0 {
            encoder.append(byte);
            encoder.append(bytes);
        }
        encoder.finalize();
    }
}

impl Shape for Many {
    fn piece(pieces: &mut Pieces) -> cartwhisker::Type {
        let pair = [pieces.of::<u8>(), pieces.of::<Vec<u8>>()];
        pieces.layout.container(pair.into_iter().cycle().take(2 * PAIRS))
    }

    fn random(rng: &mut Rng) -> Self {
        let mut pair = |_| {
            let length = rng.below(3) as usize;
            (rng.byte(), rng.bytes(length))
        };
        Many((0..PAIRS).map(&mut pair).collect())
    }
}

/// 128 options, as many as a union has: none, a byte, free bytes, bits in turn.
struct Options128 {
    selector: u8,
    body: Vec<u8>,
}

impl Decode for Options128 {
    fn is_ssz_fixed_len() -> bool {
        false
    }

    fn from_ssz_bytes(bytes: &[u8]) -> Result<Self, DecodeError> {
        let (selector, body) = ssz::split_union_bytes(bytes)?;
        let selector = u8::from(selector);
        match selector % 4 {
            0 if body.is_empty() => (),
            0 => return Err(DecodeError::InvalidByteLength { len: body.len(), expected: 0 }),
            1 => drop(watched::<u8>(body)?),
            2 => drop(watched::<Vec<u8>>(body)?),
            _ => drop(watched::<BitList<U12>>(body)?),
        }
        Ok(Options128 { selector, body: body.to_vec() })
    }
}

impl Encode for Options128 {
    fn is_ssz_fixed_len() -> bool {
        false
    }

    fn ssz_bytes_len(&self) -> usize {
        1 + self.body.len()
    }

    fn ssz_append(&self, buffer: &mut Vec<u8>) {
        buffer.push(self.selector);
        buffer.extend(&self.body);
    }
}

impl Shape for Options128 {
    fn piece(pieces: &mut Pieces) -> cartwhisker::Type {
        let byte = pieces.of::<u8>();
        let bytes = pieces.of::<Vec<u8>>();
        let bits = pieces.of::<BitList<U12>>();
        let options = [None, Some(byte), Some(bytes), Some(bits)];
        pieces.layout.union(options.into_iter().cycle().take(128))
    }

    fn random(rng: &mut Rng) -> Self {
        let selector = rng.below(128) as u8;
        let body = match selector % 4 {
            0 => Vec::new(),
            1 => u8::random(rng).as_ssz_bytes(),
            2 => Vec::<u8>::random(rng),
            _ => BitList::<U12>::random(rng).as_ssz_bytes(),
        };
        Options128 { selector, body }
    }
}

type One3<T> = One<One<One<T>>>;
type One12<T> = One3<One3<One3<One3<T>>>>;
/// 63 containers around one type: the 64 types that a table has.
type One63<T> = One3<One12<One12<One12<One12<One12<T>>>>>>;

type One6<T> = Row<List<Row<List<Row<List<T, 1>, 1>, 1>, 1>, 1>, 1>;
/// A list inside of 62 vectors and containers: the 64 types that a table has.
type Deep<T> = One3<One12<One12<One12<One12<Two<Two<Two<Two<Two<Row<List<T, 4>, 1>>>>>>>>>>>;
type Two<T> = Row<One<T>, 1>;

/// 63 lists around a boolean, each with one element: too deep for a Rust type here.
fn deep_lists() -> Subject {
    let mut layout = Layout::new();
    let mut last = layout.boolean();
    for _ in 0..63 {
        last = layout.list(last, 1);
    }
    let encode = |rng: &mut Rng| [[4, 0, 0, 0].repeat(62), vec![rng.below(2) as u8]].concat();
    Subject {
        long: true,
        encode: Arc::new(encode),
        ..random_tables::under("63 lists around a bool", layout)
    }
}

/// Lists, which the crate reads as `Vec`, and vectors, as containers of fields of one type.
fn many() -> Vec<Subject> {
    vec![
        subject::<List<u8, 1>>("list of u8 up to 1", false),
        subject::<List<u16, 0>>("list of u16 up to 0", false),
        subject::<List<u16, 1>>("list of u16 up to 1", true),
        long::<Vec<At<u64>>>("Vec<u64>"),
        subject::<List<bool, 2>>("list of bool up to 2", true),
        subject::<Vec<At<BitVector<U9>>>>("Vec<BitVector<9>>", true),
        long::<Vec<At<[u8; 32]>>>("Vec<[u8; 32]>"),
        subject::<Vec<At<Pair>>>("Vec of a bool and a u8", true),
        long::<List<Checkpoint, 2>>("list of checkpoints up to 2"),
        long::<List<Flags, 3>>("list of fixed containers up to 3"),
        long::<Vec<At<Vec<u8>>>>("Vec<Vec<u8>>"),
        long::<List<Vec<u8>, 0>>("list of Vec<u8> up to 0"),
        long::<List<Limited<5>, 3>>("list of limited bytes up to 3"),
        long::<Vec<At<BitList<U9>>>>("Vec<BitList<9>>"),
        long::<List<Choice, 3>>("list of unions up to 3"),
        long::<Vec<At<Option<At<u16>>>>>("Vec<Option<u16>>"),
        long::<Vec<At<Bid>>>("Vec of bids"),
        long::<List<Inner, 2>>("list of containers up to 2"),
        long::<Vec<At<Vec<At<u64>>>>>("Vec<Vec<u64>>"),
        long::<List<List<bool, 2>, 2>>("list of lists of bool"),
        long::<Vec<At<Vec<At<Vec<u8>>>>>>("Vec<Vec<Vec<u8>>>"),
        long::<One6<BitList<U9>>>("lists in vectors in lists"),
        subject::<Row<bool, 2>>("vector of 2 bool", true),
        long::<Row<u16, 3>>("vector of 3 u16"),
        long::<Row<[u8; 32], 4>>("vector of 4 [u8; 32]"),
        long::<Row<Pair, 70>>("vector of 70 fixed containers"),
        long::<Row<Row<BitVector<U9>, 2>, 3>>("vector of vectors"),
        long::<Row<Vec<u8>, 1>>("vector of one Vec<u8>"),
        long::<Row<Limited<3>, 4>>("vector of 4 limited bytes"),
        long::<Row<Vec<u8>, 65>>("vector of 65 Vec<u8>"),
        long::<Row<BitList<U3>, 130>>("vector of 130 bit lists"),
        long::<Row<List<u16, 2>, 3>>("vector of 3 lists"),
        long::<List<Row<Pair, 2>, 2>>("list of fixed vectors"),
        long::<List<Row<Vec<u8>, 2>, 2>>("list of variable vectors"),
        subject::<Batch>("lists in a union", false),
        long::<tuple!(List<u16, 2>, bool, Row<bool, 2>, Vec<At<Vec<u8>>>)>("lists in a tuple"),
        long::<Block>("lists in a container"),
        long::<Deep<u16>>("62 vectors, containers, a list"),
        deep_lists(),
    ]
}

pub fn all() -> Vec<Subject> {
    let mut all = few();
    all.extend(many());
    all
}

fn few() -> Vec<Subject> {
    vec![
        subject::<u8>("u8", false),
        subject::<u64>("u64", false),
        subject::<u128>("u128", false),
        subject::<Wide>("number of 32 bytes", false),
        subject::<bool>("bool", false),
        subject::<[u8; 1]>("[u8; 1]", false),
        subject::<[u8; 20]>("[u8; 20]", false),
        subject::<[u8; 48]>("[u8; 48]", false),
        subject::<Vec<u8>>("Vec<u8>", false),
        subject::<Limited<2>>("Vec<u8>, limit 2", false),
        subject::<BitList<U0>>("BitList<0>", false),
        subject::<BitList<U4>>("BitList<4>", false),
        subject::<BitList<U16>>("BitList<16>", true),
        subject::<BitList<U17>>("BitList<17>", false),
        subject::<BitList<U256>>("BitList<256>", false),
        subject::<BitVector<U1>>("BitVector<1>", false),
        subject::<BitVector<U8>>("BitVector<8>", false),
        subject::<BitVector<U20>>("BitVector<20>", true),
        subject::<BitVector<U33>>("BitVector<33>", false),
        subject::<Option<At<bool>>>("Option<bool>", false),
        subject::<Option<At<Option<At<bool>>>>>("Option<Option<bool>>", true),
        subject::<Option<At<Vec<u8>>>>("Option<Vec<u8>>", false),
        subject::<Empty>("a union of no body alone", false),
        subject::<Single>("a union of one bit list", false),
        subject::<Small>("a union of three", false),
        subject::<Choice>("a union of ten", true),
        subject::<Options128>("a union of 128", false),
        subject::<tuple!(u8, u16)>("(u8, u16)", false),
        subject::<tuple!(bool, BitVector<U9>)>("(bool, BitVector<9>)", true),
        subject::<tuple!(u32, Vec<u8>)>("(u32, Vec<u8>)", false),
        subject::<tuple!(Vec<u8>, bool, BitList<U8>)>("(Vec<u8>, bool, BitList<8>)", false),
        subject::<tuple!(u8, u16, u32, u64)>("(u8, u16, u32, u64)", false),
        subject::<
            tuple!(Option<At<u8>>, Option<At<Bid>>, tuple!(u8, bool), tuple!(u8, Vec<u8>), bool),
        >("a tuple of options and tuples", false),
        subject::<tuple!(BitVector<U4>, BitList<U4>, BitVector<U16>, BitList<U16>, u8, Vec<u8>)>(
            "a tuple of bits",
            false,
        ),
        subject::<One<bool>>("a container of one bool", false),
        subject::<One<Vec<u8>>>("a container of one Vec<u8>", false),
        subject::<One63<u16>>("63 containers around a u16", false),
        subject::<One63<BitList<U9>>>("63 containers around a bit list", false),
        subject::<Bid>("the worked bid", false),
        subject::<Numbers>("numbers of all widths", false),
        subject::<Flags>("a fixed container", false),
        subject::<Attestation>("an attestation", false),
        subject::<Texts>("four Vec<u8>", false),
        subject::<Spread>("fixed and variable in turn", false),
        subject::<Outer>("containers in a container", false),
        subject::<Chosen>("unions in a container", false),
        subject::<Many>("64 fields", false),
        subject::<Order>("12 mixed fields", false),
    ]
}
