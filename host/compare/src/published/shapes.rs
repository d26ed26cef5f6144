//! The shapes of ssz_generic's cases, and of their neighbours.

use super::{
    accepted, hex, refused, Asked, Form, Types, BITS, BOOLEAN, FIXED, LIST, MAYBE_16, NUMBER,
    SINGLE, SMALL, VECTOR,
};

pub fn all() -> impl Iterator<Item = Asked> {
    let leaves =
        [numbers(), booleans(), bit_lists(), bad_bit_lists(), bit_vectors(), bad_bit_vectors()];
    let others = [containers(), bits_structs(), bad_bits_structs(), bad_unions()];
    leaves.into_iter().chain(others).flatten()
}

/// A value without contents words: its bodies are the message.
fn plain(name: String, types: Types, message: Vec<u8>, records: usize) -> Asked {
    let form = Form { records, contents: vec![], bodies: message.clone() };
    accepted(name, types, message, form)
}

fn numbers() -> Vec<Asked> {
    [1, 2, 4, 8, 16, 32].into_iter().flat_map(numbers_of).collect()
}

/// "Number: wrong length is 1."
fn numbers_of(width: usize) -> Vec<Asked> {
    let types: Types = &[&[NUMBER, width as u32]];
    let name = |what: &str| format!("ssz_generic/uint_{}_{what}", 8 * width);
    let mut last_byte_empty = vec![0xff; width];
    last_byte_empty[width - 1] = 0;
    let wrong = |what: &str, message: Vec<u8>| {
        let head = [1, message.len() as u64, width as u64, 0, 0];
        refused(name(what), types, message, head)
    };
    vec![
        plain(name("zero"), types, vec![0; width], 1),
        plain(name("max"), types, vec![0xff; width], 1),
        plain(name("last_byte_empty"), types, last_byte_empty, 1),
        wrong("one_too_high", [vec![0; width], vec![1]].concat()),
        wrong("one_byte_longer", [vec![0xff; width], vec![0]].concat()),
        wrong("one_byte_shorter", vec![0xff; width - 1]),
    ]
}

/// "Its byte is 0 or 1", else 13; "wrong length is 1".
fn booleans() -> Vec<Asked> {
    let types: Types = &[&[BOOLEAN]];
    let valid = [("false", 0), ("true", 1)];
    let valid =
        valid.map(|(name, byte)| plain(format!("ssz_generic/{name}"), types, vec![byte], 1));
    let bytes =
        [("byte_2", 2), ("byte_rev_nibble", 0x10), ("byte_0x80", 0x80), ("byte_full", 0xff)];
    let bytes = bytes.map(|(name, byte)| {
        refused(format!("ssz_generic/{name}"), types, vec![byte], [13, byte.into(), 0, 0, 0])
    });
    let lengths = [("no byte", vec![]), ("two bytes", vec![1, 0])].map(|(name, message)| {
        let head = [1, message.len() as u64, 1, 0, 0];
        refused(format!("rule/boolean of {name}"), types, message, head)
    });
    valid.into_iter().chain(bytes).chain(lengths).collect()
}

/// "Bit i is bit i mod 8 of byte i/8, lowest first."
fn packed(bits: &[bool]) -> Vec<u8> {
    let byte = |bits: &[bool]| bits.iter().rev().fold(0, |byte, bit| 2 * byte + u8::from(*bit));
    bits.chunks(8).map(byte).collect()
}

/// "A bit list adds one set bit behind its last."
fn marked(bits: &[bool]) -> Vec<u8> {
    packed(&[bits, &[true]].concat())
}

/// So many bits of each mode: none set, all set; for the random ones every other one.
fn modes(length: usize) -> [(&'static str, Vec<bool>); 3] {
    let every_other = (0..length).map(|i| i % 2 == 0).collect();
    [("zero", vec![false; length]), ("max", vec![true; length]), ("random", every_other)]
}

fn bit_lists() -> Vec<Asked> {
    let limits = [1, 2, 3, 4, 5, 8, 16, 31, 512, 513];
    let of = |limit: usize| {
        let none = ("nil", vec![]);
        modes(limit).into_iter().chain([none]).map(move |(mode, bits)| {
            // "Raw bytes are max(1, bits/8 rounded up)."
            let bodies = if bits.is_empty() { vec![0] } else { packed(&bits) };
            let form = Form { records: 1, contents: vec![bits.len() as u32], bodies };
            let name = format!("ssz_generic/bitlist_{limit}_{mode}");
            accepted(name, &[&[LIST, limit as u32]], marked(&bits), form)
        })
    };
    limits.into_iter().flat_map(of).collect()
}

/// "No bytes 11; no set bit 10; set bit not in the last byte 12; above N, 9 with N twice."
fn bad_bit_lists() -> Vec<Asked> {
    let undelimited = [("empty", "", 11), ("zero_byte", "00", 10), ("zeroes", "000000", 10)];
    let undelimited = undelimited.map(|(what, message, number)| {
        let name = format!("ssz_generic/bitlist_no_delimiter_{what}");
        refused(name, &[&[LIST, 8]], hex(message), [number, 0, 0, 0, 0])
    });
    let short = [(1, 2), (1, 8), (1, 9), (2, 3), (3, 4), (4, 5), (5, 6), (8, 9)];
    let long = [(32, 33), (32, 64), (512, 513)];
    let longer = short.into_iter().chain(long).flat_map(|(limit, length): (u32, usize)| {
        modes(length).map(|(mode, bits)| {
            let name = format!("ssz_generic/bitlist_{limit}_but_{length} {mode}");
            let head = [9, limit.into(), limit.into(), 0, 0];
            refused(name, &[&[LIST, limit]], marked(&bits), head)
        })
    });
    let name = "rule/bitlist with a byte behind its delimiter".to_string();
    let behind = refused(name, &[&[LIST, 8]], hex("0100"), [12, 2, 1, 0, 0]);
    undelimited.into_iter().chain(longer).chain([behind]).collect()
}

fn bit_vectors() -> Vec<Asked> {
    let of = |size: usize| {
        modes(size).map(|(mode, bits)| {
            let name = format!("ssz_generic/bitvec_{size}_{mode}");
            plain(name, &[&[VECTOR, size as u32]], packed(&bits), 1)
        })
    };
    [1, 2, 3, 4, 5, 8, 9, 16, 31, 512, 513].into_iter().flat_map(of).collect()
}

/// "Wrong count 12; bits above N 11." A vector of more bits has one set behind the N.
fn bad_bit_vectors() -> Vec<Asked> {
    let pairs =
        [(1, 2), (2, 3), (3, 4), (4, 5), (5, 6), (8, 9), (9, 8), (16, 8), (32, 33), (512, 513)];
    let of = |(size, length): (usize, usize)| {
        modes(length).map(|(mode, mut bits)| {
            bits.iter_mut().skip(size).for_each(|bit| *bit = true);
            let [given, expected] = [length, size].map(|bits| bits.div_ceil(8) as u64);
            let right = given == expected;
            let head = if right { [11, 0, 0, 0, 0] } else { [12, given, expected, 0, 0] };
            let name = format!("ssz_generic/bitvec_{size}_{mode}_{length}");
            refused(name, &[&[VECTOR, size as u32]], packed(&bits), head)
        })
    };
    let name = "rule/bitvector of no byte".to_string();
    let empty = refused(name, &[&[VECTOR, 9]], vec![], [12, 0, 2, 0, 0]);
    // "N, at least 1": its word is the table's fourth.
    let name = "ssz_generic/bitvec_0".to_string();
    let no_bits = refused(name, &[&[VECTOR, 0]], vec![], [20, 3, 0, 0, 0]);
    pairs.into_iter().flat_map(of).chain([empty, no_bits]).collect()
}

/// The containers of fixed size: name, type, items, the fields' lengths.
const FIXED_SIZES: [(&str, Types, usize, &[usize]); 3] = [
    ("SingleFieldTestStruct", SINGLE, 2, &[1]),
    ("SmallTestStruct", SMALL, 3, &[2, 2]),
    ("FixedTestStruct", FIXED, 4, &[1, 8, 4]),
];

/// "Registering a fixed item of length f at position p needs p+f bytes, else 1 (length of the
/// container's bytes, p+f)"; "the fixed portion must be the whole length, else 1".
fn containers() -> Vec<Asked> {
    let of = |(name, types, records, fields): (&str, Types, usize, &[usize])| {
        let length: usize = fields.iter().sum();
        let of_type = types.len() as u64 - 1;
        let shape = |what: &str| format!("ssz_generic/{name}_{what}");
        let rule = |what: &str| format!("rule/{name} {what}");
        let wrong = |name: String, given: usize, needed: usize| {
            let head = [1, given as u64, needed as u64, of_type, 0];
            refused(name, types, vec![0xff; given], head)
        };
        let rising: Vec<u8> = (1..=length as u8).collect();
        [
            plain(shape("zero"), types, vec![0; length], records),
            plain(shape("max"), types, vec![0xff; length], records),
            plain(shape("random"), types, rising, records),
            wrong(shape("extra_byte"), length + 1, length),
            wrong(rule("one byte short"), length - 1, length),
            wrong(rule("of no byte"), 0, fields[0]),
        ]
    };
    FIXED_SIZES.into_iter().flat_map(of).collect()
}

/// BitsStruct's values: mode, message, contents, bodies. The fixed portion takes 11 bytes.
const BITS_VALUES: [(&str, &str, [u32; 2], &str); 4] = [
    ("nil", "0b000000 00 00 0c000000 00 01 01", [0, 0], "00 00 00 00 00"),
    ("one", "0b000000 03 01 0c000000 2b 03 02", [1, 1], "01 03 01 00 2b"),
    ("lengthy", "0b000000 01 00 0c000000 ff 35 6a", [5, 6], "15 01 00 2a ff"),
    ("max", "0b000000 03 01 0c000000 ff 3f 7f", [5, 6], "1f 03 01 3f ff"),
];

fn bits_structs() -> Vec<Asked> {
    let of = |(mode, message, contents, bodies): (&str, &str, [u32; 2], &str)| {
        let form = Form { records: 6, contents: contents.to_vec(), bodies: hex(bodies) };
        accepted(format!("ssz_generic/BitsStruct_{mode}"), BITS, hex(message), form)
    };
    BITS_VALUES.into_iter().map(of).collect()
}

/// What is done to a value of BitsStruct: a byte of the message set, and the refusal. Its types are
/// 0 to 4 for the fields and 5 for the whole; its lists lie at 11 and at 12.
const BITS_FAULTS: [(&str, usize, u8, [u64; 5]); 10] = [
    ("ssz_generic/BitsStruct_offset_0_plus_one", 0, 12, [5, 12, 0, 5, 0]),
    ("ssz_generic/BitsStruct_offset_0_minus_one", 0, 10, [4, 10, 0, 5, 0]),
    ("ssz_generic/BitsStruct_offset_0_zeroed", 0, 0, [4, 0, 0, 5, 0]),
    ("rule/BitsStruct offset 0 behind the end", 0, 14, [7, 14, 0, 5, 0]),
    // The first list gets both bytes: at least eight bits.
    ("ssz_generic/BitsStruct_offset_6_plus_one", 6, 13, [9, 5, 5, 0, 11]),
    // The first list gets no byte.
    ("ssz_generic/BitsStruct_offset_6_minus_one", 6, 11, [11, 0, 0, 0, 11]),
    ("ssz_generic/BitsStruct_offset_6_zeroed", 6, 0, [6, 0, 0, 5, 0]),
    ("rule/BitsStruct offset 6 behind the end", 6, 14, [7, 14, 0, 5, 0]),
    ("rule/BitsStruct bit above its vector of 2", 4, 4, [11, 0, 0, 1, 4]),
    ("rule/BitsStruct bit above its vector of 1", 5, 2, [11, 0, 0, 2, 5]),
];

fn bad_bits_structs() -> Vec<Asked> {
    let of = |(mode, message, ..): (&'static str, &str, [u32; 2], &str)| {
        let message = hex(message);
        let longer = [&message[..], &[0xff]].concat();
        let shorter = message[..12].to_vec();
        let changed = BITS_FAULTS.map(|(name, at, byte, head)| {
            let mut bytes = message.clone();
            bytes[at] = byte;
            refused(format!("{name} {mode}"), BITS, bytes, head)
        });
        // The last list gets a second byte with its highest bit set, or has none.
        let extra = format!("ssz_generic/BitsStruct_extra_byte {mode}");
        let short = format!("rule/BitsStruct one byte short {mode}");
        changed.into_iter().chain([
            refused(extra, BITS, longer, [9, 6, 6, 3, 12]),
            refused(short, BITS, shorter, [11, 0, 0, 3, 12]),
        ])
    };
    BITS_VALUES.into_iter().flat_map(of).collect()
}

/// Union[None, uint16]: "no bytes is 3 with 0; a selector above 127, or without an option in the
/// table, is 8"; a bare option "followed by bytes is 1 (bytes left, 0)".
fn bad_unions() -> Vec<Asked> {
    let faults = [
        ("of no byte", "", [3, 0, 0, 1, 0]),
        ("with selector 2", "02bbaa", [8, 2, 0, 1, 0]),
        ("with selector 128", "80bbaa", [8, 128, 0, 1, 0]),
        ("None with a byte behind it", "00bb", [1, 1, 0, 1, 0]),
        ("uint16 one byte short", "01bb", [1, 1, 2, 0, 1]),
        ("uint16 one byte longer", "01bbaa00", [1, 3, 2, 0, 1]),
    ];
    let of =
        |(what, message, head)| refused(format!("rule/union {what}"), MAYBE_16, hex(message), head);
    faults.map(of).into()
}
