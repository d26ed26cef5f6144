//! Lists and vectors: ssz_generic's basic_vector and the containers that hold lists, with neighbours.

use super::{
    accepted, hex, refused, Asked, Form, Types, BOOLEAN, COMPLEX, COMPLEX_MESSAGE, FREE, LIST,
    LIST_16, LIST_OF, NUMBER, VAR, VECTOR_OF,
};

pub fn all() -> impl Iterator<Item = Asked> {
    let vectors = [vectors(), bad_vectors()];
    let lists = [lists(), bad_lists(), bad_var_structs(), bad_complex_structs()];
    vectors.into_iter().chain(lists).flatten()
}

/// Vectors of booleans and of numbers of 2 bytes: an even element and an odd one, in turn. The modes
/// are none set, all set and, for the random ones, every other.
fn vectors() -> Vec<Asked> {
    let elements: [(&str, &[u32], [[&str; 3]; 3]); 2] = [
        ("bool", BOOLEAN_TYPE, [["zero", "00", "00"], ["max", "01", "01"], ["random", "01", "00"]]),
        (
            "uint16",
            NUMBER_TYPE,
            [["zero", "0000", "0000"], ["max", "ffff", "ffff"], ["random", "4567", "0123"]],
        ),
    ];
    let of = |count: usize| {
        elements.into_iter().flat_map(move |(name, element, modes)| {
            modes.map(|[mode, even, odd]| {
                let bytes = hex(&[even, odd].into_iter().cycle().take(count).collect::<String>());
                let form = Form { records: 1 + count, contents: vec![], bodies: bytes.clone() };
                let types: Types = &[element, &[VECTOR_OF, 0, count as u32]];
                accepted(format!("ssz_generic/vec_{name}_{count}_{mode}"), types, bytes, form)
            })
        })
    };
    [1, 2, 3, 5, 8, 31].into_iter().flat_map(of).collect()
}

const BOOLEAN_TYPE: &[u32] = &[BOOLEAN];
const NUMBER_TYPE: &[u32] = &[NUMBER, 2];

/// "Fixed vector of wrong length, 1 (length, expected)"; a count of at least 1, and its word is the
/// table's last.
fn bad_vectors() -> Vec<Asked> {
    let of = |count: usize| {
        let length = 2 * count;
        let types: Types = &[NUMBER_TYPE, &[VECTOR_OF, 0, count as u32]];
        let wrong = |what: &str, given: usize| {
            let name = format!("ssz_generic/vec_uint16_{count}_{what}");
            refused(name, types, vec![0xff; given], [1, given as u64, length as u64, 1, 0])
        };
        [
            wrong("nil", 0),
            wrong("one_byte_less", length - 1),
            wrong("one_byte_more", length + 1),
            wrong("one_less", length - 2),
            wrong("one_more", length + 2),
        ]
    };
    let name = "ssz_generic/vec_uint16_0".to_string();
    let none = refused(name, &[NUMBER_TYPE, &[VECTOR_OF, 0, 0]], vec![], [20, 7, 0, 0, 0]);
    let name = "rule/vector of booleans with a bad one".to_string();
    let types: Types = &[BOOLEAN_TYPE, &[VECTOR_OF, 0, 3]];
    let flag = refused(name, types, vec![1, 1, 2], [13, 2, 0, 0, 2]);
    [2, 3, 5].into_iter().flat_map(of).chain([none, flag]).collect()
}

pub const TEXTS: Types = &[&[FREE, 4], &[LIST_OF, 0, 3]];
pub const TEXT_ROW: Types = &[&[FREE, 4], &[VECTOR_OF, 0, 2]];
pub const LISTS: Types = &[&[NUMBER, 2], &[LIST_OF, 0, 2], &[LIST_OF, 1, 2]];
pub const BIT_LISTS: Types = &[&[LIST, 5], &[LIST_OF, 0, 3]];

/// Name, type, serialization; the listing's items, contents, bodies.
type Listed = (&'static str, Types<'static>, &'static str, usize, &'static [u32], &'static str);

const VALUES: &[Listed] = &[
    ("list of none", LIST_16, "", 1, &[0], ""),
    ("list of no texts", TEXTS, "", 1, &[0], ""),
    ("list of one empty text", TEXTS, "04000000", 2, &[1, 0], ""),
    ("list of texts", TEXTS, "0c000000 0e000000 0e000000 aabb cc", 4, &[3, 2, 0, 1], "aabbcc"),
    ("vector of texts", TEXT_ROW, "08000000 0a000000 aabb cc", 3, &[2, 1], "aabbcc"),
    ("list of lists", LISTS, "08000000 08000000 0100", 4, &[2, 0, 1], "0100"),
    ("list of bit lists", BIT_LISTS, "08000000 09000000 01 35", 3, &[2, 0, 5], "0015"),
];

fn lists() -> Vec<Asked> {
    let of = |(name, types, message, records, contents, bodies): &Listed| {
        let form = Form { records: *records, contents: contents.to_vec(), bodies: hex(bodies) };
        accepted(format!("rule/{name}"), types, hex(message), form)
    };
    VALUES.iter().map(of).collect()
}

/// "List of variable elements, empty is no elements; else 2; first offset above the length 7; zero or
/// not a multiple of four 15 (offset); further offsets 4 (below the first), then 7, then 6; then
/// elements in order." A vector's are refused as a container's.
fn bad_lists() -> Vec<Asked> {
    let faults: [(&str, Types, &str, [u64; 5]); 17] = [
        ("list of texts, a cut offset", TEXTS, "040000", [2, 3, 4, 1, 0]),
        ("list of texts, first offset behind the end", TEXTS, "08000000 0c", [7, 8, 0, 1, 0]),
        ("list of texts, first offset zero", TEXTS, "00000000", [15, 0, 0, 1, 0]),
        ("list of texts, first offset no multiple", TEXTS, "05000000 aa", [15, 5, 0, 1, 0]),
        ("list of texts, offset below the first", TEXTS, "08000000 07000000", [4, 7, 0, 1, 0]),
        ("list of texts, offset behind the end", TEXTS, "08000000 09000000", [7, 9, 0, 1, 0]),
        (
            "list of texts, offset that falls",
            TEXTS,
            "0c000000 0e000000 0d000000 aabb",
            [6, 13, 0, 1, 0],
        ),
        (
            "list of texts, last offset below the first",
            TEXTS,
            "0c000000 0c000000 0b000000",
            [4, 11, 0, 1, 0],
        ),
        ("list of bit lists, empty element", BIT_LISTS, "08000000 09000000 01", [11, 0, 0, 0, 9]),
        ("list of bit lists, long element", BIT_LISTS, "08000000 09000000 01 40", [9, 5, 5, 0, 9]),
        ("list of lists, cut list", LISTS, "08000000 09000000 01 0100", [1, 1, 2, 1, 8]),
        ("list of lists, cut offset", LISTS, "0800", [2, 2, 4, 2, 0]),
        ("vector of texts, a cut offset", TEXT_ROW, "04000000 0a00", [2, 2, 4, 1, 0]),
        ("vector of texts, first offset too low", TEXT_ROW, "04000000 08000000", [4, 4, 0, 1, 0]),
        (
            "vector of texts, first offset too high",
            TEXT_ROW,
            "09000000 09000000 aa",
            [5, 9, 0, 1, 0],
        ),
        ("vector of texts, offset that falls", TEXT_ROW, "08000000 07000000", [6, 7, 0, 1, 0]),
        ("vector of texts, offset behind the end", TEXT_ROW, "08000000 09000000", [7, 9, 0, 1, 0]),
    ];
    let of = |(name, types, message, head): (&str, Types, &str, [u64; 5])| {
        refused(format!("rule/{name}"), types, hex(message), head)
    };
    faults.map(of).into()
}

/// VarTestStruct's fields are types 0 to 2 and it is 3; its list lies at 7.
fn bad_var_structs() -> Vec<Asked> {
    let faults = [
        ("ssz_generic/VarTestStruct_offset_2_plus_one", "cdab08000000ff0100", [5, 8, 0, 3, 0]),
        ("ssz_generic/VarTestStruct_offset_2_minus_one", "cdab06000000ff0100", [4, 6, 0, 3, 0]),
        ("ssz_generic/VarTestStruct_offset_2_zeroed", "cdab00000000ff0100", [4, 0, 0, 3, 0]),
        ("rule/VarTestStruct offset 2 behind the end", "cdab0a000000ff0100", [7, 10, 0, 3, 0]),
        ("ssz_generic/VarTestStruct_extra_byte", "cdab07000000ff01", [1, 1, 2, 1, 7]),
        ("rule/VarTestStruct without its last field", "cdab07000000", [7, 7, 0, 3, 0]),
    ];
    faults.map(|(name, message, head)| refused(name.to_string(), VAR, hex(message), head)).into()
}

/// Its vector G is type 10 and lies at 94; of its two structs (type 3) the second lies at 115.
fn bad_complex_structs() -> Vec<Asked> {
    let faults = [
        ("offset_2_plus_one", 2, 0x48, [5, 0x48, 0, 11, 0]),
        ("offset 7 below the one before", 7, 0x46, [6, 0x46, 0, 11, 0]),
        ("offset_11_zeroed", 11, 0, [6, 0, 0, 11, 0]),
        ("offset_67_zeroed", 67, 0, [6, 0, 0, 11, 0]),
        ("offset of G minus one", 94, 7, [4, 7, 0, 10, 94]),
        ("second offset of G behind the end", 98, 0xff, [7, 0xff, 0, 10, 94]),
        ("offset in G's second struct plus one", 117, 8, [5, 8, 0, 3, 115]),
    ];
    let of = |(what, at, byte, head): (&str, usize, u8, [u64; 5])| {
        let name = match what.starts_with("offset_") {
            true => format!("ssz_generic/ComplexTestStruct_{what}"),
            false => format!("rule/ComplexTestStruct {what}"),
        };
        let mut message = hex(COMPLEX_MESSAGE);
        message[at] = byte;
        refused(name, COMPLEX, message, head)
    };
    faults.map(of).into()
}
