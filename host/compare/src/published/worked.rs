//! Document 01's worked bid and its twelve proved cases.

use super::{accepted, hex, refused, Asked, Form, Head, Types, CONTAINER, FREE, LIST, NUMBER};

/// "Layout L: 4 5 7 9 11 0 8 3 16 5 8 6 3 0 1 2."
pub const BID: Types = &[&[NUMBER, 8], &[FREE, 16], &[LIST, 8], &[CONTAINER, 3, 0, 1, 2]];
const BITS_4: Types = &[&[LIST, 4]];

/// The cases that are refused, with their numbers: type, message, refusal.
const REFUSED: [(u32, Types, &str, Head); 10] = [
    (2, BID, "", [1, 0, 8, 3, 0]),
    (3, BID, "2a00000000000000 1000", [2, 2, 4, 3, 0]),
    (4, BID, "2a00000000000000 0f000000 13000000 0a0b0c 0d", [4, 15, 0, 3, 0]),
    (5, BID, "2a00000000000000 11000000 13000000 0a0b0c 0d", [5, 17, 0, 3, 0]),
    (6, BID, "2a00000000000000 c8000000 13000000 0a0b0c 0d", [7, 200, 0, 3, 0]),
    (7, BID, "2a00000000000000 13000000 12000000 0a0b0c 0d", [6, 18, 0, 3, 0]),
    (8, BID, "2a00000000000000 10000000 14000000 0a0b0c 0d", [11, 0, 0, 2, 20]),
    (10, BITS_4, "20", [9, 4, 4, 0, 0]),
    (11, BITS_4, "0100", [12, 2, 1, 0, 0]),
    (12, BITS_4, "00", [10, 0, 0, 0, 0]),
];

pub fn all() -> impl Iterator<Item = Asked> {
    let message = hex("2a00000000000000 10000000 13000000 0a0b0c 0d");
    let bodies = hex("2a00000000000000 0a0b0c 05");
    let bid = Form { records: 4, contents: vec![3, 3], bodies };
    let four_zeros = Form { records: 1, contents: vec![4], bodies: vec![0] };
    let first = [
        accepted("document/case 1".to_string(), BID, message, bid),
        accepted("document/case 9".to_string(), BITS_4, hex("10"), four_zeros),
    ];
    let refusals = REFUSED.into_iter().map(|(case, types, message, head)| {
        refused(format!("document/case {case}"), types, hex(message), head)
    });
    first.into_iter().chain(refusals)
}
