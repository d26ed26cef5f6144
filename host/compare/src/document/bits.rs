//! Our own rules for held bitfields.

use super::{refused, Take};
use crate::format::{number, Head, Held, Part, HELD_BITS};
use crate::ops::{as_list, is_vector, OPS};

const BAD_STATE: Head = Head::new(23, 0, 0);
const LIMITS_DIFFER: Head = Head::new(24, 0, 0);

pub fn cases(take: Take) {
    bad_states(take);
    unlike_limits(take);
    limits_of_lists(take);
    limits_of_makers(take);
    limits_of_resize(take);
    short_buffers(take);
}

fn over_limit(limit: u64) -> Head {
    Head::new(14, limit, HELD_BITS)
}

/// The operations whose first argument is a held field.
fn on_held(vector: bool) -> impl Iterator<Item = u32> {
    let all = OPS.iter().map(|op| op.number);
    all.filter(move |op| match *op {
        12..=25 => !vector,
        32..=45 => vector,
        _ => false,
    })
}

fn takes_two(op: u32) -> bool {
    matches!(as_list(op), 13 | 14 | 15 | 23)
}

/// The further arguments of an operation on a held field: harmless ones, with nothing that is
/// refused for its own sake.
fn further(op: u32, n: u64) -> Vec<Part> {
    match as_list(op) {
        12 => vec![vec![0xee; 258]],
        13 | 14 | 15 | 23 => vec![sound(op, n).part()],
        16 => vec![number(n.min(HELD_BITS))],
        18 => vec![number(0), number(1)],
        19 | 25 => vec![number(0)],
        _ => vec![],
    }
}

/// A field of this N with nothing wrong in it but, perhaps, N itself.
fn sound(op: u32, n: u64) -> Held {
    Held::zero(if is_vector(op) { n } else { 0 }, n)
}

fn question(op: u32, first: &Held) -> Vec<Part> {
    let mut parts = vec![first.part()];
    parts.extend(further(op, first.n));
    parts
}

/// "23: a held bitfield above 2,048 bits, above its N (a vector: unlike it) or with bits past its
/// end". Bits past the end count anywhere in the 256 bytes (reading 46), and a vector with N above
/// 2,048 is always in a bad state (reading 44).
fn bad_fields(op: u32) -> Vec<Held> {
    let own = if is_vector(op) {
        [Held::zero(4, 5), Held::zero(5, 5_000), Held::zero(0, 5), Held::zero(2_048, 2_049)]
    } else {
        [
            Held::zero(3, 9).with_bits(&[3]),
            Held::zero(2_049, 3_000),
            Held::zero(0, 9).with_bits(&[8]),
            Held::zero(2_048, 2_047),
        ]
    };
    let mut found = vec![
        // Bits past the end, in the last used byte and in the very last one.
        Held::zero(5, 5).with_bits(&[1, 5]),
        Held::zero(5, 5).with_bits(&[2_047]),
        // Above N; above 2,048 bits though not above N: no 14, since "it comes first".
        Held::zero(6, 5),
        Held::zero(2_049, 2_049),
    ];
    found.extend(own[..2].to_vec());
    // One test serves every call, so the rest is tried on one operation of each kind only.
    if matches!(as_list(op), 13 | 22) {
        found.extend(own[2..].to_vec());
        found.extend([
            // In the byte behind the last used one; in the last byte of all, which is used.
            Held::zero(8, 8).with_bits(&[8]),
            Held::zero(2_047, 2_047).with_bits(&[2_047]),
            // An empty field has one raw byte, which is zero.
            Held::zero(0, 0).with_bits(&[0]),
            Held::zero(2_049, 2_048),
            Held::zero(u64::MAX, 8),
            Held::zero(u64::MAX, u64::MAX),
        ]);
    }
    found
}

/// Each operation with each bad field as its first and, where it takes two, as its second.
fn bad_states(take: Take) {
    for vector in [false, true] {
        for op in on_held(vector) {
            for bad in bad_fields(op) {
                take(refused(op, question(op, &bad), BAD_STATE));
            }
            if takes_two(op) {
                bad_seconds(op, take);
            }
        }
    }
    // Before the crate's own refusals: a place outside, a size too small.
    let bad = Held::zero(5, 5).with_bits(&[7]).part();
    for op in [19, 25, 39, 45] {
        take(refused(op, vec![bad.clone(), number(9)], BAD_STATE));
    }
    for op in [18, 38] {
        take(refused(op, vec![bad.clone(), number(9), number(1)], BAD_STATE));
    }
    take(refused(16, vec![bad.clone(), number(2)], BAD_STATE));
    // Before M's limit and before short buffers.
    take(refused(16, vec![bad.clone(), number(9_000)], BAD_STATE));
    take(refused(12, vec![bad.clone(), vec![]], BAD_STATE));
    take(refused(32, vec![bad, vec![]], BAD_STATE));
}

/// "It comes first; 24 ... second": both operands are tested for 23 before 24 (reading 45).
fn bad_seconds(op: u32, take: Take) {
    for bad in bad_fields(op) {
        let alike = sound(op, bad.n).part();
        take(refused(op, vec![alike, bad.part()], BAD_STATE));
    }
    let bad = Held::zero(5, 5).with_bits(&[5]).part();
    let unlike = sound(op, 6).part();
    take(refused(op, vec![unlike.clone(), bad.clone()], BAD_STATE));
    take(refused(op, vec![bad, unlike], BAD_STATE));
}

/// "24 (BitLists, or BitVectors, of unlike N) second"; two limits unlike and above 2,048 are 24
/// (reading 45), though each alone would be 14.
fn unlike_limits(take: Take) {
    let of_lists = [
        (Held::zero(3, 5).with_bits(&[1]), Held::zero(3, 6).with_bits(&[1])),
        (Held::zero(0, 0), Held::zero(0, 1)),
        (Held::zero(2_048, 2_048), Held::zero(2_047, 2_047)),
        (Held::zero(3, 5_000), Held::zero(3, 5_001)),
        (Held::zero(3, 5), Held::zero(3, 5_000)),
        (Held::zero(3, 2_048), Held::zero(3, 2_049)),
    ];
    let of_vectors = [
        (Held::zero(5, 5), Held::zero(6, 6)),
        (Held::zero(8, 8).with_bits(&[7]), Held::zero(16, 16).with_bits(&[7])),
        (Held::zero(0, 0), Held::zero(1, 1)),
        (Held::zero(2_048, 2_048), Held::zero(2_047, 2_047)),
    ];
    for op in on_held(false).filter(|op| takes_two(*op)) {
        unlike(op, &of_lists, take);
    }
    for op in on_held(true).filter(|op| takes_two(*op)) {
        unlike(op, &of_vectors, take);
    }
}

fn unlike(op: u32, pairs: &[(Held, Held)], take: Take) {
    for (place, (first, second)) in pairs.iter().enumerate() {
        take(refused(op, vec![first.part(), second.part()], LIMITS_DIFFER));
        // The larger limit first as well.
        if place == 0 {
            take(refused(op, vec![second.part(), first.part()], LIMITS_DIFFER));
        }
    }
}

/// "a held limit N ... above 2,048 is 14 (limit, 2048), third; then the crate's own": for every
/// operation, whether or not it needs N (reading 43). Of held fields only lists show it (44).
fn limits_of_lists(take: Take) {
    for n in [2_049, u64::MAX - 1] {
        let list = Held::zero(3, n).with_bits(&[0, 2]);
        for op in on_held(false) {
            take(refused(op, question(op, &list), over_limit(n)));
        }
        // Before the crate's own 9, before 22 and before 12.
        let part = list.part();
        take(refused(18, vec![part.clone(), number(3), number(0)], over_limit(n)));
        take(refused(19, vec![part.clone(), number(3)], over_limit(n)));
        take(refused(25, vec![part.clone(), number(4)], over_limit(n)));
        take(refused(12, vec![part, vec![]], over_limit(n)));
    }
}

/// The calls that make a field test N before anything of the crate's own (reading 43): no 9 of too
/// many bits, no 11 or 10 of bad bytes.
fn limits_of_makers(take: Take) {
    for n in [2_049, u64::MAX - 1] {
        let n_part = || number(n);
        for bits in [0, 3, 2_048, 2_049, n, u64::MAX] {
            take(refused(10, vec![number(bits), n_part()], over_limit(n)));
        }
        take(refused(30, vec![n_part()], over_limit(n)));
        for op in [11, 31] {
            for bytes in [vec![], vec![0], vec![1], vec![1, 0], vec![0xff; 257], vec![0; 626]] {
                take(refused(op, vec![bytes, n_part()], over_limit(n)));
            }
        }
    }
}

/// "a held limit N, then M": with both above 2,048 N is named (reading 51); M above it is 14 though
/// M is larger than N, and N above it wins over the crate's 12.
fn limits_of_resize(take: Take) {
    let pairs = [
        (5, 2_049, 2_049),
        (2_048, 2_049, 2_049),
        (0, 5_000, 5_000),
        (5, u64::MAX - 1, u64::MAX - 1),
        (2_049, 2_049, 2_049),
        (5_000, 6_000, 5_000),
        (6_000, 5_000, 6_000),
        (5_000, 2_048, 5_000),
        (5_000, 1, 5_000),
    ];
    for (n, m, named) in pairs {
        take(refused(16, vec![Held::zero(0, n).part(), number(m)], over_limit(named)));
        let whole = Held::zero(n.min(HELD_BITS), n).with_bits(&[]);
        take(refused(16, vec![whole.part(), number(m)], over_limit(named)));
    }
}

/// "`into_bytes` gives it too, last": 22 (bytes needed, room), for vectors too (reading 53). A list
/// needs a bit more than it has; a field of no bits needs one byte.
fn short_buffers(take: Take) {
    let of_lists: [(u64, u64); 6] = [(0, 1), (7, 1), (8, 2), (15, 2), (16, 3), (2_048, 257)];
    let of_vectors: [(u64, u64); 6] = [(0, 1), (1, 1), (8, 1), (9, 2), (16, 2), (2_048, 256)];
    for (op, sizes) in [(12, of_lists), (32, of_vectors)] {
        for (length, needed) in sizes {
            let last: Vec<u64> = length.checked_sub(1).into_iter().collect();
            let field = Held::zero(length, length).with_bits(&last).part();
            for room in [0, 1, needed - 1] {
                if room < needed {
                    let buffer = (0..room).map(|i| i as u8 ^ 0x5a).collect();
                    let head = Head::new(22, needed, room);
                    take(refused(op, vec![field.clone(), buffer], head));
                }
            }
        }
    }
}
