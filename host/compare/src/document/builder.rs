//! Our own rules for the builder and the reader.

use super::{refused, Take};
use crate::format::{number, row, Case, Head, Part, VARIABLE};

const LIMIT: u64 = u32::MAX as u64;
const FULL: Head = Head::new(26, 64, 0);

/// "For a builder, after 23: bytes of 2^32 or more 21, a 65th item 26, a fixed item above
/// 4,294,967,295 bytes 14 (length, that limit)", then the crate's own (reading 59). 23 is out
/// of reach of a fresh builder (`builder_states` reaches it), and 21 of bytes that fit into a record.
pub fn cases(take: Take) {
    full(take);
    too_long(take);
    // The crate's own refusal before the 65th item is reached.
    take(built(vec![7; 2], &[1; 70], Head::new(1, 2, 3), 2));
}

fn built(bytes: Vec<u8>, registrations: &[u64], head: Head, accepted: u64) -> Case {
    Case {
        op: 50,
        question: vec![bytes, row(registrations)],
        head,
        results: vec![number(accepted), Vec::new()],
    }
}

/// `count` offsets that all point behind the last of them.
fn offsets(count: u32) -> Vec<u8> {
    (0..count).flat_map(|_| (4 * count).to_le_bytes()).collect()
}

/// 26 gives (64, 0), whatever the 65th item is and whatever bytes are left for it.
fn full(take: Take) {
    let with_last = |last: u64| {
        let mut registrations = vec![0; 64];
        registrations.push(last);
        registrations
    };
    take(built(vec![], &[0; 65], FULL, 64));
    take(built(vec![], &[0; 100], FULL, 64));
    take(built(vec![3; 65], &[1; 65], FULL, 64));
    take(built(vec![3; 64], &[1; 65], FULL, 64));
    take(built(vec![3; 70], &[1; 65], FULL, 64));
    take(built(offsets(65), &[VARIABLE; 65], FULL, 64));
    take(built(vec![], &with_last(VARIABLE), FULL, 64));
    take(built(vec![], &with_last(1), FULL, 64));
    // Before 14.
    take(built(vec![], &with_last(LIMIT + 1), FULL, 64));
    take(built(vec![9; 8], &with_last(u64::MAX - 1), FULL, 64));
}

/// 14 comes before the crate's 1, at any place in the row.
fn too_long(take: Take) {
    for length in [LIMIT + 1, LIMIT + 2, 1 << 40, u64::MAX - 1] {
        let head = Head::new(14, length, LIMIT);
        take(built(vec![], &[length], head, 0));
        take(built(vec![1; 20], &[length], head, 0));
        take(built(vec![1; 20], &[20, length], head, 1));
        take(built(vec![1; 20], &[8, 8, length, 90], head, 2));
        take(built(offsets(2), &[VARIABLE, length, VARIABLE], head, 1));
        // An earlier refusal of the crate's wins.
        take(built(vec![1; 2], &[3, length], Head::new(1, 2, 3), 0));
    }
}

fn item(bytes: &[u8], ranges: &[u64], item: u64) -> Vec<Part> {
    vec![bytes.to_vec(), row(ranges), number(item)]
}

/// "a reader range outside its bytes" is 23, and so is an item "past the last". Only the range that
/// is asked for is tested, and one whose start is above its end is outside (readings 61, 62).
pub fn reader_cases(take: Take) {
    let bytes = [10, 11, 12, 13, 14];
    let bad = Head::new(23, 0, 0);
    for (ranges, at) in [
        (&[][..], 0),
        (&[], u64::MAX),
        (&[0, 5], 1),
        (&[0, 5], 2),
        (&[0, 5], u64::MAX - 1),
        (&[0, 6], 0),
        (&[5, 6], 0),
        (&[6, 6], 0),
        (&[3, 2], 0),
        (&[5, 0], 0),
        (&[6, 5], 0),
        (&[u64::MAX, u64::MAX], 0),
        (&[0, u64::MAX], 0),
        (&[u64::MAX, 0], 0),
        (&[0, 5, 2, 6, 0, 1], 1),
    ] {
        take(refused(51, item(&bytes, ranges, at), bad));
    }
    take(refused(51, item(&bytes, &[0, 5].repeat(64), 64), bad));
    take(refused(51, item(&[], &[0, 1], 0), bad));
    // Accepted: other ranges are bad, or lie over each other, or leave gaps.
    let accepted: [(&[u64], u64, &[u8]); 6] = [
        (&[0, 5, 2, 6, 0, 1], 0, &bytes),
        (&[0, 5, 2, 6, 0, 1], 2, &[10]),
        (&[9, 3, 1, 4], 1, &[11, 12, 13]),
        (&[5, 5], 0, &[]),
        (&[0, 0], 0, &[]),
        (&[2, 4, 0, 3, 1, 2], 1, &[10, 11, 12]),
    ];
    for (ranges, at, found) in accepted {
        take(given(&bytes, ranges, at, found));
    }
    take(given(&bytes, &[4, 5].repeat(64), 63, &[14]));
    take(given(&[], &[0, 0], 0, &[]));
}

fn given(bytes: &[u8], ranges: &[u64], at: u64, found: &[u8]) -> Case {
    Case {
        op: 51,
        question: item(bytes, ranges, at),
        head: Head::SUCCESS,
        results: vec![found.to_vec()],
    }
}
