//! The rules of document 01 as a host sees them: the worked bid, the twelve cases, the tables, the
//! room, the owners; and document 02's lists and vectors.

use cartwhisker::{check, list_into, listing, owners, Kind, Layout, Part, Record, Refusal, Type};

const BID_WORDS: [u32; 16] = [4, 5, 7, 9, 11, 0, 8, 3, 16, 5, 8, 6, 3, 0, 1, 2];
const BID: [u8; 20] =
    [0x2a, 0, 0, 0, 0, 0, 0, 0, 0x10, 0, 0, 0, 0x13, 0, 0, 0, 0x0a, 0x0b, 0x0c, 0x0d];

fn table(words: &[u32]) -> Vec<u8> {
    words.iter().flat_map(|word| word.to_le_bytes()).collect()
}

fn refused(number: u32, a: u64, b: u64, type_number: u32, start: u64) -> Result<(), Refusal> {
    Err(Refusal { number, a, b, type_number, start })
}

/// What both calls say, which must be the same.
fn told(layout: &[u8], message: &[u8]) -> Result<(), Refusal> {
    let told = check(layout, message);
    assert_eq!(listing(layout, message).map(|_| ()), told);
    told
}

/// The bid with other offsets.
fn with_offsets(first: u32, second: u32) -> Vec<u8> {
    let mut message = BID.to_vec();
    message[8..12].copy_from_slice(&first.to_le_bytes());
    message[12..16].copy_from_slice(&second.to_le_bytes());
    message
}

#[test]
fn the_twelve_cases() {
    let bid = table(&BID_WORDS);
    assert_eq!(told(&bid, &BID), Ok(()));
    assert_eq!(told(&bid, &[]), refused(1, 0, 8, 3, 0));
    assert_eq!(told(&bid, &BID[..10]), refused(2, 2, 4, 3, 0));
    assert_eq!(told(&bid, &with_offsets(15, 19)), refused(4, 15, 0, 3, 0));
    assert_eq!(told(&bid, &with_offsets(17, 19)), refused(5, 17, 0, 3, 0));
    assert_eq!(told(&bid, &with_offsets(200, 19)), refused(7, 200, 0, 3, 0));
    assert_eq!(told(&bid, &with_offsets(19, 18)), refused(6, 18, 0, 3, 0));
    assert_eq!(told(&bid, &with_offsets(16, 20)), refused(11, 0, 0, 2, 20));
    let mut bits = Layout::new();
    bits.bit_list(4);
    let bits = bits.bytes();
    assert_eq!(told(&bits, &[0x10]), Ok(()));
    assert_eq!(told(&bits, &[0x20]), refused(9, 4, 4, 0, 0));
    assert_eq!(told(&bits, &[1, 0]), refused(12, 2, 1, 0, 0));
    assert_eq!(told(&bits, &[0]), refused(10, 0, 0, 0, 0));
}

#[test]
fn the_worked_bid_is_listed() {
    let records = listing(&table(&BID_WORDS), &BID).unwrap();
    let numbers: Vec<[u32; 3]> = records.iter().map(|r| [r.type_number, r.start, r.end]).collect();
    assert_eq!(numbers, [[3, 0, 20], [0, 0, 8], [1, 16, 19], [2, 19, 20]]);
    assert_eq!(records[2].bytes(&BID), [0x0a, 0x0b, 0x0c]);
}

#[test]
fn a_bad_table_is_told_by_its_first_bad_word() {
    let at = |words: &[u32]| match told(&table(words), &BID) {
        Err(Refusal { number: 20, a, b: 0, type_number: 0, start: 0 }) => Some(a),
        _ => None,
    };
    assert_eq!(at(&[]), Some(0));
    assert_eq!(at(&[0]), Some(0));
    assert_eq!(at(&[65]), Some(0));
    assert_eq!(at(&[2, 3]), Some(2));
    assert_eq!(at(&[1, 3, 1]), Some(1));
    assert_eq!(at(&[1, 2]), Some(2));
    assert_eq!(at(&[1, 2, 10]), Some(2));
    assert_eq!(at(&[1, 2, 0]), Some(3));
    assert_eq!(at(&[1, 2, 0, 3]), Some(3));
    assert_eq!(at(&[1, 2, 2, 0]), Some(3));
    assert_eq!(at(&[1, 2, 4, 0]), Some(3));
    assert_eq!(at(&[1, 2, 6, 0]), Some(3));
    assert_eq!(at(&[1, 2, 7, 129]), Some(3));
    assert_eq!(at(&[1, 2, 6, 2, 0]), Some(4));
    assert_eq!(at(&[2, 3, 4, 1, 6, 3, 0, 1]), Some(7));
    assert_eq!(at(&[2, 3, 5, 2, u32::MAX, 6, 2, 0, 0]), Some(5));
    assert_eq!(at(&[1, 2, 1, 9, 9]), Some(3));
    let mut cut = table(&[9, 9]);
    cut.push(0);
    assert_eq!(told(&cut, &BID), refused(20, 2, 0, 0, 0));
    // Limits of 0 and types that nothing names are legal.
    assert_eq!(at(&[3, 4, 6, 8, 3, 0, 5, 0, 7, 1, u32::MAX]), None);
}

#[test]
fn a_bad_list_or_vector_in_a_table() {
    let at = |words: &[u32]| match told(&table(words), &[]) {
        Err(Refusal { number: 20, a, b: 0, type_number: 0, start: 0 }) => Some(a),
        _ => None,
    };
    for kind in [8, 9] {
        // The element is a lower type; the count behind it is there, and nothing behind that.
        assert_eq!(at(&[1, 2, kind]), Some(3));
        assert_eq!(at(&[1, 2, kind, 0, 1]), Some(3));
        assert_eq!(at(&[2, 3, 4, 1, kind]), Some(5));
        assert_eq!(at(&[2, 3, 4, 1, kind, 1]), Some(5));
        assert_eq!(at(&[2, 3, 4, 1, kind, u32::MAX, 1]), Some(5));
        assert_eq!(at(&[2, 3, 4, 1, kind, 0]), Some(6));
        assert_eq!(at(&[2, 3, 4, 1, kind, 0, 1]), None);
        assert_eq!(at(&[2, 3, 4, 1, kind, 0, 1, 0]), Some(7));
        assert_eq!(at(&[2, 3, 4, 1, kind, 0, u32::MAX]), None);
        assert_eq!(at(&[3, 4, 5, 7, 1, kind, 0, 1, 1]), Some(3));
        assert_eq!(at(&[3, 4, 5, 8, 1, kind, 0, 1, kind, 1, 1]), None);
    }
    // A list may have no elements, a vector has at least 1.
    assert_eq!(at(&[2, 3, 4, 1, 8, 0, 0]), None);
    assert_eq!(at(&[2, 3, 4, 1, 9, 0, 0]), Some(6));
    // A fixed portion of 4,294,967,295 bytes is the greatest; the kind word is told of, after the
    // count's own test. A list has none, whatever its limit.
    let vector = |width: u32, count: u32| at(&[2, 3, 5, 2, width, 9, 0, count]);
    assert_eq!((vector(u32::MAX, 1), vector(u32::MAX, 2)), (None, Some(5)));
    assert_eq!((vector(3, u32::MAX / 3), vector(3, u32::MAX / 3 + 1)), (None, Some(5)));
    assert_eq!((vector(1 << 16, 1 << 16), vector(u32::MAX, u32::MAX)), (Some(5), Some(5)));
    assert_eq!(vector(u32::MAX, 0), Some(7));
    let offsets = |count: u32| at(&[2, 3, 5, 3, 9, 9, 0, count]);
    assert_eq!((offsets((1 << 30) - 1), offsets(1 << 30)), (None, Some(5)));
    assert_eq!(at(&[2, 3, 5, 2, u32::MAX, 8, 0, u32::MAX]), None);
    // A vector's length counts in what holds it.
    let pair = |count| at(&[3, 4, 6, 9, 2, 3, 9, 0, count, 6, 2, 1, 0]);
    assert_eq!((pair(u32::MAX / 3 - 1), pair(u32::MAX / 3)), (None, Some(9)));
}

#[test]
fn a_table_is_made_and_taken_apart() {
    let mut layout = Layout::new();
    let price = layout.number(8);
    let note = layout.free_bytes(16);
    let flags = layout.bit_list(8);
    let bid = layout.container([price, note, flags]);
    assert_eq!(layout.words(), BID_WORDS);
    assert_eq!(layout.message(), Some(bid));
    assert_eq!(layout.fixed_length(price), Some(8));
    assert_eq!(layout.fixed_length(bid), None);
    assert_eq!(layout.up_to(note).words(), [2, 3, 5, 0, 8, 3, 16]);

    let (yes, hash, seats) = (layout.boolean(), layout.fixed_bytes(32), layout.bit_vector(17));
    let fixed = layout.container([yes, hash, seats]);
    assert_eq!(layout.fixed_length(fixed), Some(1 + 32 + 3));
    layout.union([Some(bid), None, Some(fixed)]);
    assert_eq!(Layout::read(&layout.bytes()), Ok(layout.clone()));
    assert_eq!(layout.kinds().last(), Some(&Kind::Union(vec![Some(bid), None, Some(fixed)])));
}

#[test]
fn a_table_with_lists_and_vectors_is_made_and_taken_apart() {
    let mut layout = Layout::new();
    let price = layout.number(8);
    let prices = layout.vector(price, 4);
    let list = layout.list(prices, 100);
    let lists = layout.vector(list, 2);
    let bid = layout.container([prices, lists]);
    assert_eq!(layout.words()[6..], [0, 8, 9, 0, 4, 8, 1, 100, 9, 2, 2, 6, 2, 1, 3]);
    let lengths = [price, prices, list, lists, bid].map(|of| layout.fixed_length(of));
    assert_eq!(lengths, [Some(8), Some(32), None, None, None]);
    let heads = [price, prices, list, lists].map(|of| layout.head(of));
    assert_eq!(heads, [8, 32, 4, 4]);
    assert_eq!(layout.check(), Ok(()));
    assert_eq!(Layout::read(&layout.bytes()), Ok(layout.clone()));
    assert_eq!(layout.kind(list), Some(&Kind::List(prices, 100)));
    assert_eq!(layout.kind(lists), Some(&Kind::Vector(list, 2)));
    // Vectors that no table may have: the lengths are large, and nothing is worked out wrongly.
    for _ in 0..9 {
        let below = layout.message().unwrap();
        layout.vector(below, u32::MAX);
    }
    let of = layout.vector(prices, u32::MAX);
    assert_eq!(layout.fixed_length(of), Some(32 * u64::from(u32::MAX)));
    let of = layout.vector(of, u32::MAX);
    assert_eq!(layout.fixed_length(of), Some(u64::MAX));
    assert_eq!(layout.check().unwrap_err().number, 20);
}

#[test]
fn what_is_illegal_is_refused_and_not_prevented() {
    assert_eq!(Layout::new().check(), refused(20, 0, 0, 0, 0));
    let mut foreign = Layout::new();
    foreign.container([Type::from_number(7)]);
    assert_eq!(foreign.check(), refused(20, 4, 0, 0, 0));
    let mut many = Layout::new();
    for _ in 0..65 {
        many.boolean();
    }
    assert_eq!(many.check(), refused(20, 0, 0, 0, 0));
    assert_eq!(Layout::read(&many.bytes()), Err(many.check().unwrap_err()));
}

/// Each type names the one below it 64 times. Worked out anew at each naming, lengths would take
/// 64^63 steps.
#[test]
fn a_table_of_64_types_that_name_each_other_64_times_is_quick() {
    let tower = |first: Kind| {
        let mut layout = Layout::new();
        let mut below = layout.add(first);
        for _ in 1..64 {
            below = layout.container([below; 64]);
        }
        layout
    };
    let legal = tower(Kind::FreeBytes(9));
    assert_eq!(legal.check(), Ok(()));
    assert_eq!(told(&legal.bytes(), &[]), refused(2, 0, 4, 63, 0));
    // 64^6 bytes are too long for a fixed portion: the seventh type's kind word.
    let bodies = 2 + 5 * 66;
    assert_eq!(tower(Kind::FixedBytes(1)).check(), refused(20, 65 + bodies, 0, 0, 0));
}

#[test]
fn a_listing_longer_than_the_guess_is_counted_first() {
    let mut layout = Layout::new();
    let byte = layout.number(1);
    let row = layout.container([byte; 64]);
    layout.container([row; 64]);
    let message = [5; 64 * 64];
    let records = listing(&layout.bytes(), &message).unwrap();
    assert_eq!(records.len(), 1 + 64 * 65);
    assert_eq!(records[0], Record::new(layout.message().unwrap(), 0, 4096));
    assert_eq!(records[66], Record::new(row, 64, 128));
    assert_eq!(records[4160], Record::new(byte, 4095, 4096));
    for count in 1..=64 {
        let mut layout = Layout::new();
        let byte = layout.number(1);
        layout.container(vec![byte; count]);
        assert_eq!(listing(&layout.bytes(), &message[..count]).unwrap().len(), count + 1);
    }
    // A small table with more items than words.
    let mut layout = Layout::new();
    let mut of = layout.number(1);
    for _ in 0..3 {
        of = layout.container([of, of, of]);
    }
    assert_eq!(layout.words().len(), 22);
    let records = listing(&layout.bytes(), &message[..27]).unwrap();
    assert_eq!(records.len(), 1 + 3 + 9 + 27);
    let mut layout = Layout::new();
    let mut of = layout.number(1);
    for _ in 0..2 {
        of = layout.container([of; 4]);
    }
    assert_eq!(layout.words().len(), 18);
    let records = listing(&layout.bytes(), &message[..16]).unwrap();
    assert_eq!(records.len(), 1 + 4 + 16);
}

#[test]
fn room_is_refused_last_and_nothing_is_written() {
    let bid = table(&BID_WORDS);
    for room in 0..4 {
        for odd in 0..12 {
            let mut buffer = vec![0xee; room * 12 + odd];
            let refusal = list_into(&bid, &BID, &mut buffer).unwrap_err();
            assert_eq!(Err(refusal), refused(22, 4, room as u64, 0, 0));
            assert!(buffer.iter().all(|byte| *byte == 0xee));
        }
    }
    let mut buffer = [0xee; 50];
    assert_eq!(list_into(&bid, &BID, &mut buffer), Ok(4));
    assert_eq!(buffer[..12], [3, 0, 0, 0, 0, 0, 0, 0, 20, 0, 0, 0]);
    assert_eq!(buffer[48..], [0xee, 0xee]);
    let cut = list_into(&bid, &BID[..10], &mut []).unwrap_err();
    assert_eq!(Err(cut), refused(2, 2, 4, 3, 0));
}

/// The pages of such a message are never touched: the check is by its length alone. Where the
/// system does not lend so much, there is nothing to ask.
#[test]
fn a_message_of_2_to_the_32_bytes() {
    // Zero bytes that are not read take no memory.
    let message = vec![0; 1 << 32];
    let mut layout = Layout::new();
    layout.free_bytes(u32::MAX);
    let layout = layout.bytes();
    assert_eq!(told(&layout, &message), refused(21, 0, 0, 0, 0));
    assert_eq!(told(&layout, &message[1..]), Ok(()));
    let records = listing(&layout, &message[1..]).unwrap();
    assert_eq!(records, [Record::new(Type::from_number(0), 0, u32::MAX)]);
    assert_eq!(told(&table(&BID_WORDS), &message), refused(21, 0, 0, 0, 0));
    assert_eq!(told(&[0], &message), refused(20, 0, 0, 0, 0));
}

#[test]
fn the_owners_tile_the_message() {
    let mut layout = Layout::new();
    let byte = layout.number(1);
    let note = layout.free_bytes(4);
    let pair = layout.container([byte, byte]);
    let inner = layout.container([note, pair, note]);
    let choice = layout.union([None, Some(inner), Some(note)]);
    layout.container([byte, choice, pair, choice, note, choice]);
    let message = [
        9, 19, 0, 0, 0, 8, 8, 34, 0, 0, 0, 35, 0, 0, 0, 36, 0, 0, 0, // the fixed portion
        1, 10, 0, 0, 0, 7, 7, 12, 0, 0, 0, 1, 2, 3, 4, // 19: inner
        0, // 34: no body
        5, // 35: a note
        2, 6, 6, 6, 6, // 36
    ];
    let found = owners(&layout, &message).unwrap();
    let mut end = 0;
    for owner in &found {
        assert_eq!(owner.start, end, "{owner:?}");
        end = owner.end;
    }
    assert_eq!(end as usize, message.len());
    let told: Vec<(String, Part, u32)> =
        found.iter().map(|owner| (owner.path.to_string(), owner.part, owner.start)).collect();
    let is = |path: &str, part, start| told.contains(&(format!("message{path}"), part, start));
    assert!(is(".1", Part::Offset, 1) && is(".2.1", Part::Leaf, 6) && is(".5", Part::Offset, 15));
    assert!(is(".1", Part::Selector, 19) && is(".1#1.1.0", Part::Leaf, 24));
    assert!(is(".1#1.2", Part::Leaf, 32) && is(".3", Part::Selector, 34));
    assert!(is(".5#2", Part::Leaf, 37));
    assert_eq!(told.len(), 18);
}

/// A row of offsets, and the bytes behind it.
fn offsets(offsets: &[u32], rest: &[u8]) -> Vec<u8> {
    [&table(offsets), rest].concat()
}

/// The layout of one list or vector over the last type of another, and that type's number.
fn over(layout: &Layout, add: impl FnOnce(&mut Layout, Type) -> Type) -> Vec<u8> {
    let mut layout = layout.clone();
    let element = layout.message().expect("a type for the elements");
    add(&mut layout, element);
    layout.bytes()
}

fn numbers(layout: &[u8], message: &[u8]) -> Vec<[u32; 3]> {
    let records = listing(layout, message).unwrap();
    records.iter().map(|r| [r.type_number, r.start, r.end]).collect()
}

#[test]
fn a_list_of_fixed_elements() {
    let mut price = Layout::new();
    price.number(2);
    let prices = over(&price, |layout, of| layout.list(of, 3));
    assert_eq!(numbers(&prices, &[]), [[1, 0, 0]]);
    assert_eq!(numbers(&prices, &[7; 2]), [[1, 0, 2], [0, 0, 2]]);
    assert_eq!(numbers(&prices, &[7; 6]), [[1, 0, 6], [0, 0, 2], [0, 2, 4], [0, 4, 6]]);
    // Not a multiple: the list's own length, before the count and before any element.
    assert_eq!(told(&prices, &[7; 1]), refused(1, 1, 2, 1, 0));
    assert_eq!(told(&prices, &[7; 5]), refused(1, 5, 2, 1, 0));
    assert_eq!(told(&prices, &[7; 9]), refused(1, 9, 2, 1, 0));
    assert_eq!(told(&prices, &[7; 8]), refused(14, 4, 3, 1, 0));
    // No elements may be there.
    let none = over(&price, |layout, of| layout.list(of, 0));
    assert_eq!(told(&none, &[]), Ok(()));
    assert_eq!(told(&none, &[7; 2]), refused(14, 1, 0, 1, 0));
    assert_eq!(told(&none, &[7; 1]), refused(1, 1, 2, 1, 0));
    // Elements with rules of their own, in order: the first bad one is told, with its place.
    let mut yes = Layout::new();
    yes.boolean();
    let flags = over(&yes, |layout, of| layout.list(of, 4));
    assert_eq!(told(&flags, &[0, 1, 1, 0]), Ok(()));
    assert_eq!(told(&flags, &[0, 1, 9, 8]), refused(13, 9, 0, 0, 2));
    assert_eq!(told(&flags, &[9, 8, 0, 1, 1]), refused(14, 5, 4, 1, 0));
    let pair = over(&yes, |layout, of| layout.container([of, of]));
    let pairs = over(&Layout::read(&pair).unwrap(), |layout, of| layout.list(of, 4));
    assert_eq!(told(&pairs, &[1, 1, 1, 2, 3, 1]), refused(13, 2, 0, 0, 3));
    // The length comes first, where the crate refuses an earlier bad element.
    assert_eq!(told(&pairs, &[1, 2, 1]), refused(1, 3, 2, 2, 0));
}

#[test]
fn a_vector_of_fixed_elements() {
    let mut price = Layout::new();
    price.number(2);
    let prices = over(&price, |layout, of| layout.vector(of, 3));
    assert_eq!(numbers(&prices, &[7; 6]), [[1, 0, 6], [0, 0, 2], [0, 2, 4], [0, 4, 6]]);
    for length in [0, 1, 2, 5, 7, 8, 12] {
        assert_eq!(told(&prices, &vec![7; length]), refused(1, length as u64, 6, 1, 0));
    }
    let mut yes = Layout::new();
    yes.boolean();
    let flags = over(&yes, |layout, of| layout.vector(of, 3));
    assert_eq!(told(&flags, &[1, 2, 3]), refused(13, 2, 0, 0, 1));
    assert_eq!(told(&flags, &[2, 3]), refused(1, 2, 3, 1, 0));
    let mut seats = Layout::new();
    seats.bit_vector(3);
    let rows = over(&seats, |layout, of| layout.vector(of, 2));
    assert_eq!(told(&rows, &[7, 7]), Ok(()));
    assert_eq!(told(&rows, &[7, 8]), refused(11, 0, 0, 0, 1));
}

/// Each of the rules in document 02's order, on a list that breaks it and all those behind it.
#[test]
fn a_list_of_variable_elements() {
    let mut note = Layout::new();
    note.free_bytes(2);
    let notes = over(&note, |layout, of| layout.list(of, 3));
    let with = |row: &[u32], rest: &[u8]| told(&notes, &offsets(row, rest));
    assert_eq!(numbers(&notes, &[]), [[1, 0, 0]]);
    let row = [12, 12, 14];
    let records = [[1, 0, 15], [0, 12, 12], [0, 12, 14], [0, 14, 15]];
    assert_eq!(numbers(&notes, &offsets(&row, &[7; 3])), records);
    // No whole offset: what is there, and 4.
    for length in 1..4 {
        assert_eq!(told(&notes, &vec![255; length]), refused(2, length as u64, 4, 1, 0));
    }
    // The first offset above the length, before it is no multiple of four.
    assert_eq!(with(&[5], &[]), refused(7, 5, 0, 1, 0));
    assert_eq!(with(&[u32::MAX], &[7; 9]), refused(7, u64::from(u32::MAX), 0, 1, 0));
    // Zero, or no multiple of four, before the count.
    assert_eq!(with(&[0], &[]), refused(15, 0, 0, 1, 0));
    for first in [1, 2, 3, 5, 6, 7, 17, 18, 19] {
        assert_eq!(with(&[first], &[255; 20]), refused(15, u64::from(first), 0, 1, 0));
    }
    // The count above the limit, before the further offsets.
    assert_eq!(with(&[16, 0, 99, 98], &[]), refused(14, 4, 3, 1, 0));
    assert_eq!(with(&[20, 0, 99, 98], &[7; 4]), refused(14, 5, 3, 1, 0));
    // Each further offset: below the first, above the length, below the one before.
    assert_eq!(with(&[12, 11, 99], &[]), refused(4, 11, 0, 1, 0));
    assert_eq!(with(&[12, 0, 12], &[]), refused(4, 0, 0, 1, 0));
    assert_eq!(with(&[12, 13, 11], &[]), refused(7, 13, 0, 1, 0));
    assert_eq!(with(&[12, 14, 11], &[7; 2]), refused(4, 11, 0, 1, 0));
    assert_eq!(with(&[12, 14, 15], &[7; 2]), refused(7, 15, 0, 1, 0));
    assert_eq!(with(&[12, 14, 13], &[7; 2]), refused(6, 13, 0, 1, 0));
    // All offsets before the elements, where the crate refuses a bad element first.
    assert_eq!(with(&[12, 15, 14], &[7; 3]), refused(6, 14, 0, 1, 0));
    assert_eq!(with(&[12, 15, 15], &[7; 3]), refused(14, 3, 2, 0, 12));
    assert_eq!(with(&[12, 13, 16], &[7; 7]), refused(14, 3, 2, 0, 13));
    assert_eq!(with(&[12, 13, 14], &[7; 5]), refused(14, 3, 2, 0, 14));
    // With no elements allowed 2, 7 and 15 come before 14 too.
    let none = over(&note, |layout, of| layout.list(of, 0));
    assert_eq!(told(&none, &[]), Ok(()));
    assert_eq!(told(&none, &[4, 0, 0]), refused(2, 3, 4, 1, 0));
    assert_eq!(told(&none, &offsets(&[5], &[])), refused(7, 5, 0, 1, 0));
    assert_eq!(told(&none, &offsets(&[0], &[])), refused(15, 0, 0, 1, 0));
    assert_eq!(told(&none, &offsets(&[4], &[])), refused(14, 1, 0, 1, 0));
}

/// The rules of a container: the first offset is compared with the fixed portion at the end.
#[test]
fn a_vector_of_variable_elements() {
    let mut note = Layout::new();
    note.free_bytes(2);
    let notes = over(&note, |layout, of| layout.vector(of, 3));
    let with = |row: &[u32], rest: &[u8]| told(&notes, &offsets(row, rest));
    let row = [12, 12, 14];
    let records = [[1, 0, 15], [0, 12, 12], [0, 12, 14], [0, 14, 15]];
    assert_eq!(numbers(&notes, &offsets(&row, &[7; 3])), records);
    // What is left of an offset, and 4.
    assert_eq!(with(&[], &[]), refused(2, 0, 4, 1, 0));
    assert_eq!(with(&[], &[0; 3]), refused(2, 3, 4, 1, 0));
    assert_eq!(with(&[8, 8], &[]), refused(2, 0, 4, 1, 0));
    assert_eq!(with(&[8, 8], &[7; 3]), refused(2, 3, 4, 1, 0));
    // Each offset: above the length, below the one before; never 15.
    assert_eq!(with(&[13, 12, 12], &[]), refused(7, 13, 0, 1, 0));
    assert_eq!(with(&[9], &[0; 2]), refused(7, 9, 0, 1, 0));
    assert_eq!(with(&[5, 4, 12], &[]), refused(6, 4, 0, 1, 0));
    assert_eq!(with(&[5, 5], &[]), refused(2, 0, 4, 1, 0));
    assert_eq!(with(&[12, 14, 13], &[7; 2]), refused(6, 13, 0, 1, 0));
    // Then the first against the fixed portion.
    assert_eq!(with(&[0, 0, 0], &[]), refused(4, 0, 0, 1, 0));
    assert_eq!(with(&[11, 12, 12], &[]), refused(4, 11, 0, 1, 0));
    assert_eq!(with(&[13, 13, 13], &[7]), refused(5, 13, 0, 1, 0));
    // Then the elements in order.
    assert_eq!(with(&[12, 15, 18], &[7; 6]), refused(14, 3, 2, 0, 12));
    assert_eq!(with(&[12, 12, 12], &[7; 3]), refused(14, 3, 2, 0, 12));
    assert_eq!(with(&[12, 13, 16], &[7; 4]), refused(14, 3, 2, 0, 13));
}

/// A container has at most 64 fields and a builder 64 items; a vector has as many as its table says.
#[test]
fn a_vector_of_more_variable_elements_than_a_builder_holds() {
    for count in [63_u32, 64, 65, 100, 1000, 10_000] {
        let mut note = Layout::new();
        note.free_bytes(2);
        let notes = over(&note, |layout, of| layout.vector(of, count));
        let starts: Vec<u32> = (0..count).map(|element| 4 * count + 2 * element).collect();
        let mut message = offsets(&starts, &vec![7; 2 * count as usize]);
        let records = numbers(&notes, &message);
        assert_eq!(records.len() as u32, 1 + count);
        assert_eq!(records[count as usize], [0, 6 * count - 2, 6 * count]);
        assert_eq!(
            told(&notes, &message[..4 * count as usize - 1]),
            refused(7, u64::from(4 * count), 0, 1, 0)
        );
        message.push(7);
        assert_eq!(told(&notes, &message), refused(14, 3, 2, 0, u64::from(6 * count) - 2));
        let last = 4 * count as usize - 4;
        message[last..last + 4].copy_from_slice(&(4 * count).to_le_bytes());
        assert_eq!(told(&notes, &message), refused(6, u64::from(4 * count), 0, 1, 0));
        let zeros = vec![0; 4 * count as usize];
        assert_eq!(told(&notes, &zeros[4..]), refused(2, 0, 4, 1, 0));
        assert_eq!(told(&notes, &zeros), refused(4, 0, 0, 1, 0));
    }
}

/// A bid with a list of lists of transactions, a vector of vectors of prices, and a union of a list:
/// starts are those in the message, other numbers those in the item.
#[test]
fn lists_and_vectors_at_several_depths() {
    let mut layout = Layout::new();
    let price = layout.number(1);
    let pair = layout.vector(price, 2);
    let square = layout.vector(pair, 2);
    let transaction = layout.free_bytes(3);
    let block = layout.list(transaction, 2);
    let blocks = layout.list(block, 2);
    let choice = layout.union([None, Some(blocks), Some(square)]);
    let choices = layout.vector(choice, 2);
    layout.container([square, choices]);
    let table = layout.bytes();
    let bid = |block: &[u8]| {
        let inner = offsets(&[8, 8], block);
        let choices =
            offsets(&[8, 9 + inner.len() as u32], &[&[1], &inner[..], &[2, 5, 6, 7, 8]].concat());
        offsets(&[0x0403_0201, 8], &choices)
    };
    let message = bid(&offsets(&[8, 9], &[7; 3]));
    assert_eq!(message.len(), 8 + 8 + 1 + 8 + 11 + 5);
    let pair_of =
        |start: u32| [[1, start, start + 2], [0, start, start + 1], [0, start + 1, start + 2]];
    let expected = [
        &[[8, 0, 41], [2, 0, 4]][..],
        &pair_of(0),
        &pair_of(2),
        &[[7, 8, 41], [6, 16, 36], [5, 17, 36], [4, 25, 25], [4, 25, 36]],
        &[[3, 33, 34], [3, 34, 36], [6, 36, 41], [2, 37, 41]],
        &pair_of(37),
        &pair_of(39),
    ];
    assert_eq!(numbers(&table, &message), expected.concat());
    // Refusals of the inner list, each with its own place.
    assert_eq!(told(&table, &bid(&[7; 3])), refused(2, 3, 4, 4, 25));
    assert_eq!(told(&table, &bid(&offsets(&[9], &[7; 4]))), refused(7, 9, 0, 4, 25));
    assert_eq!(told(&table, &bid(&offsets(&[6], &[7; 4]))), refused(15, 6, 0, 4, 25));
    assert_eq!(told(&table, &bid(&offsets(&[12; 3], &[]))), refused(14, 3, 2, 4, 25));
    assert_eq!(told(&table, &bid(&offsets(&[8, 4], &[]))), refused(4, 4, 0, 4, 25));
    assert_eq!(told(&table, &bid(&offsets(&[8, 9], &[]))), refused(7, 9, 0, 4, 25));
    assert_eq!(told(&table, &bid(&offsets(&[8, 9], &[7; 5]))), refused(14, 4, 3, 3, 34));
    // A union whose list is empty, one without body, and a vector in a union.
    let with = |first: &[u8], second: &[u8]| {
        let both = [first, second].concat();
        offsets(&[0, 8], &offsets(&[8, 8 + first.len() as u32], &both))
    };
    assert_eq!(
        numbers(&table, &with(&[1], &[0]))[8..],
        [[7, 8, 18], [6, 16, 17], [5, 17, 17], [6, 17, 18]]
    );
    assert_eq!(told(&table, &with(&[0, 1], &[0])), refused(1, 1, 0, 6, 16));
    assert_eq!(told(&table, &with(&[0], &[2, 1, 2, 3])), refused(1, 3, 4, 2, 18));
    assert_eq!(told(&table, &with(&[0], &[])), refused(3, 0, 0, 6, 17));
    assert_eq!(told(&table, &with(&[0], &[1, 4, 0, 0])), refused(2, 3, 4, 5, 18));
    let tiled = owners(&layout, &message).unwrap();
    assert!(tiled.windows(2).all(|pair| pair[0].end == pair[1].start));
    assert_eq!((tiled[0].start, tiled[tiled.len() - 1].end as usize), (0, message.len()));
    let paths: Vec<String> = tiled.iter().map(|owner| owner.path.to_string()).collect();
    assert!(paths.contains(&"message.0[1][0]".to_string()), "{paths:?}");
    assert!(paths.contains(&"message.1[0]#1[1][0]".to_string()), "{paths:?}");
    let empty = tiled
        .iter()
        .find(|owner| owner.path.to_string() == "message.1[0]#1[0]" && owner.part == Part::Leaf);
    assert_eq!(empty.map(|owner| (owner.start, owner.end, owner.of)), Some((25, 25, block)));
    assert_eq!(layout.element_count(blocks, &message[17..36]), Some(2));
}
