//! Tables and messages made to cost as much as they can: answers by document 01, each of them at
//! once, and time that grows with what is lent and no faster.
//!
//! A type that names the one below it 64 times has 64 times as many leaves. Who works a type out
//! anew for each field that names it never ends here.

mod making;

use cartwhisker::{
    check, check_layout, list_into, listing, record_count, Layout, Record, Refusal, Type,
    RECORD_BYTES,
};
use making::{containers, legal, one, unions, zeros, FIELDS, GREATEST, OPTIONS, TYPES};
use std::hint::black_box;
use std::time::{Duration, Instant};

/// No call here takes a tenth of this. Work that doubles with each type would take years.
const AT_ONCE: Duration = Duration::from_millis(50);

fn refused<T>(number: u32, a: u64, b: u64, type_number: u32, start: u64) -> Result<T, Refusal> {
    Err(Refusal { number, a, b, type_number, start })
}

/// The shortest of some times is the one that other work on the machine lengthened least.
fn shortest(tries: u32, mut call: impl FnMut()) -> Duration {
    let timed = |call: &mut dyn FnMut()| {
        let start = Instant::now();
        call();
        start.elapsed()
    };
    (0..tries).map(|_| timed(&mut call)).min().expect("at least one try")
}

/// A check whose answer is of no matter.
fn ask(table: &[u8], message: &[u8]) {
    let _ = black_box(check(black_box(table), black_box(message)));
}

/// What both calls say, which must be the same, and at once. A refusal is five calls each.
fn told(table: &[u8], message: &[u8]) -> Result<Vec<Record>, Refusal> {
    let listed = listing(table, message);
    assert_eq!(check(table, message), listed.clone().map(|_| ()));
    let checking = shortest(5, || ask(table, message));
    let listing = shortest(5, || drop(black_box(listing(table, message))));
    assert!(checking < AT_ONCE, "the check takes {checking:?}");
    assert!(listing < AT_ONCE, "the listing takes {listing:?}");
    listed
}

/// Zero bytes, as many as the machine gives: `length` or, where that cannot be had, the greatest
/// half, quarter and so on.
fn most_zeros(length: usize) -> Vec<u8> {
    zeros(length).unwrap_or_else(|| most_zeros(length / 2))
}

#[test]
fn a_legal_table_of_64_types_each_naming_the_one_below_64_times() {
    let layout = legal(TYPES);
    assert_eq!(layout.words().len(), 65 + 2 + 63 * 66);
    let table = layout.bytes();
    assert_eq!(check_layout(&table), Ok(()));
    // The first offset is missing; offsets of 0 lead into the fixed portion of 256 bytes.
    assert_eq!(told(&table, &[]), refused(2, 0, 4, 63, 0));
    assert_eq!(told(&table, &[0; 256]), refused(4, 0, 0, 63, 0));
    // Offsets of 256 are right for 64 empty fields, of which the first has no offset itself.
    let offsets = 256_u32.to_le_bytes().repeat(FIELDS);
    assert_eq!(told(&table, &offsets), refused(2, 0, 4, 62, 256));
    // The first field has all the rest, the others nothing, and so on downwards. 63 containers are
    // laid out before the second field of type 2 is found to be empty.
    let deep: Vec<u8> = (1..TYPES as u32)
        .rev()
        .flat_map(|left| {
            (0..FIELDS as u32).map(move |field| if field == 0 { 256 } else { 256 * left })
        })
        .flat_map(u32::to_le_bytes)
        .collect();
    assert_eq!(told(&table, &deep), refused(2, 0, 4, 1, 63 * 256));
}

#[test]
fn an_illegal_table_of_64_types_each_naming_the_one_below_64_times() {
    let layout = containers(one(|layout| layout.number(1)), TYPES, FIELDS);
    let (words, table) = (layout.words(), layout.bytes());
    // Type k has 64^k bytes: 2^30 at type 5, 2^36 at type 6.
    let first = (0..).find(|k| 64_u64.pow(*k) > u64::from(GREATEST)).expect("a power that large");
    assert_eq!(first, 6);
    let kind_word = words[1 + first as usize];
    assert_eq!((kind_word, words[kind_word as usize]), (397, 6));
    for message in [&[][..], &[0; 256]] {
        assert_eq!(told(&table, message), refused(20, u64::from(kind_word), 0, 0, 0));
    }
    let fits = layout.up_to(Type::from_number(first - 1)).bytes();
    assert_eq!(told(&fits, &[]), refused(1, 0, 1 << 24, 5, 0));
}

/// One type after another: work that grows 64 times with each is told by the fifth or sixth, where
/// a table of 64 types would keep it busy for good.
#[test]
fn a_type_more_costs_no_more_than_its_words() {
    for types in 2..=TYPES {
        let last = types as u32 - 1;
        assert_eq!(told(&legal(types).bytes(), &[]), refused(2, 0, 4, last, 0));
        let number = containers(one(|layout| layout.number(1)), types, FIELDS).bytes();
        if last < 6 {
            assert_eq!(told(&number, &[]), refused(1, 0, 64_u64.pow(last - 1), last, 0));
        } else {
            let word = types as u64 + 1 + 2 + 66 * 5;
            assert_eq!(told(&number, &[]), refused(20, word, 0, 0, 0));
        }
    }
}

#[test]
fn a_fixed_length_of_a_thousand_million_leaves_that_64_types_share() {
    let wide = containers(one(|layout| layout.number(1)), 6, FIELDS);
    let table = containers(wide, TYPES, 1).bytes();
    assert_eq!(told(&table, &[]), refused(1, 0, 1 << 30, 63, 0));
    assert_eq!(told(&table, &[0; 256]), refused(1, 256, 1 << 30, 63, 0));
}

#[test]
fn unions_of_128_options_in_64_types() {
    let layout = unions(one(|layout| layout.boolean()), TYPES, OPTIONS);
    assert_eq!(layout.words().len(), 65 + 1 + 63 * 130);
    let table = layout.bytes();
    assert_eq!(told(&table, &[]), refused(3, 0, 0, 63, 0));
    assert_eq!(told(&table, &[128]), refused(8, 128, 0, 63, 0));
    assert_eq!(told(&table, &[127]), Ok(vec![Record { type_number: 63, start: 0, end: 1 }]));
    assert_eq!(told(&table, &[64, 0]), refused(1, 1, 0, 63, 0));
    // 63 unions around a boolean by their last option with a body.
    let mut message = [63; TYPES];
    message[63] = 1;
    assert_eq!(told(&table, &message).unwrap().len(), TYPES);
    message[63] = 2;
    assert_eq!(told(&table, &message), refused(13, 2, 0, 0, 63));
    message[62] = 127;
    assert_eq!(told(&table, &message), refused(1, 1, 0, 1, 62));
    assert_eq!(told(&table, &message[..63]).unwrap().len(), 63);
}

#[test]
fn the_longest_table() {
    let bodiless = one(|layout| layout.union([None; OPTIONS]));
    let layout = unions(bodiless, TYPES, OPTIONS);
    let (words, table) = (layout.words().len(), layout.bytes());
    assert_eq!(words, 65 + 64 * 130);
    assert_eq!(told(&table, &[63; TYPES]).unwrap().len(), TYPES);
    // What is behind it, before it or missing is found at once too.
    let longer = [&table[..], &[0; 4]].concat();
    assert_eq!(told(&longer, &[]), refused(20, words as u64, 0, 0, 0));
    let cut = &table[..table.len() - 4];
    assert_eq!(told(cut, &[]), refused(20, words as u64 - 1, 0, 0, 0));
    let garbage = most_zeros(1 << 30);
    assert_eq!(told(&garbage, &[]), refused(20, 0, 0, 0, 0));
}

#[test]
fn the_greatest_counts_and_limits() {
    let mut layout = Layout::new();
    let leaves = [
        layout.number(32),
        layout.boolean(),
        layout.fixed_bytes(GREATEST),
        layout.free_bytes(GREATEST),
        layout.bit_vector(GREATEST),
        layout.bit_list(GREATEST),
    ];
    let [number, boolean, fixed, free, vector, list] = leaves;
    assert_eq!(told(&layout.up_to(fixed).bytes(), &[]), refused(1, 0, u64::from(GREATEST), 2, 0));
    assert_eq!(told(&layout.up_to(vector).bytes(), &[]), refused(12, 0, 1 << 29, 4, 0));
    assert_eq!(told(&layout.up_to(list).bytes(), &[1]).unwrap().len(), 1);
    // A fixed portion of 4,294,967,295 bytes is legal, and one more is not.
    layout.container([fixed]);
    let whole = layout.bytes();
    assert_eq!(told(&whole, &[0; 32]), refused(1, 32, u64::from(GREATEST), 6, 0));
    layout.container([fixed, boolean]);
    let at = u64::from(layout.words()[8]);
    assert_eq!(told(&layout.bytes(), &[]), refused(20, at, 0, 0, 0));
    // Seven bit vectors of 2^29 bytes are below it, an eighth takes the portion to 2^32.
    let legal = layout.up_to(Type::from_number(6));
    let mut seven = legal.clone();
    seven.container([vector; 7]);
    assert_eq!(told(&seven.bytes(), &[]), refused(1, 0, 1 << 29, 7, 0));
    let mut eight = legal.clone();
    eight.container([vector; 8]);
    assert_eq!(told(&eight.bytes(), &[]), refused(20, u64::from(eight.words()[8]), 0, 0, 0));
    // Every count at its greatest, of fields and options alike, up to 64 types.
    let mut full = legal.clone();
    let row: Vec<Type> = [number, free, list, boolean].repeat(16);
    while full.kinds().len() < TYPES - 1 {
        full.container(row.clone());
    }
    full.union(vec![Some(Type::from_number(62)); OPTIONS]);
    let portion = 16 * (32 + 4 + 4 + 1);
    assert_eq!(told(&full.bytes(), &[127]), refused(1, 0, 32, 62, 1));
    let mut message = vec![0; 1 + portion];
    message[0] = 127;
    assert_eq!(told(&full.bytes(), &message), refused(4, 0, 0, 62, 1));
}

#[test]
fn a_container_of_64_fixed_fields_of_the_greatest_length() {
    let length = GREATEST / FIELDS as u32;
    let of = |length| containers(one(|layout| layout.fixed_bytes(length)), 2, FIELDS);
    assert_eq!(length, 67_108_863);
    assert_eq!(told(&of(length + 1).bytes(), &[]), refused(20, 5, 0, 0, 0));
    let table = of(length).bytes();
    assert_eq!(told(&table, &[]), refused(1, 0, u64::from(length), 1, 0));
    // A message of that length where the machine has it; nothing of it is read.
    let message = most_zeros(length as usize * FIELDS);
    let length = message.len() / FIELDS;
    let message = &message[..length * FIELDS];
    let records = told(&of(length as u32).bytes(), message).unwrap();
    let end = |field: usize| (field * length) as u32;
    assert_eq!(records.len(), 1 + FIELDS);
    assert_eq!(records[64], Record { type_number: 0, start: end(63), end: end(64) });
}

#[test]
fn the_greatest_message() {
    let message = most_zeros(1 << 32);
    for add in [Layout::free_bytes, Layout::fixed_bytes] {
        let fits = (message.len() - 1).min(GREATEST as usize);
        let table = one(|layout| add(layout, fits as u32)).bytes();
        let records = told(&table, &message[..fits]).unwrap();
        assert_eq!(records, [Record { type_number: 0, start: 0, end: fits as u32 }]);
        if message.len() > GREATEST as usize {
            assert_eq!(told(&table, &message), refused(21, 0, 0, 0, 0));
        }
    }
}

/// The listing of items of the types 63 down to 0, each starting at `start` of its depth and ending
/// with the message.
fn nest(end: u32, start: impl Fn(u32) -> u32) -> Vec<Record> {
    (0..64).map(|depth| Record { type_number: 63 - depth, start: start(depth), end }).collect()
}

#[test]
fn the_deepest_nesting_is_listed() {
    let fixed = containers(one(|layout| layout.number(1)), TYPES, 1).bytes();
    assert_eq!(told(&fixed, &[7]), Ok(nest(1, |_| 0)));
    assert_eq!(told(&fixed, &[]), refused(1, 0, 1, 63, 0));
    let variable = containers(one(|layout| layout.bit_list(8)), TYPES, 1).bytes();
    let mut message = [4, 0, 0, 0].repeat(63);
    message.push(0x0d);
    assert_eq!(told(&variable, &message), Ok(nest(253, |depth| 4 * depth)));
    message[252] = 0;
    assert_eq!(told(&variable, &message), refused(10, 0, 0, 0, 252));
    let choices = unions(one(|layout| layout.number(2)), TYPES, 2).bytes();
    assert_eq!(told(&choices, &[0; 65]), Ok(nest(65, |depth| depth)));
    assert_eq!(told(&choices, &[0; 64]), refused(1, 1, 2, 0, 63));
}

/// Types up to `types` in all, each a list or vector with this number of the type below.
fn rows(
    mut layout: Layout,
    types: usize,
    add: fn(&mut Layout, Type, u32) -> Type,
    number: u32,
) -> Layout {
    while layout.kinds().len() < types {
        let below = layout.message().expect("a type to start from");
        add(&mut layout, below, number);
    }
    layout
}

#[test]
fn the_deepest_nesting_of_lists_and_vectors() {
    let fixed = rows(one(|layout| layout.number(1)), TYPES, Layout::vector, 1).bytes();
    assert_eq!(told(&fixed, &[7]), Ok(nest(1, |_| 0)));
    assert_eq!(told(&fixed, &[]), refused(1, 0, 1, 63, 0));
    let mut message = [4, 0, 0, 0].repeat(63);
    message.push(0x0d);
    for add in [Layout::list, Layout::vector] {
        let table = rows(one(|layout| layout.bit_list(8)), TYPES, add, 1).bytes();
        assert_eq!(told(&table, &message), Ok(nest(253, |depth| 4 * depth)));
        let mut marked = message.clone();
        marked[252] = 0;
        assert_eq!(told(&table, &marked), refused(10, 0, 0, 0, 252));
    }
    // Only a list may be empty: 63 lists around nothing, 62 around one, and so on.
    let table = rows(one(|layout| layout.bit_list(8)), TYPES, Layout::list, 1).bytes();
    for depth in 0..63 {
        let records = told(&table, &message[..4 * depth]).unwrap();
        assert_eq!(records.len(), depth + 1);
        let last = 4 * depth as u32;
        assert_eq!(records[depth], Record { type_number: 63 - last / 4, start: last, end: last });
    }
    assert_eq!(told(&table, &message[..252]), refused(11, 0, 0, 0, 252));
}

#[test]
fn vectors_that_double_with_each_type() {
    let layout = rows(one(|layout| layout.number(1)), TYPES, Layout::vector, 2);
    // Type k has 2^k bytes: type 32 is too long.
    let word = 65 + 2 + 3 * 31;
    assert_eq!(u64::from(layout.words()[1 + 32]), word);
    assert_eq!(told(&layout.bytes(), &[]), refused(20, word, 0, 0, 0));
    let fits = layout.up_to(Type::from_number(31)).bytes();
    assert_eq!(told(&fits, &[0; 256]), refused(1, 256, 1 << 31, 31, 0));
    let small = layout.up_to(Type::from_number(12)).bytes();
    assert_eq!(told(&small, &[7; 1 << 12]).unwrap().len(), (1 << 13) - 1);
    // Of variable elements each vector takes 8 bytes of offsets, whatever is below.
    let table = rows(one(|layout| layout.free_bytes(9)), TYPES, Layout::vector, 2).bytes();
    assert_eq!(told(&table, &[]), refused(2, 0, 4, 63, 0));
    assert_eq!(told(&table, &[8, 0, 0, 0, 8, 0, 0, 0]), refused(2, 0, 4, 62, 8));
}

#[test]
fn the_greatest_counts_of_elements() {
    let notes = |count| rows(one(|layout| layout.free_bytes(9)), 2, Layout::vector, count).bytes();
    let most = (1 << 30) - 1;
    assert_eq!(told(&notes(most + 1), &[]), refused(20, 5, 0, 0, 0));
    assert_eq!(told(&notes(most), &[]), refused(2, 0, 4, 1, 0));
    assert_eq!(told(&notes(most), &[0; 1 << 16]), refused(2, 0, 4, 1, 0));
    assert_eq!(told(&notes(most), &[255; 1 << 16]), refused(7, u64::from(GREATEST), 0, 1, 0));
    let bytes = one(|layout| layout.number(1));
    let vector = rows(bytes.clone(), 2, Layout::vector, GREATEST).bytes();
    assert_eq!(told(&vector, &[0; 9]), refused(1, 9, u64::from(GREATEST), 1, 0));
    // As many numbers as the machine has bytes: they are counted, and not looked at one by one.
    let message = most_zeros(GREATEST as usize);
    let list = rows(bytes, 2, Layout::list, GREATEST).bytes();
    assert!(shortest(5, || assert_eq!(check(&list, &message), Ok(()))) < AT_ONCE);
    assert_eq!(record_count(&list, &message), Ok(1 + message.len()));
    // Where the first offset says more elements than the limit, the others are not looked at.
    let first = 1_u32 << 30;
    if message.len() > first as usize {
        let mut offsets = message;
        offsets[..4].copy_from_slice(&first.to_le_bytes());
        let table = rows(one(|layout| layout.free_bytes(9)), 2, Layout::list, 10).bytes();
        let many = u64::from(first / 4);
        assert!(shortest(5, || ask(&table, &offsets)) < AT_ONCE);
        assert_eq!(check(&table, &offsets), refused(14, many, 10, 1, 0));
    }
}

/// A byte of the message is an item within 63 others.
#[test]
fn a_list_of_bytes_within_62_containers_each() {
    let each = containers(one(|layout| layout.number(1)), TYPES - 1, 1);
    let table = rows(each, TYPES, Layout::list, 1000).bytes();
    let records = told(&table, &[7; 1000]).unwrap();
    assert_eq!(records.len(), 1 + 1000 * 63);
    assert_eq!(records[0], Record { type_number: 63, start: 0, end: 1000 });
    assert_eq!(records[64], Record { type_number: 62, start: 1, end: 2 });
    assert_eq!(records[63_000], Record { type_number: 0, start: 999, end: 1000 });
    assert_eq!(told(&table, &[7; 1001]), refused(14, 1001, 1000, 63, 0));
}

/// So many offsets, all to the end, where there is nothing.
fn empty_elements(count: usize) -> Vec<u8> {
    (4 * count as u32).to_le_bytes().repeat(count)
}

#[test]
fn a_hundred_thousand_empty_elements() {
    const COUNT: usize = 100_000;
    let message = empty_elements(COUNT);
    let end = message.len() as u32;
    for add in [Layout::list, Layout::vector] {
        let table = rows(one(|layout| layout.free_bytes(0)), 2, add, COUNT as u32).bytes();
        let records = told(&table, &message).unwrap();
        assert_eq!(records.len(), 1 + COUNT);
        assert!(records[1..].iter().all(|record| (record.start, record.end) == (end, end)));
        // A bit list has at least a byte, so that the first one is refused.
        let bits = rows(one(|layout| layout.bit_list(8)), 2, add, COUNT as u32).bytes();
        assert_eq!(told(&bits, &message), refused(11, 0, 0, 0, u64::from(end)));
    }
}

/// How many times as long the second call takes, by the shortest of many times.
fn growth(mut small: impl FnMut(), mut large: impl FnMut()) -> f64 {
    let repeated = |call: &mut dyn FnMut()| shortest(60, || (0..10).for_each(|_| call()));
    let (small, large) = (repeated(&mut small), repeated(&mut large));
    large.as_nanos() as f64 / small.as_nanos().max(1) as f64
}

/// Work that grows with the square of what is lent would take 64 times as long on 8 times as much.
const EIGHT_TIMES: f64 = 24.0;

#[test]
fn time_is_linear_in_the_table() {
    let of = |make: &dyn Fn(usize) -> Layout| (make(TYPES / 8).bytes(), make(TYPES).bytes());
    let tables = [
        ("containers", of(&legal)),
        ("one number", of(&|types| containers(one(|layout| layout.number(1)), types, 1))),
        ("unions", of(&|types| unions(one(|layout| layout.boolean()), types, OPTIONS))),
        ("lists", of(&|types| rows(one(|layout| layout.boolean()), types, Layout::list, 9))),
        ("vectors", of(&|types| rows(one(|layout| layout.boolean()), types, Layout::vector, 1))),
    ];
    for (name, (small, large)) in tables {
        let times = growth(|| ask(&small, &[]), || ask(&large, &[]));
        assert!(times < EIGHT_TIMES, "{name}: {times} times as long on 8 times the types");
    }
}

/// A table and a message.
type Bid = (Vec<u8>, Vec<u8>);

/// `each` fields in a container, in `levels` levels: `each` to that power booleans.
fn booleans(each: usize, levels: usize) -> Bid {
    let layout = containers(one(|layout| layout.boolean()), 1 + levels, each);
    (layout.bytes(), vec![1; each.pow(levels as u32)])
}

#[test]
fn time_is_linear_in_the_message() {
    let ((small_table, small), (large_table, large)) = (booleans(8, 2), booleans(8, 3));
    let mut room = vec![0; 585 * RECORD_BYTES];
    assert_eq!(list_into(&small_table, &small, &mut room), Ok(1 + 8 + 64));
    assert_eq!(list_into(&large_table, &large, &mut room), Ok(1 + 8 + 64 + 512));
    let times = growth(|| ask(&small_table, &small), || ask(&large_table, &large));
    assert!(times < EIGHT_TIMES, "check: {times} times as long on 8 times the booleans");
    let list = |table: &[u8], message: &[u8]| drop(black_box(listing(table, message)));
    let times = growth(|| list(&small_table, &small), || list(&large_table, &large));
    assert!(times < EIGHT_TIMES, "listing: {times} times as long on 8 times the booleans");
    // Elements with a rule of their own, fixed and variable.
    for add in [Layout::list, Layout::vector] {
        let of = |leaf: Layout, count: usize| rows(leaf, 2, add, count as u32).bytes();
        let yes = |count| (of(one(|layout| layout.boolean()), count), vec![1; count]);
        let empty = |count| (of(one(|layout| layout.free_bytes(9)), count), empty_elements(count));
        let made: [&dyn Fn(usize) -> Bid; 2] = [&yes, &empty];
        for make in made {
            let ((small_table, small), (large_table, large)) = (make(500), make(4000));
            assert_eq!(check(&large_table, &large), Ok(()));
            let times = growth(|| ask(&small_table, &small), || ask(&large_table, &large));
            assert!(times < EIGHT_TIMES, "check: {times} times as long on 8 times the elements");
            let times = growth(|| list(&small_table, &small), || list(&large_table, &large));
            assert!(times < EIGHT_TIMES, "listing: {times} times as long on 8 times the elements");
        }
    }
    // Zeros are no bit list: the set bit is looked for from the end, and there is none.
    let table = one(|layout| layout.bit_list(GREATEST)).bytes();
    let bytes = vec![0; 1 << 15];
    assert_eq!(told(&table, &bytes), refused(10, 0, 0, 0, 0));
    let times = growth(|| ask(&table, &bytes[..1 << 12]), || ask(&table, &bytes));
    assert!(times < EIGHT_TIMES, "{times} times as long on 8 times the bits");
}

#[test]
fn time_does_not_grow_with_what_is_not_read() {
    let takes = |table: &[u8], message: &[u8]| assert!(check(table, message).is_ok());
    let free = one(|layout| layout.free_bytes(GREATEST)).bytes();
    let bytes = most_zeros(1 << 30);
    let times = growth(|| takes(&free, &bytes[..1]), || takes(&free, &bytes));
    assert!(times < EIGHT_TIMES, "{times} times as long on a thousand million free bytes");
    // Nor with the elements of a list or vector of numbers or fixed bytes, nor with a limit.
    let leaves = [one(|layout| layout.number(8)), one(|layout| layout.fixed_bytes(32))];
    for leaf in leaves {
        let list = |limit| rows(leaf.clone(), 2, Layout::list, limit).bytes();
        let each = leaf.fixed_length(Type::from_number(0)).expect("a fixed leaf") as usize;
        let (few, many) = (list(4), list(GREATEST));
        let times = growth(|| takes(&few, &bytes[..4 * each]), || takes(&many, &bytes));
        assert!(times < EIGHT_TIMES, "{times} times as long on a list of a thousand million bytes");
        let count = bytes.len() / each;
        let vector = |count: usize| rows(leaf.clone(), 2, Layout::vector, count as u32).bytes();
        let (few, many) = (vector(4), vector(count));
        let times = growth(|| takes(&few, &bytes[..4 * each]), || takes(&many, &bytes));
        assert!(times < EIGHT_TIMES, "{times} times as long on a vector of that length");
    }
    // Of a bit list that has its set bit the last byte is read, and of a bit vector too.
    let list = one(|layout| layout.bit_list(GREATEST)).bytes();
    let mut bits = most_zeros(1 << 29);
    let last = bits.len() - 1;
    bits[last] = 0x80;
    let times = growth(|| takes(&list, &[0x80]), || takes(&list, &bits));
    assert!(times < EIGHT_TIMES, "{times} times as long on a long bit list");
    let vector = |bytes: usize| one(|layout| layout.bit_vector((8 * bytes - 1) as u32)).bytes();
    let (short, long) = (vector(1), vector(bits.len()));
    bits[last] = 0x7f;
    let times = growth(|| takes(&short, &[0x7f]), || takes(&long, &bits));
    assert!(times < EIGHT_TIMES, "{times} times as long on a long bit vector");
}
