//! Worst cases: tables and messages that cost as much as they can, and the stack at the deepest
//! nesting.
//!
//! One C call is timed and not a safe one, which asks five times where a message is refused. Time
//! is told beside what is lent: the table's words and the message's bytes.

mod calls;
#[path = "../../cartwhisker/tests/making/mod.rs"]
mod making;
mod stack;

use calls::{check, list, records, thread_time};
use cartwhisker::Layout;
use making::{containers, legal, one, unions, zeros, FIELDS, GREATEST, OPTIONS, TYPES};
use std::time::Duration;

/// A listing above so many records is not made: a buffer for it is not what is measured.
const MOST_RECORDS: u64 = 1 << 25;

/// A run takes at least this long, so that the clock's own grain is no matter, and hardly longer,
/// so that some runs are not interrupted.
const LEAST: Duration = Duration::from_millis(1);
const RUNS: usize = 200;

/// What is asked: a table and a message.
struct Case {
    name: &'static str,
    layout: Layout,
    message: Vec<u8>,
}

impl Case {
    fn new(name: &'static str, layout: Layout, message: Vec<u8>) -> Self {
        Self { name, layout, message }
    }
}

/// Tables that are read to their end, or to the first fixed portion above the greatest.
fn tables() -> Vec<Case> {
    let number = || one(|layout| layout.number(1));
    let boolean = || one(|layout| layout.boolean());
    let bodiless = || one(|layout| layout.union([None; OPTIONS]));
    let huge = || containers(number(), 6, FIELDS);
    let empty = |name, layout| Case::new(name, layout, Vec::new());
    vec![
        empty("8 types, each naming the one below 64 times", legal(8)),
        empty("32 types, each naming the one below 64 times", legal(32)),
        empty("64 types, each naming the one below 64 times", legal(TYPES)),
        Case::new("the same, 256 zero bytes", legal(TYPES), vec![0; 256]),
        empty("the same above a number: illegal at type 6", containers(huge(), TYPES, FIELDS)),
        empty("64 types, of which 59 hold 2^30 numbers", containers(huge(), TYPES, 1)),
        empty("8 types, unions of 128 options", unions(boolean(), 8, OPTIONS)),
        empty("32 types, unions of 128 options", unions(boolean(), 32, OPTIONS)),
        empty("64 types, unions of 128 options", unions(boolean(), TYPES, OPTIONS)),
        Case::new("the longest table", unions(bodiless(), TYPES, OPTIONS), vec![63; TYPES]),
    ]
}

/// 63 containers or unions around one item.
fn nests(types: usize) -> Vec<Case> {
    let mut offsets = 4_u32.to_le_bytes().repeat(types - 1);
    offsets.push(1);
    vec![
        Case::new(
            "63 containers of fixed size around a number",
            containers(one(|layout| layout.number(1)), types, 1),
            vec![7],
        ),
        Case::new(
            "63 containers of variable size around a bit list",
            containers(one(|layout| layout.bit_list(GREATEST)), types, 1),
            offsets,
        ),
        Case::new(
            "63 unions around a number",
            unions(one(|layout| layout.number(1)), types, 2),
            vec![0; types],
        ),
    ]
}

/// 64 to the power `levels` booleans in containers of 64, each within `around` more containers.
fn booleans(levels: usize, around: usize) -> (Layout, Option<Vec<u8>>) {
    let alone = containers(one(|layout| layout.boolean()), 1 + around, 1);
    (containers(alone, 1 + around + levels, FIELDS), zeros(FIELDS.pow(levels as u32)))
}

/// 64 to the power `levels` empty free bytes, with every offset that leads to them.
fn offsets(levels: usize) -> (Layout, Option<Vec<u8>>) {
    // An item of a level has its 64 offsets and 64 items of the level below.
    let length = |level: usize| (0..level).fold(0, |below, _| 256 + FIELDS * below);
    let message = zeros(length(levels)).map(|mut message| {
        put_offsets(&mut message, levels, &length);
        message
    });
    (legal(1 + levels), message)
}

fn put_offsets(item: &mut [u8], level: usize, length: &impl Fn(usize) -> usize) {
    if level == 0 {
        return;
    }
    let below = length(level - 1);
    for field in 0..FIELDS {
        let at = 256 + field * below;
        item[4 * field..4 * field + 4].copy_from_slice(&(at as u32).to_le_bytes());
        put_offsets(&mut item[at..at + below], level - 1, length);
    }
}

/// Makes a table and a message, if there is memory for it.
type Make = fn() -> (Layout, Option<Vec<u8>>);

/// Messages of many items.
const ITEMS: [(&str, Make); 6] = [
    ("64 booleans in a container", || booleans(1, 0)),
    ("64^2 booleans in containers of 64", || booleans(2, 0)),
    ("64^3 booleans in containers of 64", || booleans(3, 0)),
    ("64^2 empty free bytes in containers of 64", || offsets(2)),
    ("64^3 empty free bytes in containers of 64", || offsets(3)),
    ("64^2 booleans, each in 61 more containers", || booleans(2, 61)),
];

/// The message with another last byte.
fn ending(length: usize, last: u8) -> Option<Vec<u8>> {
    let mut message = zeros(length)?;
    message[length - 1] = last;
    Some(message)
}

fn free_bytes(length: usize) -> (Layout, Option<Vec<u8>>) {
    (one(|layout| layout.free_bytes(GREATEST)), zeros(length))
}

fn bit_list(message: Option<Vec<u8>>) -> (Layout, Option<Vec<u8>>) {
    (one(|layout| layout.bit_list(GREATEST)), message)
}

fn fixed_fields(length: u32) -> (Layout, Option<Vec<u8>>) {
    let layout = containers(one(|layout| layout.fixed_bytes(length)), 2, FIELDS);
    (layout, zeros(length as usize * FIELDS))
}

/// The longest message: one byte more is refusal 21.
const MOST: usize = GREATEST as usize;

/// Long messages of which little is read, and one that is read to its start.
const LONG: [(&str, Make); 8] = [
    ("1 KiB of free bytes", || free_bytes(1 << 10)),
    ("1 GiB of free bytes", || free_bytes(1 << 30)),
    ("free bytes, the longest message", || free_bytes(MOST)),
    ("one byte more", || free_bytes(MOST + 1)),
    ("64 fixed fields of the greatest length", || fixed_fields(GREATEST / 64)),
    ("a bit vector of the greatest length", || {
        (one(|layout| layout.bit_vector(GREATEST)), ending(1 << 29, 0x7f))
    }),
    ("a bit list of the greatest length", || bit_list(ending(1 << 29, 0x80))),
    ("a bit list without a set bit, 1 MiB", || bit_list(zeros(1 << 20))),
];

/// Messages that take a fifth of a second or more, as long as can be of their kind.
const SLOW: [(&str, Make); 6] = [
    ("64^4 booleans in containers of 64", || booleans(4, 0)),
    ("64^5 booleans in containers of 64", || booleans(5, 0)),
    ("64^4 empty free bytes in containers of 64", || offsets(4)),
    ("64^3 booleans, each in 60 more containers", || booleans(3, 60)),
    ("a bit list without a set bit, 2^29 bytes", || bit_list(zeros(1 << 29))),
    ("a bit list without a set bit, the longest message", || bit_list(zeros(MOST))),
];

/// Nanoseconds a call, by the shortest of many short runs; of five calls if one takes longer than
/// such a run by far, and one call if it takes seconds. Time is this thread's own, and other work
/// on the machine can only lengthen it, so the shortest tells best how it grows.
fn nanoseconds(call: &dyn Fn()) -> f64 {
    let run = |count: u32| {
        let start = thread_time();
        (0..count).for_each(|_| call());
        thread_time() - start
    };
    let (mut count, mut taken) = (1, run(1));
    let runs = match taken {
        short if short < Duration::from_millis(20) => RUNS,
        long if long < Duration::from_secs(3) => 5,
        _ => 0,
    };
    while taken < LEAST {
        count *= 2;
        taken = run(count);
    }
    let shortest = (0..runs).map(|_| run(count)).fold(taken, Duration::min);
    shortest.as_nanos() as f64 / f64::from(count)
}

/// A number with a comma before each three digits.
fn grouped(number: u64) -> String {
    let digits = number.to_string();
    let mut grouped = String::new();
    for (i, digit) in digits.chars().enumerate() {
        if i > 0 && (digits.len() - i) % 3 == 0 {
            grouped.push(',');
        }
        grouped.push(digit);
    }
    grouped
}

/// Nanoseconds of a listing into a buffer of just its length, if there is one.
fn listing(table: &[u8], message: &[u8], items: u64) -> Option<f64> {
    if items > MOST_RECORDS {
        return None;
    }
    let room = std::cell::RefCell::new(vec![0; items as usize * cartwhisker::RECORD_BYTES]);
    Some(nanoseconds(&|| {
        list(table, message, &mut room.borrow_mut());
    }))
}

/// The number of the refusal, or 0, and the items of what is accepted.
fn answer(table: &[u8], message: &[u8]) -> (u64, u64) {
    match check(table, message) {
        0 => (0, records(table, message)),
        number => (number, 0),
    }
}

fn print_row(case: &Case) {
    let (table, message) = (case.layout.bytes(), &case.message[..]);
    let (words, bytes) = (table.len() / 4, message.len());
    let checking = nanoseconds(&|| {
        check(&table, message);
    });
    let (number, items) = answer(&table, message);
    let listing = listing(&table, message, items).map_or("not made".to_string(), whole);
    let (told, each) = match number {
        0 => (grouped(items), format!("{:.1}", checking / items as f64)),
        _ => (format!("refused {number}"), String::new()),
    };
    println!(
        "| {} | {} | {} | {told} | {} | {listing} | {:.2} | {each} |",
        case.name,
        grouped(words as u64),
        grouped(bytes as u64),
        whole(checking),
        checking / (words + bytes) as f64
    );
}

fn whole(nanoseconds: f64) -> String {
    grouped(nanoseconds.round() as u64)
}

/// Shows each case whose name is wanted, and gives its memory back before the next.
fn each(wanted: impl Fn(&str) -> bool, mut show: impl FnMut(&Case)) {
    let small = tables().into_iter().chain(nests(TYPES));
    small.filter(|case| wanted(case.name)).for_each(|case| show(&case));
    let large = ITEMS.iter().chain(&LONG).chain(&SLOW);
    for (name, make) in large.filter(|(name, _)| wanted(name)) {
        match make() {
            (layout, Some(message)) => show(&Case::new(name, layout, message)),
            (_, None) => eprintln!("{name}: no memory for the message"),
        }
    }
}

fn is_quick(name: &str) -> bool {
    SLOW.iter().all(|(slow, _)| *slow != name)
}

fn print_stack() {
    println!("| bytes of stack | check | a level | listing | a level |");
    println!("|---|---|---|---|---|");
    for (all, half) in nests(TYPES).iter().zip(nests(TYPES / 2)) {
        let used = |case: &Case, side| stack::used(&case.layout.bytes(), &case.message, side);
        let [check, listing] = [stack::Side::Check, stack::Side::Listing].map(|side| {
            let (all, half) = (used(all, side), used(&half, side));
            format!("{} | {}", grouped(all as u64), (all - half) / (TYPES / 2))
        });
        println!("| {} | {check} | {listing} |", all.name);
    }
}

fn print() {
    println!("| case | words | bytes | items | check, ns | listing, ns | check, ns a word and byte | check, ns an item |");
    println!("|---|---|---|---|---|---|---|---|");
    each(|_| true, print_row);
    println!();
    print_stack();
}

/// Of each case that is not slow its name, words, bytes and items.
fn print_names() {
    each(is_quick, |case| {
        let table = case.layout.bytes();
        let (_, items) = answer(&table, &case.message);
        println!("{}\t{}\t{}\t{items}", case.name, table.len() / 4, case.message.len());
    });
}

/// The call that is counted, under a name that a tool can be told: nothing else is within.
#[no_mangle]
#[inline(never)]
fn worst_counted(table: &[u8], message: &[u8], records: Option<&mut [u8]>) -> u64 {
    match records {
        None => check(table, message),
        Some(records) => list(table, message, records),
    }
}

/// One call on one case.
fn count(name: &str, side: &str) -> Result<(), String> {
    let mut found = Err(format!("no case {name}"));
    each(
        |other| other == name,
        |case| {
            let table = case.layout.bytes();
            let (_, items) = answer(&table, &case.message);
            let mut records = vec![0; items as usize * cartwhisker::RECORD_BYTES];
            let records = (side == "listing").then_some(&mut records[..]);
            worst_counted(&table, &case.message, records);
            found = Ok(());
        },
    );
    found
}

pub fn run(arguments: &[&str]) -> Result<(), String> {
    match arguments {
        [] => print(),
        ["names"] => print_names(),
        ["count", name, side @ ("check" | "listing")] => count(name, side)?,
        _ => return Err("bench worst [names | count CASE check|listing]".to_string()),
    }
    Ok(())
}

#[cfg(test)]
mod tests {
    use super::*;

    fn number(layout: &Layout, message: &[u8]) -> u64 {
        check(&layout.bytes(), message)
    }

    #[test]
    fn the_answers_are_those_of_document_01() {
        let told: Vec<u64> =
            tables().iter().map(|case| number(&case.layout, &case.message)).collect();
        assert_eq!(told, [2, 2, 2, 4, 20, 1, 3, 3, 3, 0]);
        for case in nests(TYPES) {
            assert_eq!(records(&case.layout.bytes(), &case.message), 64, "{}", case.name);
        }
    }

    #[test]
    fn the_items_that_are_spoken_of() {
        let items = |(layout, message): (Layout, Option<Vec<u8>>)| {
            records(&layout.bytes(), &message.expect("a short message"))
        };
        assert_eq!(items(booleans(2, 0)), 1 + 64 + 4_096);
        assert_eq!(items(offsets(2)), 1 + 64 + 4_096);
        assert_eq!(items(booleans(2, 61)), 1 + 64 + 62 * 4_096);
        assert_eq!(booleans(2, 61).0.kinds().len(), TYPES);
        assert_eq!(booleans(3, 60).0.kinds().len(), TYPES);
    }

    #[test]
    fn stack_grows_with_the_nesting() {
        for (whole, half) in nests(TYPES).iter().zip(nests(TYPES / 2)) {
            for side in [stack::Side::Check, stack::Side::Listing] {
                let used = |case: &Case| stack::used(&case.layout.bytes(), &case.message, side);
                assert!(used(&half) > 1_000, "{}", half.name);
                assert!(used(whole) > used(&half), "{}", whole.name);
                assert!(used(whole) < 60_000, "{}", whole.name);
            }
        }
    }

    #[test]
    fn a_case_has_a_name_of_its_own() {
        let mut names = Vec::new();
        each(is_quick, |case| names.push(case.name));
        names.extend(SLOW.iter().map(|(name, _)| *name));
        let all = names.len();
        names.sort_unstable();
        names.dedup();
        assert_eq!(names.len(), all);
        assert!(count("the longest table", "listing").is_ok());
        assert!(count("the shortest table", "check").is_err());
    }

    #[test]
    fn digits_in_threes() {
        assert_eq!(grouped(0), "0");
        assert_eq!(grouped(999), "999");
        assert_eq!(grouped(4_294_967_295), "4,294,967,295");
    }
}
