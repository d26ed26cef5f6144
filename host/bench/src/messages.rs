//! The message check, the listing and the unfolding beside the crate's decoding, and the value
//! writer beside its encoding, on the same messages.
//!
//! The crate's types are its own tuples, options and bitfields, decoded and encoded by its own
//! code. What it makes is dropped within the time, as a caller drops it. Check and listing are the
//! safe calls over the C ones, the listing with the vector that it gives; unfolding and writing are
//! done by the program `measure` into rooms that are not cleared.

use crate::ours::{self, Adds, Plan};
use crate::{form, measure, scattered, times};
use cartwhisker::{check, listing, Layout, Type};
use ssz::{BitList, BitVector, Decode, Encode};
use std::hint::black_box;
use std::time::{Duration, Instant};
use typenum::{U2048, U512, U64, U8};

/// A message, and how the crate reads it.
pub struct Case {
    pub name: String,
    pub table: Vec<u8>,
    pub message: Vec<u8>,
    decode: fn(&[u8]) -> bool,
    /// The crate's `as_ssz_bytes` of the value, and how many bytes it gave.
    encode: Box<dyn Fn() -> usize>,
}

#[derive(Clone, Copy, Debug, PartialEq, Eq)]
pub enum Side {
    Decode,
    Encode,
    Check,
    Listing,
}

pub const SIDES: [(Side, &str); 4] = [
    (Side::Decode, "decode"),
    (Side::Encode, "encode"),
    (Side::Check, "check"),
    (Side::Listing, "listing"),
];

/// What a message costs, in nanoseconds; unfolding and writing where the program is built.
pub struct Figures {
    pub decode: f64,
    pub encode: f64,
    pub check: f64,
    pub listing: f64,
    pub unfold: Option<f64>,
    pub write: Option<f64>,
}

impl Case {
    fn new<T: Decode + Encode + 'static>(
        name: &str,
        value: T,
        make: impl FnOnce(&mut Layout) -> Type,
    ) -> Self {
        let mut layout = Layout::new();
        make(&mut layout);
        let case = Self {
            name: name.to_string(),
            table: layout.bytes(),
            message: value.as_ssz_bytes(),
            decode: |bytes| black_box(T::from_ssz_bytes(bytes)).is_ok(),
            encode: Box::new(move || black_box(black_box(&value).as_ssz_bytes()).len()),
        };
        for (side, name) in SIDES {
            assert!(case.once(side), "{name} refuses {}", case.name);
        }
        case
    }

    /// One call. Everything that it is handed goes through `black_box`, and so does what it gives.
    #[inline(always)]
    pub fn once(&self, side: Side) -> bool {
        let (table, message) = (black_box(&self.table[..]), black_box(&self.message[..]));
        match side {
            Side::Decode => (self.decode)(message),
            Side::Encode => (self.encode)() == message.len(),
            Side::Check => black_box(check(table, message)).is_ok(),
            Side::Listing => black_box(listing(table, message)).is_ok(),
        }
    }

    fn repeated(&self, side: Side, count: u64) -> Duration {
        let start = Instant::now();
        for _ in 0..count {
            black_box(self.once(side));
        }
        start.elapsed()
    }

    /// Whether our program has room for the message and what comes of it.
    pub fn fits(&self) -> bool {
        self.message.len() <= 1 << 20
    }

    /// What our program does with the message: 71 to 74 of docs/CASES.md.
    pub fn plan(&self, operation: u32) -> Plan {
        let form = form::of(&self.table, &self.message);
        let adds = match operation {
            71 => {
                Adds { number: form.records + form.words + form.bodies.len() as u64, bytes: vec![] }
            }
            72 => Adds { number: form.records, bytes: self.records() },
            73 => Adds { number: form.words + form.bodies.len() as u64, bytes: form.bodies },
            _ => Adds { number: self.message.len() as u64, bytes: self.message.clone() },
        };
        Plan { operation, parts: vec![self.table.clone(), self.message.clone()], adds }
    }

    /// The plan, if our program has room for it.
    pub fn planned(&self, operation: u32) -> Result<Plan, String> {
        if self.fits() {
            Ok(self.plan(operation))
        } else {
            Err(format!("{} is too long for measure", self.name))
        }
    }

    /// The bytes of the listing.
    fn records(&self) -> Vec<u8> {
        let records = listing(&self.table, &self.message).expect("an accepted message");
        let mut bytes = vec![0; 12 * records.len()];
        cartwhisker::list_into(&self.table, &self.message, &mut bytes).expect("room for all");
        bytes
    }

    /// All of them in one go, in turns.
    pub fn figures(&self) -> Figures {
        let repeated = |side| move |count| self.repeated(side, count);
        let sides = SIDES.map(|(side, _)| repeated(side));
        let (unfolding, writing) = (self.plan(73), self.plan(74));
        let unfold = |rounds| unfolding.timed(rounds);
        let write = |rounds| writing.timed(rounds);
        let mut calls: Vec<measure::Timed> = Vec::new();
        sides.iter().for_each(|side| calls.push(side));
        if ours::is_built() && self.fits() {
            calls.push(&unfold);
            calls.push(&write);
        }
        let figures = measure::nanoseconds(&calls);
        Figures {
            decode: figures[0],
            encode: figures[1],
            check: figures[2],
            listing: figures[3],
            unfold: figures.get(4).copied(),
            write: figures.get(5).copied(),
        }
    }
}

fn bits<N: typenum::Unsigned + Clone>(length: usize) -> BitList<N> {
    let mut list = BitList::with_capacity(length).expect("at most N bits");
    for (i, byte) in scattered(length, 3).into_iter().enumerate() {
        list.set(i, byte % 2 == 1).expect("a bit of the list");
    }
    list
}

fn array<const N: usize>(seed: u64) -> [u8; N] {
    scattered(N, seed).try_into().expect("so many bytes")
}

fn tiny() -> Vec<Case> {
    vec![
        Case::new("a byte", 7_u8, |layout| layout.number(1)),
        Case::new("a boolean", true, |layout| layout.boolean()),
        Case::new("32 fixed bytes", array::<32>(1), |layout| layout.fixed_bytes(32)),
        Case::new("a bit list of 5", bits::<U8>(5), |layout| layout.bit_list(8)),
        Case::new("an option", Some(7_u16), |layout| {
            let number = layout.number(2);
            layout.union([None, Some(number)])
        }),
        Case::new("two numbers", (7_u64, 8_u32), |layout| {
            let (long, short) = (layout.number(8), layout.number(4));
            layout.container([long, short])
        }),
        Case::new("2,000 bits", bits::<U2048>(2_000), |layout| layout.bit_list(2_048)),
    ]
}

fn bid_layout(layout: &mut Layout) -> Type {
    let (price, note, flags) = (layout.number(8), layout.free_bytes(1 << 24), layout.bit_list(8));
    layout.container([price, note, flags])
}

/// A bid whose note has so many bytes.
fn bid(name: &str, note: usize) -> Case {
    let mut flags = BitList::<U8>::with_capacity(3).expect("three of eight");
    flags.set(0, true).and_then(|()| flags.set(2, true)).expect("bits of the list");
    Case::new(name, (42_u64, scattered(note, 5), flags), bid_layout)
}

/// The worked bid of document 01 under its own table.
fn worked_bid() -> Case {
    let mut case = bid("the worked bid", 3);
    let mut layout = Layout::new();
    let (price, note, flags) = (layout.number(8), layout.free_bytes(16), layout.bit_list(8));
    layout.container([price, note, flags]);
    case.table = layout.bytes();
    assert!(case.once(Side::Check));
    case
}

type Checkpoint = (u64, [u8; 32]);
type Vote = (u64, u64, [u8; 32], Checkpoint, Checkpoint);

/// 12 fields: numbers, bytes, bits, a boolean, three containers, of which two hold containers, and
/// an option that holds a container.
fn order() -> Case {
    let vote: Vote = (9, 3, array(1), (5, array(2)), (6, array(3)));
    let value = (
        42_u64,
        vote,
        scattered(250, 4),
        bits::<U2048>(1_000),
        true,
        (scattered(70, 5), 7_u16, bits::<U64>(40)),
        Some((8_u64, scattered(200, 6))),
        BitVector::<U512>::new(),
        array::<96>(7),
        9_u128,
        (scattered(30, 8), (scattered(90, 9), 3_u32), false),
        array::<48>(10),
    );
    Case::new("12 mixed fields, nested", value, |layout| {
        let (short, word, long, wide) =
            (layout.number(2), layout.number(4), layout.number(8), layout.number(16));
        let yes = layout.boolean();
        let (root, key, signature) =
            (layout.fixed_bytes(32), layout.fixed_bytes(48), layout.fixed_bytes(96));
        let text = layout.free_bytes(1 << 20);
        let (seats, marks, mask) =
            (layout.bit_list(2_048), layout.bit_list(64), layout.bit_vector(512));
        let checkpoint = layout.container([long, root]);
        let vote = layout.container([long, long, root, checkpoint, checkpoint]);
        let inner = layout.container([text, short, marks]);
        let body = layout.container([long, text]);
        let tip = layout.union([None, Some(body)]);
        let pair = layout.container([text, word]);
        let tail = layout.container([text, pair, yes]);
        layout
            .container([long, vote, text, seats, yes, inner, tip, mask, signature, wide, tail, key])
    })
}

fn free_bytes(length: usize) -> Case {
    Case::new("1 MiB of free bytes", scattered(length, 2), |layout| layout.free_bytes(1 << 24))
}

/// A block's transactions: 200 of 150 bytes each.
fn transactions() -> Case {
    let value: Vec<Vec<u8>> = (0..200).map(|seed| scattered(150, seed)).collect();
    Case::new("200 transactions", value, |layout| {
        let transaction = layout.free_bytes(1 << 30);
        layout.list(transaction, 1 << 20)
    })
}

/// A million numbers under a limit, which is to make no difference.
fn numbers(name: &str, limit: u32) -> Case {
    let number = |bytes: &[u8]| u64::from_le_bytes(bytes.try_into().expect("eight bytes"));
    let value: Vec<u64> = scattered(8_000_000, 11).chunks(8).map(number).collect();
    Case::new(name, value, |layout| {
        let number = layout.number(8);
        layout.list(number, limit)
    })
}

pub fn cases() -> Vec<Case> {
    let mut cases = tiny();
    cases.extend([
        worked_bid(),
        order(),
        bid("a bid, note of 64 KiB", 1 << 16),
        free_bytes(1 << 20),
        transactions(),
        numbers("numbers to 1,000,000", 1_000_000),
        numbers("numbers to 2^32 - 1", u32::MAX),
    ]);
    cases
}

pub fn print() {
    println!(
        "messages: nanoseconds a call, median of {} runs, and how many times as fast as the crate:",
        measure::RUNS
    );
    println!("check, listing and unfolding beside its decoding, the writer beside its encoding");
    println!(
        "{:24}{:>9}{:>9}{:>11}{:>11}{:>9}{:>10}{:>9}{:>9}{:>10}{:>10}{:>8}{:>8}",
        "message",
        "bytes",
        "items",
        "decode",
        "encode",
        "check",
        "listing",
        "unfold",
        "write",
        "check",
        "listing",
        "unfold",
        "write"
    );
    for case in cases() {
        let items = listing(&case.table, &case.message).map_or(0, |records| records.len());
        println!("{}", line(&case.name, case.message.len(), items, &case.figures()));
    }
}

fn line(name: &str, bytes: usize, items: usize, figures: &Figures) -> String {
    let figure = |value: Option<f64>| value.map_or("-".to_string(), |value| format!("{value:.0}"));
    let ratio = |oracle: f64, value: Option<f64>| {
        value.map_or("-".to_string(), |value| times(oracle / value))
    };
    let Figures { decode, encode, check, listing, unfold, write } = *figures;
    format!(
        "{name:24}{bytes:>9}{items:>9}{decode:>11.0}{encode:>11.0}{check:>9.0}{listing:>10.0}\
         {:>9}{:>9}{:>10}{:>10}{:>8}{:>8}",
        figure(unfold),
        figure(write),
        ratio(decode, Some(check)),
        ratio(decode, Some(listing)),
        ratio(decode, unfold),
        ratio(encode, write)
    )
}

/// Time against the length of the message: bids whose notes have 1 byte to 1 MiB.
pub fn growth() -> Vec<(usize, Figures)> {
    let lengths = (0..=20).step_by(2).map(|power| 1_usize << power);
    lengths
        .map(|length| {
            let case = bid("a bid", length);
            (case.message.len(), case.figures())
        })
        .collect()
}

pub fn find(name: &str) -> Result<Case, String> {
    cases().into_iter().find(|case| case.name == name).ok_or(format!("no case {name}"))
}

/// Runs one case on one side so many times and measures nothing.
pub fn count(name: &str, side: &str, count: u64) -> Result<(), String> {
    let case = find(name)?;
    let found = SIDES.iter().find(|(_, other)| *other == side);
    let (side, _) = found.ok_or(format!("no side {side}"))?;
    case.repeated(*side, count);
    Ok(())
}

#[cfg(test)]
mod tests {
    use super::*;

    #[test]
    fn both_sides_take_every_message() {
        for case in cases() {
            for (side, name) in SIDES {
                assert!(case.once(side), "{name} refuses {}", case.name);
            }
        }
    }

    #[test]
    fn our_program_makes_what_is_expected() {
        assert!(ours::is_built(), "`rt run` in crates/measure comes first");
        for case in cases().iter().filter(|case| case.fits()) {
            (71..=74).for_each(|operation| {
                case.plan(operation).timed(300);
            });
        }
    }

    #[test]
    fn no_figure_is_made_up() {
        let figures = Figures {
            decode: 10.0,
            encode: 20.0,
            check: 5.0,
            listing: 10.0,
            unfold: Some(20.0),
            write: None,
        };
        let said = line("a", 1, 1, &figures);
        let last: Vec<&str> = said.split_whitespace().rev().take(4).collect();
        assert_eq!(last, ["-", "0.50x", "1.00x", "2.00x"]);
    }

    #[test]
    fn both_sides_say_the_same_of_a_cut_message() {
        for mut case in cases() {
            let whole = case.message.len();
            for length in [whole - 1, whole / 2, 1, 0] {
                case.message.truncate(length);
                let told = [Side::Decode, Side::Check, Side::Listing].map(|side| case.once(side));
                assert!(told.iter().all(|taken| *taken == told[0]), "{} at {length}", case.name);
            }
        }
    }

    #[test]
    fn the_sizes_that_are_spoken_of() {
        assert_eq!(worked_bid().message.len(), 20);
        let order = order();
        assert!((1_150..=1_250).contains(&order.message.len()), "{}", order.message.len());
        assert_eq!(free_bytes(1 << 20).message.len(), 1 << 20);
        assert_eq!(transactions().message.len(), 200 * (4 + 150));
        assert_eq!(numbers("numbers", u32::MAX).message.len(), 8_000_000);
    }

    #[test]
    fn a_case_is_found_by_its_name() {
        assert!(count("the worked bid", "listing", 3).is_ok());
        assert!(count("the worked bid", "nobody", 3).is_err());
        assert!(count("nothing", "check", 3).is_err());
    }
}
