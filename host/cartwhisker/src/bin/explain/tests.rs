//! The pictures of the worked bid, of refusals in every kind of place, and of bad tables.

use super::*;
use cartwhisker::Refusal;

const BID: [u8; 20] =
    [0x2a, 0, 0, 0, 0, 0, 0, 0, 0x10, 0, 0, 0, 0x13, 0, 0, 0, 0x0a, 0x0b, 0x0c, 0x0d];

fn bid() -> Layout {
    let mut layout = Layout::new();
    let (price, note, flags) = (layout.number(8), layout.free_bytes(16), layout.bit_list(8));
    layout.container([price, note, flags]);
    layout
}

fn shown(layout: &Layout, message: &[u8]) -> String {
    explain(&layout.bytes(), Some(message), false).0
}

#[test]
fn the_worked_bid() {
    let expected = "\
accepted: 20 bytes, 4 items

  0000  2a 00 00 00 00 00 00 00 10 00 00 00 13 00 00 00
        a---------------------- b---------- c----------
  0010  0a 0b 0c 0d
        d------- e-

  a       0 to 8      message.0: number of 8 bytes (type 0): 42
  b       8 to 12     message.1: offset 16
  c      12 to 16     message.2: offset 19
  d      16 to 19     message.1: free bytes up to 16 (type 1): 3 bytes
  e      19 to 20     message.2: bit list up to 8 (type 2): 3 bits 101
";
    assert_eq!(shown(&bid(), &BID), expected);
}

#[test]
fn a_first_offset_that_skips_bytes() {
    let mut message = BID;
    message[8] = 17;
    let expected = "\
refusal 5 (OffsetSkipsVariableBytes) in the item of type 3 at byte 0: the first offset, 17, skips \
bytes behind the fixed portion; set it to the length of the fixed portion

  0000  2a 00 00 00 00 00 00 00 11 00 00 00 13 00 00 00
        a---------------------- b---------- c----------
                                ^^^^^^^^^^^ here
  0010  0a 0b 0c 0d
        d----------

  a       0 to 8      message.0: number of 8 bytes (type 0), not looked at
  b       8 to 12     message.1: offset 17
  c      12 to 16     message.2: offset 19
  d      16 to 20     message: behind the fixed portion, not looked at

The fixed portion of message (container of 3 fields (type 3)) takes 16 bytes; it has 20 bytes in all.
";
    assert_eq!(shown(&bid(), &message), expected);
}

#[test]
fn a_place_behind_the_last_byte() {
    let text = shown(&bid(), &[]);
    assert!(text.contains("\n  0000  \n        ^^ here\n"), "{text}");
    let mut message = BID;
    message[12] = 20;
    let text = shown(&bid(), &message);
    assert!(
        text.contains("        d---------- \n") || text.contains("        d----------\n"),
        "{text}"
    );
    assert!(text.contains("\n                    ^^ here\n"), "{text}");
}

/// Where a message is marked.
fn mark(layout: &Layout, message: &[u8]) -> (u32, std::ops::Range<usize>) {
    let refusal: Refusal = listing(&layout.bytes(), message).unwrap_err();
    (refusal.number, pieces::of(layout, message).mark.expect("a mark"))
}

#[test]
fn marks_in_a_container() {
    let layout = bid();
    assert_eq!(mark(&layout, &[]), (1, 0..0));
    assert_eq!(mark(&layout, &BID[..7]), (1, 7..7));
    assert_eq!(mark(&layout, &BID[..8]), (2, 8..8));
    assert_eq!(mark(&layout, &BID[..10]), (2, 8..10));
    assert_eq!(mark(&layout, &BID[..14]), (7, 8..12));
    let with = |at: usize, byte: u8| {
        let mut message = BID;
        message[at] = byte;
        mark(&layout, &message)
    };
    assert_eq!(with(8, 15), (4, 8..12));
    assert_eq!(with(8, 17), (5, 8..12));
    assert_eq!(with(8, 20), (6, 12..16));
    assert_eq!(with(12, 15), (6, 12..16));
    assert_eq!(with(12, 21), (7, 12..16));
    assert_eq!(with(12, 20), (11, 20..20));
    assert_eq!(with(19, 0), (10, 19..20));
    let mut long = BID.to_vec();
    long.extend([9; 9]);
    assert_eq!(mark(&layout, &long), (9, 20..29));
}

#[test]
fn marks_deep_inside() {
    let mut layout = Layout::new();
    let yes = layout.boolean();
    let seats = layout.bit_vector(3);
    let note = layout.free_bytes(2);
    let pair = layout.container([yes, seats]);
    let choice = layout.union([None, Some(pair), Some(note), Some(seats), Some(yes)]);
    layout.container([pair, choice, choice]);
    let with = |first: &[u8], second: &[u8], fixed: [u8; 2]| {
        let mut message = fixed.to_vec();
        message.extend([10, 0, 0, 0, 10 + first.len() as u8, 0, 0, 0]);
        message.extend([first, second].concat());
        mark(&layout, &message)
    };
    assert_eq!(with(&[0], &[], [0, 0]), (3, 11..11));
    assert_eq!(with(&[], &[0], [0, 0]), (3, 10..10));
    assert_eq!(with(&[0], &[5, 6], [0, 0]), (8, 11..12));
    assert_eq!(with(&[0, 7], &[], [0, 0]), (1, 11..12));
    assert_eq!(with(&[0], &[1, 2, 0], [0, 0]), (13, 12..13));
    assert_eq!(with(&[0], &[1, 1, 8], [0, 0]), (11, 13..14));
    assert_eq!(with(&[0], &[1, 1], [0, 0]), (1, 13..13));
    assert_eq!(with(&[0], &[1, 1, 0, 0, 0], [0, 0]), (1, 14..16));
    assert_eq!(with(&[2, 1, 1, 1], &[0], [0, 0]), (14, 13..14));
    assert_eq!(with(&[3], &[0], [0, 0]), (12, 11..11));
    assert_eq!(with(&[3, 0, 0], &[0], [0, 0]), (12, 12..13));
    assert_eq!(with(&[4, 0, 0], &[0], [0, 0]), (1, 12..13));
    assert_eq!(with(&[0], &[0], [3, 0]), (13, 0..1));
    assert_eq!(with(&[0], &[0], [0, 9]), (11, 1..2));
}

/// The bytes of a row of offsets, and of what follows them.
fn offsets(offsets: &[u32], rest: &[u8]) -> Vec<u8> {
    let offsets = offsets.iter().flat_map(|offset| offset.to_le_bytes());
    offsets.chain(rest.iter().copied()).collect()
}

#[test]
fn marks_in_a_list() {
    let mut layout = Layout::new();
    let note = layout.free_bytes(2);
    layout.list(note, 3);
    let with = |row: &[u32], rest: &[u8]| mark(&layout, &offsets(row, rest));
    assert_eq!(with(&[], &[1, 2, 3]), (2, 0..3));
    assert_eq!(with(&[9], &[7; 4]), (7, 0..4));
    assert_eq!(with(&[0], &[]), (15, 0..4));
    assert_eq!(with(&[6], &[7; 4]), (15, 0..4));
    assert_eq!(with(&[20, 20, 20, 20, 20], &[]), (14, 12..20));
    assert_eq!(with(&[12, 11, 12], &[]), (4, 4..8));
    assert_eq!(with(&[12, 12, 13], &[]), (7, 8..12));
    assert_eq!(with(&[12, 14, 13], &[7; 2]), (6, 8..12));
    assert_eq!(with(&[12, 13, 13], &[7; 4]), (14, 15..16));
    // All offsets come before the elements.
    assert_eq!(with(&[12, 15, 14], &[7; 3]), (6, 8..12));
    assert_eq!(with(&[12, 15, 15], &[7; 3]), (14, 14..15));

    let mut layout = Layout::new();
    let price = layout.number(2);
    let prices = layout.vector(price, 2);
    layout.list(prices, 2);
    assert_eq!(mark(&layout, &[7; 1]), (1, 0..1));
    assert_eq!(mark(&layout, &[7; 11]), (1, 8..11));
    assert_eq!(mark(&layout, &[7; 16]), (14, 8..16));
    let prices = layout.up_to(prices);
    assert_eq!(mark(&prices, &[]), (1, 0..0));
    assert_eq!(mark(&prices, &[7; 3]), (1, 3..3));
    assert_eq!(mark(&prices, &[7; 9]), (1, 4..9));
}

#[test]
fn marks_in_a_vector() {
    let mut layout = Layout::new();
    let yes = layout.boolean();
    let flags = layout.list(yes, 2);
    layout.vector(flags, 3);
    let with = |row: &[u32], rest: &[u8]| mark(&layout, &offsets(row, rest));
    assert_eq!(with(&[], &[]), (2, 0..0));
    assert_eq!(with(&[6, 6], &[7]), (2, 8..9));
    assert_eq!(with(&[9], &[7; 4]), (7, 0..4));
    assert_eq!(with(&[12, 12, 11], &[]), (6, 8..12));
    assert_eq!(with(&[8, 8, 8], &[]), (4, 0..4));
    assert_eq!(with(&[13, 14, 14], &[1; 2]), (5, 0..4));
    assert_eq!(with(&[12, 13, 15], &[1, 1, 2]), (13, 14..15));
    assert_eq!(with(&[12, 13, 15], &[1, 1, 0, 0, 0, 0]), (14, 17..18));
    // More elements than a message has room for.
    let mut layout = Layout::new();
    let note = layout.free_bytes(2);
    layout.vector(note, (1 << 30) - 1);
    assert_eq!(mark(&layout, &[]), (2, 0..0));
    assert_eq!(mark(&layout, &[7, 0, 0, 0, 7, 0, 0]), (2, 4..7));
    let text = shown(&layout, &[7, 0, 0, 0, 7, 0, 0]);
    assert!(text.contains("message[1]: offset, cut after 3 of 4 bytes"), "{text}");
    assert!(text.contains("takes 4294967292 bytes; it has 7 bytes in all."), "{text}");
}

/// A vector of 100 lists: it is read by the rules of a container, whose fields are at most 64.
#[test]
fn a_vector_of_a_hundred_variable_elements() {
    let mut layout = Layout::new();
    let price = layout.number(1);
    let prices = layout.list(price, 9);
    layout.vector(prices, 100);
    let starts: Vec<u32> = (0..100).map(|element| 400 + 2 * element).collect();
    let mut message = offsets(&starts, &[7; 200]);
    let text = shown(&layout, &message);
    assert!(text.starts_with("accepted: 600 bytes, 301 items\n"), "{text}");
    assert!(text.contains("message[99]: offset 598"), "{text}");
    assert!(text.contains("message[99][1]: number of 1 byte (type 0): 7"), "{text}");
    message.extend([7; 8]);
    assert_eq!(mark(&layout, &message), (14, 607..608));
    message[396..400].copy_from_slice(&595_u32.to_le_bytes());
    assert_eq!(mark(&layout, &message), (6, 396..400));
}

#[test]
fn lists_inside_lists_and_unions() {
    let mut layout = Layout::new();
    let note = layout.free_bytes(2);
    let notes = layout.list(note, 2);
    let choice = layout.union([None, Some(notes)]);
    let choices = layout.list(choice, 9);
    layout.container([choices]);
    let with = |inner: &[u8]| {
        let mut message = offsets(&[4, 8, 9], &[0, 1]);
        message.extend(inner);
        message
    };
    let text = shown(&layout, &with(&offsets(&[8, 10], &[7; 3])));
    assert!(text.contains("message.0[0]: selector 0, an option without body"), "{text}");
    assert!(text.contains("message.0[1]#1[1]: free bytes up to 2 (type 0): 1 byte"), "{text}");
    assert_eq!(mark(&layout, &with(&offsets(&[8, 10], &[7; 5]))), (14, 26..27));
    assert_eq!(mark(&layout, &with(&offsets(&[8, 7], &[7; 5]))), (4, 18..22));
    assert_eq!(mark(&layout, &with(&[1, 2])), (2, 14..16));
}

/// The first of two items that start at one place is empty and accepted, the second is refused.
#[test]
fn two_items_of_one_type_and_one_start() {
    let mut layout = Layout::new();
    let note = layout.free_bytes(1);
    layout.container([note, note]);
    let message = [8, 0, 0, 0, 8, 0, 0, 0, 1, 2];
    assert_eq!(mark(&layout, &message), (14, 9..10));
    let text = shown(&layout, &message);
    assert!(text.contains("message.0: free bytes up to 1 (type 0): 0 bytes"), "{text}");
}

#[test]
fn long_pieces_are_left_out_in_the_middle() {
    let mut layout = Layout::new();
    let note = layout.free_bytes(100_000);
    layout.container([note]);
    let mut message = vec![4, 0, 0, 0];
    message.extend([7; 65_536]);
    let text = shown(&layout, &message);
    assert!(text.contains("        .. 65456 bytes of b ..\n"), "{text}");
    assert!(text.lines().count() < 20);
}

#[test]
fn a_long_refused_message_is_shown_around_its_place() {
    let mut layout = Layout::new();
    let transaction = layout.free_bytes(150);
    layout.list(transaction, 200);
    let starts: Vec<u32> = (0..200).map(|element| 800 + 150 * element).collect();
    let mut message = offsets(&starts, &[7; 30_000]);
    message.push(7);
    let text = shown(&layout, &message);
    let lines: Vec<&str> = text.lines().collect();
    assert_eq!(lines[2], "        .. 30672 bytes ..");
    assert!(lines.len() < 30, "{text}");
    assert!(text.contains("^^ here"), "{text}");
    assert!(text.contains("message[199]: free bytes up to 150 (type 0)\n"), "{text}");
    assert!(!text.contains("offset"), "{text}");
    // The first of all: only what is behind it is left out.
    message[..4].fill(0);
    let text = shown(&layout, &message);
    assert!(text.contains("^^^^^^^^^^^ here\n"), "{text}");
    assert!(text.contains("        .. 30657 bytes ..\n"), "{text}");
    assert!(text.lines().count() < 60, "{text}");
}

/// Such a piece stands where a further row would begin.
#[test]
fn an_empty_piece_behind_a_full_row_is_shown() {
    let mut layout = Layout::new();
    let note = layout.free_bytes(4);
    layout.list(note, 4);
    let text = shown(&layout, &offsets(&[16; 4], &[]));
    assert_eq!(text.matches("16 to 16").count(), 4, "{text}");
    let mut message = offsets(&[32; 8], &[]);
    let text = shown(&layout, &message);
    assert!(text.contains("The list message has 8 elements and may have 4."), "{text}");
    message.truncate(16);
    message[0] = 15;
    assert_eq!(mark(&layout, &message), (15, 0..4));
}

#[test]
fn every_byte_of_a_refused_message_is_shown_once() {
    let layout = bid();
    for length in 0..=BID.len() {
        for at in 0..length {
            for byte in [0, 1, 8, 15, 17, 20, 255] {
                let mut message = BID[..length].to_vec();
                message[at] = byte;
                let mut seen = vec![0; length];
                for piece in pieces::of(&layout, &message).pieces {
                    seen[piece.bytes].iter_mut().for_each(|count| *count += 1);
                }
                assert!(seen.iter().all(|count| *count == 1), "{message:?}");
                shown(&layout, &message);
            }
        }
    }
}

#[test]
fn bad_tables() {
    let told = |words: &[u32]| {
        let bytes: Vec<u8> = words.iter().flat_map(|word| word.to_le_bytes()).collect();
        let (text, fine) = explain(&bytes, Some(&BID), false);
        assert!(!fine);
        text.lines().last().unwrap().to_string()
    };
    assert_eq!(told(&[]), "Word 0 is missing. There stands the number of types, 1 to 64.");
    assert_eq!(
        told(&[1, 2, 0, 3]),
        "Word 3 is 3. There stands the width of type 0: 1, 2, 4, 8, 16 or 32."
    );
    assert_eq!(told(&[1, 3, 1]), "Word 1 is 3. There starts the body of type 0, which is word 2.");
    assert_eq!(told(&[1, 2, 10]), "Word 2 is 10. There stands the kind of type 0, 0 to 9.");
    assert_eq!(told(&[1, 2]), "Word 2 is missing. There stands the kind of type 0, 0 to 9.");
    assert_eq!(
        told(&[2, 3, 4, 1, 6, 1, 1]),
        "Word 6 is 1. There stands field 0 of type 1: a type below 1."
    );
    assert_eq!(told(&[1, 2, 1, 7]), "Word 3 is 7. There the table has ended already, with word 2.");
    assert!(told(&[2, 3, 5, 2, u32::MAX, 6, 2, 0, 0]).contains("whose fixed portion"));
    assert!(told(&[3, 4]).contains("stand the starts of the 3 bodies"));
    assert_eq!(
        told(&[2, 3, 4, 1, 8, 1, 9]),
        "Word 5 is 1. There stands the element of type 1: a type below 1."
    );
    assert_eq!(
        told(&[2, 3, 4, 1, 8, 0]),
        "Word 6 is missing. There stands the greatest count of type 1."
    );
    assert_eq!(
        told(&[2, 3, 4, 1, 9, 0, 0]),
        "Word 6 is 0. There stands the count of type 1, at least 1."
    );
    assert!(told(&[2, 3, 5, 0, 2, 9, 0, 1 << 31]).contains("a vector, whose fixed portion"));
    assert_eq!(
        told(&[2, 3, 4, 1, 9, 0, 1, 7]),
        "Word 7 is 7. There the table has ended already, with word 6."
    );
    let (text, _) = explain(&[1, 0, 0, 0, 2], None, false);
    assert!(text.ends_with(
        "Word 1 is cut: only 1 of its 4 bytes are there. There every word has 4 bytes.\n"
    ));
    let (text, fine) = explain(&bid().bytes(), None, false);
    assert!(
        fine && text
            .contains("type 3   container of 3 fields: types 0 1 2, variable  <- the message")
    );
}

#[test]
fn a_layout_of_lists_and_vectors() {
    let mut layout = Layout::new();
    let price = layout.number(8);
    let prices = layout.vector(price, 4);
    let list = layout.list(prices, 1);
    layout.vector(list, 3);
    let expected = "\
legal layout: 4 types, 16 words

  type 0   number of 8 bytes, 8 bytes
  type 1   vector of 4 elements: type 0, 32 bytes
  type 2   list of up to 1 element: type 1, variable
  type 3   vector of 3 elements: type 2, variable  <- the message
";
    assert_eq!(explain(&layout.bytes(), None, false), (expected.to_string(), true));
}

/// A price, and transactions of a list: up to 3 of up to 4 bytes each.
fn transactions() -> Layout {
    let mut layout = Layout::new();
    let (price, transaction) = (layout.number(2), layout.free_bytes(4));
    let list = layout.list(transaction, 3);
    layout.container([price, list]);
    layout
}

const TRANSACTIONS: [u8; 17] = [0x2a, 0, 6, 0, 0, 0, 8, 0, 0, 0, 10, 0, 0, 0, 0xaa, 0xbb, 0xcc];

#[test]
fn a_bid_with_transactions() {
    let expected = "\
accepted: 17 bytes, 5 items

  0000  2a 00 06 00 00 00 08 00 00 00 0a 00 00 00 aa bb
        a---- b---------- c---------- d---------- e----
  0010  cc
        f-

  a       0 to 2      message.0: number of 2 bytes (type 0): 42
  b       2 to 6      message.1: offset 6
  c       6 to 10     message.1[0]: offset 8
  d      10 to 14     message.1[1]: offset 10
  e      14 to 16     message.1[0]: free bytes up to 4 (type 1): 2 bytes
  f      16 to 17     message.1[1]: free bytes up to 4 (type 1): 1 byte
";
    assert_eq!(shown(&transactions(), &TRANSACTIONS), expected);
    let none = "\
accepted: 6 bytes, 3 items

  0000  2a 00 06 00 00 00
        a---- b----------

  a       0 to 2      message.0: number of 2 bytes (type 0): 42
  b       2 to 6      message.1: offset 6
  c       6 to 6      message.1: list of up to 3 elements (type 2): no elements
";
    assert_eq!(shown(&transactions(), &TRANSACTIONS[..6]), none);
}

#[test]
fn a_first_offset_that_is_no_multiple_of_four() {
    let mut message = TRANSACTIONS;
    message[6] = 9;
    let expected = "\
refusal 15 (InvalidListFixedBytesLen) in the item of type 2 at byte 6: a list's first offset, 9, is \
no multiple of 4; set it to 4 times the number of elements, and send no bytes for an empty list

  0000  2a 00 06 00 00 00 09 00 00 00 0a 00 00 00 aa bb
        a---- b---------- c---------- d----------------
                          ^^^^^^^^^^^ here
  0010  cc
        d-

  a       0 to 2      message.0: number of 2 bytes (type 0): 42
  b       2 to 6      message.1: offset 6
  c       6 to 10     message.1[0]: offset 9
  d      10 to 17     message.1: behind the first offset, not looked at

The list message.1 begins with an offset of 4 bytes for each element; it has 11 bytes in all.
";
    assert_eq!(shown(&transactions(), &message), expected);
}

/// Numbers without a visible pattern.
struct Random(u64);

impl Random {
    fn below(&mut self, bound: usize) -> usize {
        self.0 = self.0.wrapping_mul(6_364_136_223_846_793_005).wrapping_add(1);
        (self.0 >> 33) as usize % bound
    }

    fn layout(&mut self) -> Layout {
        let mut layout = Layout::new();
        for number in 0..=self.below(7) {
            let lower = |random: &mut Random| {
                cartwhisker::Type::from_number(random.below(number.max(1)) as u32)
            };
            match self.below(if number == 0 { 6 } else { 14 }) {
                0 => layout.number(1 << self.below(6)),
                1 => layout.boolean(),
                2 => layout.fixed_bytes(1 + self.below(4) as u32),
                3 => layout.free_bytes(self.below(5) as u32),
                4 => layout.bit_vector(1 + self.below(20) as u32),
                5 => layout.bit_list(self.below(20) as u32),
                6 | 7 => {
                    let fields: Vec<_> = (0..=self.below(4)).map(|_| lower(self)).collect();
                    layout.container(fields)
                }
                10 | 11 => layout.list(lower(self), self.below(6) as u32),
                12 | 13 => layout.vector(lower(self), 1 + self.below(4) as u32),
                _ => {
                    let option = |random: &mut Random| (random.below(4) > 0).then(|| lower(random));
                    let options: Vec<_> = (0..=self.below(3)).map(|_| option(self)).collect();
                    layout.union(options)
                }
            };
        }
        layout
    }

    /// Bytes that are right now and then: what is needed for a refusal to lie deep inside.
    fn message(&mut self, layout: &Layout, of: cartwhisker::Type, output: &mut Vec<u8>) {
        match layout.kind(of).unwrap().clone() {
            cartwhisker::Kind::Container(fields) => self.parts(layout, &fields, output),
            cartwhisker::Kind::List(element, limit) => {
                let count = self.below(limit as usize + 1) + self.below(30) / 29;
                self.parts(layout, &vec![element; count], output);
            }
            cartwhisker::Kind::Vector(element, count) => {
                let count = count as usize + self.below(30) / 29;
                self.parts(layout, &vec![element; count], output);
            }
            cartwhisker::Kind::Union(options) => {
                let one_more = self.below(9) / 8;
                let selector = self.below(options.len() + one_more);
                output.push(selector as u8);
                if let Some(Some(body)) = options.get(selector) {
                    self.message(layout, *body, output);
                }
            }
            cartwhisker::Kind::Boolean => output.push((self.below(40) / 13) as u8),
            _ => {
                let length =
                    layout.fixed_length(of).map_or(self.below(4), |length| length as usize);
                for _ in 0..length {
                    let byte = self.below(256);
                    output.push((byte >> self.below(5)) as u8);
                }
            }
        }
    }
}

impl Random {
    fn parts(&mut self, layout: &Layout, types: &[cartwhisker::Type], output: &mut Vec<u8>) {
        let start = output.len();
        let mut offsets = Vec::new();
        for of in types {
            if layout.fixed_length(*of).is_some() {
                self.message(layout, *of, output);
            } else {
                offsets.push((output.len(), *of));
                output.extend([0; 4]);
            }
        }
        for (at, of) in offsets {
            let slip = self.below(50).saturating_sub(47);
            let offset = (output.len() - start + slip).saturating_sub(slip / 2 * 3) as u32;
            output[at..at + 4].copy_from_slice(&offset.to_le_bytes());
            self.message(layout, of, output);
        }
    }
}

/// Whatever the table and the bytes are: a picture, each byte in it once, and a mark on a refusal.
#[test]
fn any_message_has_a_picture() {
    let mut random = Random(1);
    let mut numbers = std::collections::BTreeSet::new();
    for _ in 0..20_000 {
        let layout = random.layout();
        let mut message = Vec::new();
        random.message(&layout, layout.message().unwrap(), &mut message);
        if random.below(3) == 0 {
            message.truncate(random.below(message.len() + 1));
        }
        let picture = pieces::of(&layout, &message);
        let mut seen = vec![0; message.len()];
        for piece in &picture.pieces {
            seen[piece.bytes.clone()].iter_mut().for_each(|count| *count += 1);
        }
        assert!(seen.iter().all(|count| *count == 1), "{:?} {message:?}", layout.words());
        let told = listing(&layout.bytes(), &message);
        assert_eq!(told.is_err(), picture.mark.is_some());
        numbers.insert(told.err().map_or(0, |refusal| refusal.number));
        explain(&layout.bytes(), Some(&message), true);
    }
    assert_eq!(numbers.into_iter().collect::<Vec<u32>>(), (0..=15).collect::<Vec<u32>>());
}
