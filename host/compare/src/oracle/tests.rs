//! A few answers known from document 01 and the public standard.

use super::*;
use crate::format::{items, maybe, number, row, Held, Item, VARIABLE};

fn head(case: &Case) -> (u64, u64, u64) {
    (case.head.number, case.head.a, case.head.b)
}

fn read_list(bytes: &[u8], n: u64) -> Case {
    ask(11, vec![bytes.to_vec(), number(n)])
}

#[test]
fn proved_cases_9_to_12() {
    let four_zeros = read_list(&[0x10], 4);
    assert_eq!(four_zeros.results[0], Held::zero(4, 4).part());
    assert_eq!(head(&read_list(&[0x20], 4)), (9, 4, 4));
    assert_eq!(head(&read_list(&[1, 0], 4)), (12, 2, 1));
    assert_eq!(head(&read_list(&[0], 4)), (10, 0, 0));
}

#[test]
fn offsets_there_and_back() {
    let written = ask(2, vec![number(0x0403_0201)]);
    assert_eq!(written.results[0], [1, 2, 3, 4]);
    let read = ask(1, vec![vec![1, 2, 3, 4, 5]]);
    assert_eq!(read.results[0], number(0x0403_0201));
    assert_eq!(head(&ask(1, vec![vec![1, 2]])), (2, 2, 4));
}

#[test]
fn the_four_tests_of_an_offset_in_their_order() {
    let asked = |offset, previous, bytes, fixed| {
        let question = vec![number(offset), maybe(previous), number(bytes), maybe(fixed)];
        head(&ask(3, question))
    };
    assert_eq!(asked(3, None, 2, Some(4)), (4, 3, 0));
    assert_eq!(asked(5, None, 2, Some(4)), (5, 5, 0));
    assert_eq!(asked(5, Some(9), 2, Some(4)), (7, 5, 0));
    assert_eq!(asked(5, Some(9), 8, Some(4)), (6, 5, 0));
    assert_eq!(asked(5, Some(5), 8, Some(4)), (0, 0, 0));
}

#[test]
fn union_selectors() {
    assert_eq!(head(&ask(4, vec![vec![]])), (3, 0, 0));
    assert_eq!(head(&ask(4, vec![vec![128, 1]])), (8, 128, 0));
    let split = ask(4, vec![vec![127, 1, 2]]);
    assert_eq!(split.results, [number(127), vec![1, 2]]);
}

#[test]
fn the_message_of_the_worked_bid() {
    let mut message = vec![0x2a, 0, 0, 0, 0, 0, 0, 0, 0x10, 0, 0, 0, 0x13, 0, 0, 0];
    message.extend([10, 11, 12, 13]);
    let fields = row(&[8, VARIABLE, VARIABLE]);
    let whole = ask(50, vec![message.clone(), fields.clone()]);
    assert_eq!(whole.results, [number(3), row(&[0, 8, 16, 19, 19, 20])]);
    let cut = ask(50, vec![message[..10].to_vec(), fields]);
    assert_eq!(head(&cut), (2, 2, 4));
    assert_eq!(cut.results, [number(1), vec![]]);
    let item = reader_case(&message, &[8, VARIABLE, VARIABLE], 1).unwrap();
    assert_eq!(item.results, [vec![10, 11, 12]]);
}

#[test]
fn the_worked_bid_is_written_over_two_buffers() {
    let row = [
        Item { fixed: true, bytes: vec![7] },
        Item { fixed: false, bytes: vec![10, 11] },
        Item { fixed: false, bytes: vec![12] },
    ];
    let case = ask(60, vec![number(9), items(&row), vec![0xee; 13], vec![0xdd; 3]]);
    let whole = vec![7, 9, 0, 0, 0, 11, 0, 0, 0, 10, 11, 12, 0xee];
    assert_eq!(case.results, [number(3), number(12), whole, vec![10, 11, 12]]);
}

#[test]
fn bits_at_the_byte_border() {
    let full = Held::zero(8, 8).with_bits(&[0, 1, 2, 3, 4, 5, 6, 7]);
    let flipped = ask(24, vec![full.part()]);
    assert_eq!(flipped.results[0], Held::zero(8, 8).part());
    let written = ask(12, vec![full.part(), vec![9; 3]]);
    assert_eq!(written.results, [number(2), vec![255, 1, 9]]);
    let empty = ask(32, vec![Held::zero(0, 0).part(), vec![9]]);
    assert_eq!(empty.results, [number(1), vec![0]]);
    let resized = ask(16, vec![Held::zero(2, 4).with_bits(&[1]).part(), number(3)]);
    assert_eq!(head(&resized), (12, 3, 5));
}

#[test]
#[should_panic(expected = "a field that the crate cannot hold")]
fn a_field_with_bits_past_its_end_is_not_asked() {
    ask(24, vec![Held::zero(3, 8).with_bits(&[3]).part()]);
}
