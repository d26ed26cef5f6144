//! Where lists and vectors are refused otherwise than by the crate: what docs/DIFFERENCES.md says,
//! with its smallest messages, asked of both.

use cartwhisker::{check, Kind, Layout, Type};
use messages::numbers;
use ssz::{BitList, BitVector, Decode};
use typenum::{U4, U9};

/// A refusal's number, a and b; `None` for an acceptance.
type Told = Option<(u32, u64, u64)>;

fn crate_says<T: Decode>(message: &[u8]) -> Told {
    T::from_ssz_bytes(message).err().map(|error| numbers(&error))
}

/// Ours, with the type and the start of the refused item.
fn ours(layout: &Layout, message: &[u8]) -> (Told, u32, u64) {
    match check(&layout.bytes(), message) {
        Ok(()) => (None, 0, 0),
        Err(refusal) => {
            (Some((refusal.number, refusal.a, refusal.b)), refusal.type_number, refusal.start)
        }
    }
}

fn over(element: Kind, many: fn(Type, u32) -> Kind, count: u32) -> Layout {
    let mut layout = Layout::new();
    let element = layout.add(element);
    layout.add(many(element, count));
    layout
}

fn list(element: Kind, limit: u32) -> Layout {
    over(element, Kind::List, limit)
}

/// What ours says of a list or vector, which is type 1 and starts at 0.
fn said(layout: &Layout, message: &[u8]) -> Told {
    let (told, of, start) = ours(layout, message);
    assert_eq!((of, start), (u32::from(told.is_some()), 0));
    told
}

const BAD_OFFSET: [u8; 12] = [12, 0, 0, 0, 12, 0, 0, 0, 0, 0, 0, 0];

#[test]
fn a_list_above_its_limit() {
    let bytes = list(Kind::Number(1), 0);
    assert_eq!(bytes.words(), [2, 3, 5, 0, 1, 8, 0, 0]);
    assert_eq!(crate_says::<Vec<u8>>(&[0]), None);
    assert_eq!(said(&bytes, &[0]), Some((14, 1, 0)));
    let texts = list(Kind::FreeBytes(0), 0);
    assert_eq!(crate_says::<Vec<Vec<u8>>>(&[4, 0, 0, 0]), None);
    assert_eq!(said(&texts, &[4, 0, 0, 0]), Some((14, 1, 0)));
    // The limit comes before the elements, and behind the tests of the first offset (reading 31).
    assert_eq!(crate_says::<Vec<bool>>(&[2]), Some((13, 2, 0)));
    assert_eq!(said(&list(Kind::Boolean, 0), &[2]), Some((14, 1, 0)));
    for (message, told) in [([0; 4], (15, 0, 0)), ([5, 0, 0, 0], (7, 5, 0))] {
        assert_eq!(crate_says::<Vec<Vec<u8>>>(&message), Some(told));
        assert_eq!(said(&texts, &message), Some(told));
    }
    assert_eq!(crate_says::<Vec<Vec<u8>>>(&[0]), Some((2, 1, 4)));
    assert_eq!(said(&texts, &[0]), Some((2, 1, 4)));
}

#[test]
fn a_length_that_is_no_multiple() {
    let numbers = list(Kind::Number(2), u32::MAX);
    // The numbers are the same, and the crate does not say that it means the last piece.
    assert_eq!(crate_says::<Vec<u16>>(&[0]), Some((1, 1, 2)));
    assert_eq!(said(&numbers, &[0]), Some((1, 1, 2)));
    assert_eq!(crate_says::<Vec<u16>>(&[0; 3]), Some((1, 1, 2)));
    assert_eq!(said(&numbers, &[0; 3]), Some((1, 3, 2)));
    // The last piece is refused as an element of its kind is.
    let bits = list(Kind::BitVector(9), u32::MAX);
    assert_eq!(crate_says::<Vec<BitVector<U9>>>(&[0]), Some((12, 1, 2)));
    assert_eq!(said(&bits, &[0]), Some((1, 1, 2)));
    assert_eq!(crate_says::<Vec<(u16, u8)>>(&[0]), Some((1, 1, 2)));
    let mut pairs = Layout::new();
    let fields = [pairs.number(2), pairs.number(1)];
    let pair = pairs.container(fields);
    pairs.list(pair, u32::MAX);
    assert_eq!(ours(&pairs, &[0]), (Some((1, 1, 3)), 3, 0));
    // An earlier element is bad too.
    assert_eq!(crate_says::<Vec<BitVector<U9>>>(&[0, 2, 0]), Some((11, 0, 0)));
    assert_eq!(said(&bits, &[0, 2, 0]), Some((1, 3, 2)));
}

#[test]
fn an_offset_behind_a_bad_element() {
    let bits = list(Kind::BitList(4), u32::MAX);
    assert_eq!(crate_says::<Vec<BitList<U4>>>(&BAD_OFFSET), Some((11, 0, 0)));
    assert_eq!(said(&bits, &BAD_OFFSET), Some((4, 0, 0)));
    // With two offsets both are tested before an element is read.
    let two = [8, 0, 0, 0, 0, 0, 0, 0];
    assert_eq!(crate_says::<Vec<BitList<U4>>>(&two), Some((4, 0, 0)));
    assert_eq!(said(&bits, &two), Some((4, 0, 0)));
}

/// The crate's tuples are containers.
#[test]
fn a_fixed_vector_beside_the_container_of_its_elements() {
    let pair = over(Kind::Number(1), Kind::Vector, 2);
    assert_eq!(crate_says::<(u8, u8)>(&[]), Some((1, 0, 1)));
    assert_eq!(said(&pair, &[]), Some((1, 0, 2)));
    assert_eq!(crate_says::<[u8; 2]>(&[]), Some((1, 0, 2)));
    for message in [&[0][..], &[0; 3]] {
        let told = Some((1, message.len() as u64, 2));
        assert_eq!(crate_says::<(u8, u8)>(message), told);
        assert_eq!(said(&pair, message), told);
    }
}

#[test]
fn more_than_64_variable_elements_in_a_vector() {
    let texts = over(Kind::FreeBytes(0), Kind::Vector, 65);
    let message = 260_u32.to_le_bytes().repeat(65);
    assert_eq!(ours(&texts, &message), (None, 0, 0));
    assert_eq!(said(&texts, &message[4..]), Some((7, 260, 0)));
    assert_eq!(said(&texts, &256_u32.to_le_bytes().repeat(64)), Some((2, 0, 4)));
}
