//! Builder, reader and encoder (operations 50, 51 and 60).

use super::{accepted, Answer};
use crate::format::{number, row, stored, to_items, to_number, to_row, Case, Head, Part, VARIABLE};
use ssz::{DecodeError, SszDecoder, SszDecoderBuilder, SszEncoder, BYTES_PER_LENGTH_OFFSET};

/// More items, or longer ones, are refused by document 01 and not by the crate.
const MOST_ITEMS: usize = 64;
const LONGEST_ITEM: u64 = u32::MAX as u64;

/// The registrations in order up to the first refusal, then build. On a refusal the number of
/// registrations accepted before it comes along.
fn built<'a>(
    bytes: &'a [u8],
    registrations: &[u64],
) -> Result<SszDecoder<'a>, (DecodeError, usize)> {
    assert!(registrations.len() <= MOST_ITEMS, "too many items for a case of the crate's");
    let mut builder = SszDecoderBuilder::new(bytes);
    for (done, registration) in registrations.iter().enumerate() {
        let answer = if *registration == VARIABLE {
            builder.register_type_parameterized(false, BYTES_PER_LENGTH_OFFSET)
        } else {
            assert!(*registration <= LONGEST_ITEM, "no fixed length of the crate's");
            builder.register_type_parameterized(true, *registration as usize)
        };
        // The crate's builder has moved on by a refused item, so nothing may be asked of it after.
        answer.map_err(|error| (error, done))?;
    }
    builder.build().map_err(|error| (error, registrations.len()))
}

/// Where the decoder's items lie in the bytes. Slices are all it hands out, so their places are
/// told by their addresses; an empty one has its address too.
fn places(decoder: &mut SszDecoder, bytes: &[u8], count: usize) -> Vec<u64> {
    let mut found = Vec::new();
    for _ in 0..count {
        let slice = decoder
            .decode_next_with(|slice| Ok((slice.as_ptr() as usize, slice.len())))
            .expect("the closure does not refuse");
        let start = slice.0 - bytes.as_ptr() as usize;
        assert!(start + slice.1 <= bytes.len(), "an item outside of the bytes");
        found.extend([start as u64, (start + slice.1) as u64]);
    }
    found
}

pub fn build(question: &[Part]) -> Answer {
    let (bytes, registrations) = (&question[0], to_row(&question[1]));
    match built(bytes, &registrations) {
        Ok(mut decoder) => {
            let ranges = places(&mut decoder, bytes, registrations.len());
            accepted(vec![number(registrations.len() as u64), row(&ranges)])
        }
        Err((error, done)) => (error.into(), vec![number(done as u64), Vec::new()]),
    }
}

/// The reader's case for an item of bytes that the crate's builder accepts. The crate has no reader
/// over ranges, so the question's ranges are those that its builder made.
pub fn reader_case(bytes: &[u8], registrations: &[u64], item: usize) -> Option<Case> {
    let mut for_places = built(bytes, registrations).ok()?;
    let ranges = places(&mut for_places, bytes, registrations.len());
    let mut decoder = built(bytes, registrations).ok()?;
    for _ in 0..item {
        decoder.decode_next_with(|_| Ok(())).expect("the closure does not refuse");
    }
    let found =
        decoder.decode_next_with(|slice| Ok(slice.to_vec())).expect("the closure does not refuse");
    Some(Case {
        op: 51,
        question: vec![bytes.to_vec(), row(&ranges), number(item as u64)],
        head: Head::SUCCESS,
        results: vec![found],
    })
}

pub fn encode(question: &[Part]) -> Answer {
    let fixed_size = to_number(&question[0]);
    let items = to_items(&question[1]);
    // The crate keeps these bytes to itself; in a lent buffer they are seen.
    let variable: Vec<u8> =
        items.iter().filter(|item| !item.fixed).flat_map(|item| item.bytes.clone()).collect();
    let mut whole = Vec::new();
    let mut encoder = SszEncoder::container(&mut whole, fixed_size as usize);
    let mut offset = fixed_size;
    for item in &items {
        // From 2^32 on the crate's release build drops bits; document 01 refuses.
        assert!(item.fixed || offset <= u64::from(u32::MAX), "no offset of the crate's");
        offset += if item.fixed { 0 } else { item.bytes.len() as u64 };
        encoder.append_parameterized(item.fixed, |buffer| buffer.extend_from_slice(&item.bytes));
    }
    encoder.finalize();
    let room = whole.len() <= question[2].len() && variable.len() <= question[3].len();
    assert!(room, "a short buffer is no case of the crate's");
    accepted(vec![
        number(items.len() as u64),
        number(whole.len() as u64),
        stored(&question[2], &whole),
        stored(&question[3], &variable),
    ])
}
