//! The check of a layout table as document 01 tells it, and tables that are bad.

use crate::rng::Rng;
use cartwhisker::{Kind, Layout, Type};

/// "Order of the check: word 0; presence of words 1 to T; then for each type its start word, kind,
/// further words, and the fixed portion, charged to the kind word; then leftover words." Refusal
/// 20's word, or the layout.
pub fn checked(table: &[u8]) -> Result<Layout, usize> {
    // "A cut last layout word is 20 at it, first" (reading 108: in every call).
    if table.len() % 4 != 0 {
        return Err(table.len() / 4);
    }
    let words: Vec<u32> = table
        .chunks(4)
        .map(|word| u32::from_le_bytes(word.try_into().expect("four bytes")))
        .collect();
    let table = Table { words: &words };
    let types = table.within(0, 1, 64)? as usize;
    if words.len() <= types {
        return Err(words.len());
    }
    let mut layout = Layout::new();
    let mut at = types + 1;
    for number in 0..types {
        if words[1 + number] as usize != at {
            return Err(1 + number);
        }
        let (kind, end) = table.body(at, number as u32, &layout)?;
        layout.add(kind);
        at = end;
    }
    if at < words.len() {
        return Err(at);
    }
    Ok(layout)
}

struct Table<'a> {
    words: &'a [u32],
}

impl Table<'_> {
    /// "A missing word has the table's length as its number."
    fn word(&self, at: usize) -> Result<u32, usize> {
        self.words.get(at).copied().ok_or(self.words.len())
    }

    fn within(&self, at: usize, least: u32, most: u32) -> Result<u32, usize> {
        let word = self.word(at)?;
        if (least..=most).contains(&word) {
            Ok(word)
        } else {
            Err(at)
        }
    }

    /// The words behind the count, each a lower type or, where that is allowed, no body.
    fn named(&self, at: usize, count: u32, below: u32, no_body: bool) -> Result<Vec<u32>, usize> {
        let place = |i: u32| at + i as usize;
        (0..count)
            .map(|i| match self.word(place(i))? {
                word if word < below || (no_body && word == u32::MAX) => Ok(word),
                _ => Err(place(i)),
            })
            .collect()
    }

    fn body(&self, at: usize, number: u32, lower: &Layout) -> Result<(Kind, usize), usize> {
        let one = |kind: fn(u32) -> Kind, least: u32| {
            self.within(at + 1, least, u32::MAX).map(|word| (kind(word), at + 2))
        };
        match self.word(at)? {
            0 => match self.word(at + 1)? {
                width @ (1 | 2 | 4 | 8 | 16 | 32) => Ok((Kind::Number(width), at + 2)),
                _ => Err(at + 1),
            },
            1 => Ok((Kind::Boolean, at + 1)),
            2 => one(Kind::FixedBytes, 1),
            3 => one(Kind::FreeBytes, 0),
            4 => one(Kind::BitVector, 1),
            5 => one(Kind::BitList, 0),
            6 => {
                let count = self.within(at + 1, 1, 64)?;
                let words = self.named(at + 2, count, number, false)?;
                let fields: Vec<Type> = words.into_iter().map(Type::from_number).collect();
                let portion: u64 = fields.iter().map(|field| lower.head(*field)).sum();
                if portion > u64::from(u32::MAX) {
                    return Err(at);
                }
                Ok((Kind::Container(fields), at + 2 + count as usize))
            }
            7 => {
                let count = self.within(at + 1, 1, 128)?;
                let words = self.named(at + 2, count, number, true)?;
                let option = |word: u32| (word != u32::MAX).then(|| Type::from_number(word));
                let options = words.into_iter().map(option).collect();
                Ok((Kind::Union(options), at + 2 + count as usize))
            }
            8 => {
                let element = self.element(at + 1, number)?;
                Ok((Kind::List(element, self.word(at + 2)?), at + 3))
            }
            9 => {
                let element = self.element(at + 1, number)?;
                let count = self.within(at + 2, 1, u32::MAX)?;
                // "Both vectors have the limit of a container's fixed portion" (reading 8).
                if u64::from(count).saturating_mul(lower.head(element)) > u64::from(u32::MAX) {
                    return Err(at);
                }
                Ok((Kind::Vector(element, count), at + 3))
            }
            _ => Err(at),
        }
    }

    /// An element's type.
    fn element(&self, at: usize, below: u32) -> Result<Type, usize> {
        let named = self.named(at, 1, below, false)?;
        Ok(Type::from_number(named[0]))
    }
}

fn bytes(words: &[u32]) -> Vec<u8> {
    words.iter().flat_map(|word| word.to_le_bytes()).collect()
}

/// Tables at the limits of each rule.
pub fn at_limits() -> Vec<Vec<u8>> {
    let half = 1 << 31;
    let mut found: Vec<Vec<u8>> = [
        &[][..],
        &[0],
        &[65],
        &[u32::MAX],
        &[1],
        &[1, 2],
        &[1, 3, 1],
        &[1, 2, 0],
        &[1, 2, 8],
        &[1, 2, 8, 0],
        &[1, 2, 9, 0, 1, 0],
        &[1, 2, 10],
        &[2, 3, 4, 1, 8],
        &[2, 3, 4, 1, 8, 0],
        &[2, 3, 4, 1, 8, 1, 5],
        &[2, 3, 4, 1, 8, 0, 0],
        &[2, 3, 4, 1, 8, 0, u32::MAX],
        &[2, 3, 4, 1, 8, 0, 1, 0],
        &[2, 3, 4, 1, 9, 0],
        &[2, 3, 4, 1, 9, 1, 1],
        &[2, 3, 4, 1, 9, 0, 0],
        &[2, 3, 4, 1, 9, 0, 1],
        // A vector's fixed portion of 2^32 - 1 bytes and of one more, of fixed elements and of
        // offsets, charged to its kind word behind its count; and such a vector in a container.
        &[2, 3, 4, 1, 9, 0, u32::MAX],
        &[2, 3, 5, 2, 3, 9, 0, u32::MAX / 3],
        &[2, 3, 5, 2, 2, 9, 0, half],
        &[2, 3, 5, 3, 7, 9, 0, half / 2 - 1],
        &[2, 3, 5, 3, 7, 9, 0, half / 2],
        &[2, 3, 5, 2, half, 9, 0, 2, 0],
        &[3, 4, 5, 8, 1, 9, 0, u32::MAX, 6, 2, 1, 0],
        &[3, 4, 6, 9, 3, 7, 9, 0, half / 4, 9, 1, 2],
        &[1, 2, 2, 0],
        &[1, 2, 4, 0],
        &[1, 2, 6, 0],
        &[1, 2, 6, 65],
        &[1, 2, 6, 1, 0],
        &[1, 2, 7, 0],
        &[1, 2, 7, 129],
        &[1, 2, 7, 1, 0],
        &[1, 2, 7, 1, u32::MAX, 0],
        &[1, 2, 7, 2, u32::MAX],
        // Reading 1: field 0 is bad and field 2 is missing.
        &[2, 3, 4, 1, 6, 3, 1, 0],
        // A fixed portion of 2^32 bytes, and with a bad field behind it (reading 3).
        &[2, 3, 5, 2, half, 6, 2, 0, 0],
        &[2, 3, 5, 2, half, 6, 3, 0, 0, 1],
        &[2, 3, 5, 2, half, 6, 3, 0, 0],
    ]
    .map(bytes)
    .to_vec();
    found.push(vec![1]);
    found
}

/// What is made of a right table: a word changed, cut, extended.
pub fn damaged(table: &[u8], rng: &mut Rng) -> Vec<u8> {
    let mut bytes = table.to_vec();
    match rng.below(8) {
        0 => bytes.truncate(rng.below(table.len() as u64) as usize),
        1 => bytes.truncate(rng.below(table.len() as u64) as usize / 4 * 4),
        2 => bytes.push(rng.byte()),
        3 => bytes.extend((rng.below(9) as u32).to_le_bytes()),
        _ => {
            let at = rng.below(table.len() as u64 / 4) as usize * 4;
            let place = at..at + 4;
            let word = u32::from_le_bytes(bytes[place.clone()].try_into().expect("four bytes"));
            let few = rng.below(12) as u32;
            let random = rng.next() as u32;
            let others =
                [word.wrapping_sub(1), word.wrapping_add(1), 0, few, few, u32::MAX, random];
            bytes[place].copy_from_slice(&rng.pick(&others).to_le_bytes());
        }
    }
    bytes
}
