//! Our own rules for the encoder over two lent buffers.

use super::Take;
use crate::format::{items, number, Case, Head, Item, Part};

/// Document 01's encoder, module 5: "a state by value (fixed size, bytes used of each) over two
/// lent buffers". It is run on questions whose buffers are short or whose offsets are too large;
/// where there is room, a test below holds it against the crate.
pub struct Encoder {
    pub fixed_size: u64,
    pub fixed: Part,
    pub variable: Part,
    pub fixed_used: usize,
    pub variable_used: usize,
}

const TOO_LARGE: Head = Head::new(21, 0, 0);
const BAD_STATE: Head = Head::new(23, 0, 0);

fn no_room(needed: usize, room: usize) -> Head {
    Head::new(22, needed as u64, room as u64)
}

impl Encoder {
    /// "21 if the offset to write (fixed size plus variable bytes used) is 2^32 or more": for
    /// variable items only (reading 64). "22 (bytes used after it, room) if a buffer is short, the
    /// fixed one first" (reading 66). Nothing is written on a refusal.
    pub fn append(&mut self, item: &Item) -> Result<(), Head> {
        self.holds()?;
        if item.fixed {
            return self.store_fixed(&item.bytes);
        }
        let offset = u128::from(self.fixed_size) + self.variable_used as u128;
        let offset = u32::try_from(offset).map_err(|_| TOO_LARGE)?;
        let fixed_end = self.fixed_used + 4;
        let variable_end = self.variable_used + item.bytes.len();
        if fixed_end > self.fixed.len() {
            return Err(no_room(fixed_end, self.fixed.len()));
        }
        if variable_end > self.variable.len() {
            return Err(no_room(variable_end, self.variable.len()));
        }
        self.variable[self.variable_used..variable_end].copy_from_slice(&item.bytes);
        self.variable_used = variable_end;
        self.store_fixed(&offset.to_le_bytes())
    }

    /// "23 if a buffer has less than is used", before all else. In a run of calls over the same
    /// buffers it cannot come.
    fn holds(&self) -> Result<(), Head> {
        let fixed = self.fixed_used <= self.fixed.len();
        if fixed && self.variable_used <= self.variable.len() {
            Ok(())
        } else {
            Err(BAD_STATE)
        }
    }

    fn store_fixed(&mut self, bytes: &[u8]) -> Result<(), Head> {
        let end = self.fixed_used + bytes.len();
        if end > self.fixed.len() {
            return Err(no_room(end, self.fixed.len()));
        }
        self.fixed[self.fixed_used..end].copy_from_slice(bytes);
        self.fixed_used = end;
        Ok(())
    }

    /// "The end, 23 likewise, moves the second behind the first, else 22": (fixed used + variable used, room
    /// of the fixed buffer), the variable buffer untouched (reading 67). The fixed size is compared
    /// with nothing (readings 65, 68).
    pub fn end(&mut self) -> Result<usize, Head> {
        self.holds()?;
        let bytes = self.variable[..self.variable_used].to_vec();
        self.store_fixed(&bytes)?;
        Ok(self.fixed_used)
    }
}

fn encoded(fixed_size: u64, row: &[Item], fixed: Part, variable: Part) -> Case {
    let question = vec![number(fixed_size), items(row), fixed.clone(), variable.clone()];
    let mut encoder = Encoder { fixed_size, fixed, variable, fixed_used: 0, variable_used: 0 };
    let mut accepted = 0;
    let mut answer = Ok(());
    for item in row {
        answer = encoder.append(item);
        if answer.is_err() {
            break;
        }
        accepted += 1;
    }
    let (head, length) = match answer.and_then(|()| encoder.end()) {
        Ok(length) => (Head::SUCCESS, number(length as u64)),
        Err(head) => (head, Vec::new()),
    };
    Case {
        op: 60,
        question,
        head,
        results: vec![number(accepted), length, encoder.fixed, encoder.variable],
    }
}

pub fn fixed(length: u8) -> Item {
    Item { fixed: true, bytes: (1..=length).collect() }
}

pub fn variable(length: u8) -> Item {
    Item { fixed: false, bytes: (1..=length).map(|i| 0x40 + i).collect() }
}

/// Buffers whose bytes are all unlike what is written.
pub fn buffers(room: (usize, usize)) -> (Part, Part) {
    (vec![0xee; room.0], vec![0xdd; room.1])
}

pub fn cases(take: Take) {
    // Each room from none to more than enough: two bytes, two offsets, three and one bytes.
    let row = [fixed(2), variable(3), variable(1)];
    for fixed_room in 0..=15 {
        for variable_room in 0..=5 {
            let (first, second) = buffers((fixed_room, variable_room));
            take(encoded(10, &row, first, second));
        }
    }
    large_offsets(take);
    empty_items(take);
}

fn large_offsets(take: Take) {
    let greatest = u64::from(u32::MAX);
    let rows: [(u64, Vec<Item>); 11] = [
        (greatest + 1, vec![variable(0)]),
        (greatest + 1, vec![fixed(2), variable(1), fixed(1)]),
        (greatest, vec![variable(1), variable(0)]),
        (greatest, vec![variable(1), fixed(3), variable(2)]),
        (greatest - 5, vec![variable(5), variable(1), variable(1)]),
        (u64::MAX, vec![variable(0)]),
        (u64::MAX, vec![fixed(1), variable(9)]),
        // The sum leaves 64 bits, but the first offset is too large already.
        (u64::MAX - 2, vec![variable(3), variable(3)]),
        // A fixed item writes no offset (reading 64).
        (greatest + 1, vec![fixed(2), fixed(3)]),
        (u64::MAX, vec![fixed(8)]),
        (u64::MAX, vec![]),
    ];
    for (fixed_size, row) in rows {
        // Room enough, and none: 21 comes before 22.
        for room in [(40, 40), (0, 0)] {
            let (first, second) = buffers(room);
            take(encoded(fixed_size, &row, first, second));
        }
    }
}

/// Items of no bytes need no room of their own, but an offset needs its four bytes.
fn empty_items(take: Take) {
    for room in [(0, 0), (3, 0), (4, 0), (7, 0), (8, 0), (9, 1)] {
        for row in
            [vec![], vec![fixed(0)], vec![variable(0)], vec![fixed(0), variable(0), variable(0)]]
        {
            let (first, second) = buffers(room);
            take(encoded(4, &row, first, second));
        }
    }
}

#[cfg(test)]
mod tests {
    use super::*;
    use crate::format::{to_items, to_number};
    use crate::make;
    use crate::rng::Rng;

    #[test]
    fn with_room_the_rules_agree_with_the_crate() {
        let mut rng = Rng::new(7);
        for _ in 0..2_000 {
            let case = make::random(60, &mut rng).case();
            let [size, row, first, second] = &case.question[..] else {
                panic!("four parts");
            };
            let own = encoded(to_number(size), &to_items(row), first.clone(), second.clone());
            assert_eq!(own.record(), case.record());
        }
    }

    #[test]
    fn the_fixed_buffer_is_named_first() {
        let (first, second) = buffers((3, 0));
        let case = encoded(4, &[variable(1)], first.clone(), second.clone());
        assert_eq!(case.head, Head::new(22, 4, 3));
        assert_eq!(case.results, [number(0), vec![], first, second]);
    }

    #[test]
    fn the_end_leaves_what_was_accepted() {
        let (first, second) = buffers((5, 2));
        let case = encoded(4, &[variable(2)], first, second);
        assert_eq!(case.head, Head::new(22, 6, 5));
        assert_eq!(case.results, [number(1), vec![], vec![4, 0, 0, 0, 0xee], vec![0x41, 0x42]]);
    }
}
