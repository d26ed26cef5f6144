//! Questions to the builder and the reader (operations 50 and 51).

use super::{ask, Made, Take};
use crate::format::{row, VARIABLE};
use crate::oracle::reader_case;
use crate::rng::Rng;

const OFFSET: u64 = 4;
const GREATEST: u64 = u32::MAX as u64;

/// From this depth on rows of four items are tried, and not only of three.
const DEPTH_FOR_FOUR: u64 = 8;

/// Bytes and the registrations to make over them.
#[derive(Clone)]
struct Message {
    bytes: Vec<u8>,
    registrations: Vec<u64>,
}

impl Message {
    fn asked(&self) -> Made {
        ask(50, vec![self.bytes.clone(), row(&self.registrations)])
    }

    /// The reader's cases for every item, if the builder accepts.
    fn items(&self) -> Vec<Made> {
        let each = 0..self.registrations.len();
        let case = |item| reader_case(&self.bytes, &self.registrations, item);
        each.filter_map(case).map(Made::Answered).collect()
    }

    /// Stores an offset where the registration's own stands, if the bytes reach so far.
    fn put_offset(&mut self, registration: usize, offset: u64) {
        let place: u64 = fixed_portion(&self.registrations[..registration]);
        let bytes = (offset as u32).to_le_bytes();
        for (byte, value) in self.bytes.iter_mut().skip(place as usize).zip(bytes) {
            *byte = value;
        }
    }

    fn variable_places(&self) -> Vec<usize> {
        let all = self.registrations.iter().enumerate();
        all.filter(|(_, length)| **length == VARIABLE).map(|(place, _)| place).collect()
    }
}

fn fixed_portion(registrations: &[u64]) -> u64 {
    let taken = |length: &u64| if *length == VARIABLE { OFFSET } else { *length };
    registrations.iter().map(taken).sum()
}

/// A message of this length whose offsets are the given ones; its other bytes tell their places.
fn laid_out(registrations: &[u64], length: u64, offsets: &[u64]) -> Message {
    let mut message = Message {
        bytes: (0..length).map(|i| i as u8 | 0x80).collect(),
        registrations: registrations.to_vec(),
    };
    for (place, offset) in message.variable_places().into_iter().zip(offsets) {
        message.put_offset(place, *offset);
    }
    message
}

/// Every row of a few items, over lengths and offsets at and around each border.
fn short_messages(depth: u64, visit: &mut dyn FnMut(Message)) {
    let kinds = [0, 1, 3, VARIABLE];
    let most = if depth < DEPTH_FOR_FOUR { 3 } else { 4 };
    for count in 0..=most {
        for choice in 0..4_usize.pow(count) {
            let kind = |at: u32| kinds[choice / 4_usize.pow(at) % 4];
            let registrations: Vec<u64> = (0..count).map(kind).collect();
            messages_of(&registrations, visit);
        }
    }
}

fn messages_of(registrations: &[u64], visit: &mut dyn FnMut(Message)) {
    let portion = fixed_portion(registrations);
    let variable = registrations.iter().filter(|length| **length == VARIABLE).count() as u32;
    let lengths = [0, portion / 2, portion.saturating_sub(1), portion, portion + 1, portion + 3];
    for (at, length) in lengths.iter().enumerate() {
        if lengths[..at].contains(length) {
            continue;
        }
        let offsets = [0, portion.saturating_sub(1), portion, portion + 1, length + 1, GREATEST];
        for choice in 0..6_usize.pow(variable) {
            let offset = |at: u32| offsets[choice / 6_usize.pow(at) % 6];
            let chosen: Vec<u64> = (0..variable).map(offset).collect();
            visit(laid_out(registrations, *length, &chosen));
        }
    }
}

pub fn exhaustive(depth: u64, take: Take) {
    short_messages(depth, &mut |message| take(message.asked()));
}

pub fn exhaustive_items(depth: u64, take: Take) {
    short_messages(depth, &mut |message| message.items().into_iter().for_each(&mut *take));
}

/// As many items as there may be, and the longest fixed ones.
fn full_messages() -> Vec<Message> {
    let all_variable = [VARIABLE; 64];
    let even: Vec<u64> = (0..64).map(|i| 256 + 2 * i).collect();
    let mut mixed: Vec<u64> = (0..63).collect();
    mixed.push(VARIABLE);
    let mut found = vec![
        laid_out(&all_variable, 400, &even),
        laid_out(&all_variable, 256, &[256; 64]),
        laid_out(&[1; 64], 64, &[]),
        laid_out(&[0; 64], 0, &[]),
        laid_out(&mixed, 2_000, &[1_957]),
    ];
    for length in [GREATEST, GREATEST - 1, 1 << 31] {
        found.push(laid_out(&[length], 0, &[]));
        // The end of such an item is beyond 2^32, and the refusal names it.
        found.push(laid_out(&[5, length], 6, &[]));
        found.push(laid_out(&[VARIABLE, length, VARIABLE], 8, &[8]));
    }
    found
}

pub fn limits(take: Take) {
    for message in full_messages() {
        take(message.asked());
        let mut shorter = message.clone();
        shorter.bytes.pop();
        take(shorter.asked());
    }
    for message in worked_bids() {
        take(message.asked());
    }
}

/// The fields of document 01's proved cases 1 to 8: P, nothing, P's first 10 bytes, and P with
/// other offsets.
fn worked_bids() -> Vec<Message> {
    let mut p = laid_out(&[8, VARIABLE, VARIABLE], 20, &[16, 19]);
    p.bytes[..8].copy_from_slice(&42_u64.to_le_bytes());
    p.bytes[16..].copy_from_slice(&[10, 11, 12, 13]);
    let with = |first: u64, second: u64| {
        let mut message = p.clone();
        message.put_offset(1, first);
        message.put_offset(2, second);
        message
    };
    let cut = |length: usize| {
        let mut message = p.clone();
        message.bytes.truncate(length);
        message
    };
    let offsets = [(16, 19), (15, 19), (17, 19), (200, 19), (19, 18), (16, 20)];
    let mut found: Vec<Message> = offsets.map(|(first, second)| with(first, second)).to_vec();
    found.extend([cut(0), cut(10)]);
    found
}

pub fn limit_items(take: Take) {
    for message in full_messages() {
        // The first and the last of 64.
        for (place, case) in message.items().into_iter().enumerate() {
            if place % 63 == 0 {
                take(case);
            }
        }
    }
    for case in worked_bids().iter().flat_map(Message::items) {
        take(case);
    }
}

/// A message that the builder accepts.
fn random_message(rng: &mut Rng) -> Message {
    let most = if rng.one_in(12) { 64 } else { 7 };
    let count = rng.between(0, most);
    let mut registrations: Vec<u64> = (0..count).map(|_| random_registration(rng)).collect();
    if rng.one_in(6) {
        registrations.retain(|length| *length != VARIABLE);
    }
    let portion = fixed_portion(&registrations);
    let mut offsets = Vec::new();
    let mut end = portion;
    for _ in registrations.iter().filter(|length| **length == VARIABLE) {
        offsets.push(end);
        end += if rng.one_in(3) { 0 } else { rng.below(24) };
    }
    let mut message = laid_out(&registrations, end, &offsets);
    message.bytes = rng.bytes(end as usize);
    for (place, offset) in message.variable_places().into_iter().zip(offsets) {
        message.put_offset(place, offset);
    }
    message
}

fn random_registration(rng: &mut Rng) -> u64 {
    match rng.below(8) {
        0..=3 => VARIABLE,
        4 => rng.below(40),
        _ => rng.pick(&[0, 1, 2, 4, 8, 16, 32]),
    }
}

fn damage(message: &mut Message, rng: &mut Rng) {
    let length = message.bytes.len() as u64;
    match rng.below(8) {
        0 => message.bytes.truncate(rng.between(0, length) as usize),
        1 => {
            let more = 1 + rng.below(5) as usize;
            message.bytes.extend(rng.bytes(more));
        }
        2 if length > 0 => {
            let place = rng.below(length) as usize;
            message.bytes[place] = rng.byte();
        }
        3 => damage_registration(message, rng),
        _ => damage_offset(message, rng),
    }
}

/// An offset set to a border of the message, or near its neighbours.
fn damage_offset(message: &mut Message, rng: &mut Rng) {
    let places = message.variable_places();
    if places.is_empty() {
        return;
    }
    let place = rng.pick(&places);
    let length = message.bytes.len() as u64;
    let portion = fixed_portion(&message.registrations);
    let choices = [
        portion + 1,
        portion.saturating_sub(1),
        portion + rng.below(8),
        length,
        length + 1,
        length.saturating_sub(1),
        rng.between(0, length),
        0,
        rng.next() & GREATEST,
    ];
    message.put_offset(place, rng.pick(&choices));
}

fn damage_registration(message: &mut Message, rng: &mut Rng) {
    let count = message.registrations.len() as u64;
    if count == 0 || (count < 64 && rng.one_in(3)) {
        let place = rng.between(0, count) as usize;
        message.registrations.insert(place, random_registration(rng));
        return;
    }
    let place = rng.below(count) as usize;
    match rng.below(4) {
        0 => _ = message.registrations.remove(place),
        1 => message.registrations[place] = random_registration(rng),
        2 => message.registrations[place] = GREATEST - rng.below(3),
        _ if message.registrations[place] == VARIABLE => message.registrations[place] = OFFSET,
        // Longer than the greatest is refused by document 01 and not by the crate.
        _ => message.registrations[place] = (message.registrations[place] + 1).min(GREATEST),
    }
}

/// A sound message, or one with a damage or two, or no message at all.
pub fn random(rng: &mut Rng) -> Made {
    let mut message = random_message(rng);
    if rng.one_in(20) {
        message.bytes = rng.bytes(message.bytes.len());
        return message.asked();
    }
    for _ in 0..rng.pick(&[0, 1, 1, 2]) {
        damage(&mut message, rng);
    }
    message.asked()
}

pub fn random_item(rng: &mut Rng) -> Made {
    loop {
        let message = random_message(rng);
        if !message.registrations.is_empty() {
            let item = rng.below(message.registrations.len() as u64) as usize;
            let case = reader_case(&message.bytes, &message.registrations, item);
            return Made::Answered(case.expect("an undamaged message is accepted"));
        }
    }
}
