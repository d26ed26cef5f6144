//! Values of a layout's types: their encoding, as the standard writes it, and their form.

use crate::rng::Rng;
use cartwhisker::{Kind, Layout, Type};

/// A value of a type of the table.
#[derive(Clone, Debug, PartialEq, Eq)]
pub enum Value {
    /// A number's bytes, a boolean's, fixed bytes.
    Fixed(Vec<u8>),
    Free(Vec<u8>),
    Vector(Vec<bool>),
    List(Vec<bool>),
    /// A container's fields, a vector's elements.
    Row(Vec<Value>),
    /// A list's elements.
    Elements(Vec<Value>),
    /// The selector, and the body if the option has one.
    Union(u8, Option<Box<Value>>),
}

/// "Contents, in preorder, one word each: byte length of free bytes, bit length of a bit list,
/// selector of a union. Bodies: the leaves' bytes one after another, bitfields as raw bytes." "The
/// value form gets a contents word for a list's count, before its elements" (document 02, [1]).
#[derive(Clone, Debug, Default, PartialEq, Eq)]
pub struct Form {
    pub contents: Vec<u32>,
    pub bodies: Vec<u8>,
}

impl Form {
    pub fn of(value: &Value) -> Form {
        let mut form = Form::default();
        form.add(value);
        form
    }

    fn add(&mut self, value: &Value) {
        match value {
            Value::Fixed(bytes) => self.bodies.extend(bytes),
            Value::Free(bytes) => {
                self.contents.push(bytes.len() as u32);
                self.bodies.extend(bytes);
            }
            Value::Vector(bits) => self.bodies.extend(raw(bits)),
            Value::List(bits) => {
                self.contents.push(bits.len() as u32);
                self.bodies.extend(raw(bits));
            }
            Value::Row(fields) => fields.iter().for_each(|field| self.add(field)),
            Value::Elements(elements) => {
                self.contents.push(elements.len() as u32);
                elements.iter().for_each(|element| self.add(element));
            }
            Value::Union(selector, body) => {
                self.contents.push(u32::from(*selector));
                body.iter().for_each(|body| self.add(body));
            }
        }
    }
}

/// "Bit i is bit i mod 8 of byte i/8, lowest first."
fn packed(bits: &[bool]) -> Vec<u8> {
    let mut bytes = vec![0; bits.len().div_ceil(8)];
    for (i, _) in bits.iter().enumerate().filter(|(_, bit)| **bit) {
        bytes[i / 8] |= 1 << (i % 8);
    }
    bytes
}

/// "Raw bytes are max(1, bits/8 rounded up)."
fn raw(bits: &[bool]) -> Vec<u8> {
    if bits.is_empty() {
        vec![0]
    } else {
        packed(bits)
    }
}

/// The standard's serialization.
pub fn encode(layout: &Layout, of: Type, value: &Value) -> Vec<u8> {
    match (layout.kind(of).expect("a type of the table"), value) {
        (_, Value::Fixed(bytes) | Value::Free(bytes)) => bytes.clone(),
        (_, Value::Vector(bits)) => packed(bits),
        // "A bit list adds one set bit behind its last."
        (_, Value::List(bits)) => packed(&[bits, &[true][..]].concat()),
        (Kind::Container(fields), Value::Row(values)) => container(layout, fields, values),
        (Kind::Vector(element, _), Value::Row(values))
        | (Kind::List(element, _), Value::Elements(values)) => {
            container(layout, &vec![*element; values.len()], values)
        }
        (Kind::Union(options), Value::Union(selector, body)) => {
            let mut bytes = vec![*selector];
            if let Some(body) = body {
                let of = options[usize::from(*selector)].expect("an option with a body");
                bytes.extend(encode(layout, of, body));
            }
            bytes
        }
        (kind, value) => panic!("{value:?} is no value of {kind:?}"),
    }
}

/// The fixed parts, an offset for each variable one, then the variable parts.
fn container(layout: &Layout, fields: &[Type], values: &[Value]) -> Vec<u8> {
    let portion: u64 = fields.iter().map(|field| layout.head(*field)).sum();
    let (mut fixed, mut variable) = (Vec::new(), Vec::new());
    for (field, value) in fields.iter().zip(values) {
        let bytes = encode(layout, *field, value);
        if layout.fixed_length(*field).is_some() {
            fixed.extend(bytes);
        } else {
            let offset = portion as usize + variable.len();
            fixed.extend((offset as u32).to_le_bytes());
            variable.extend(bytes);
        }
    }
    fixed.extend(variable);
    fixed
}

/// How long free bytes are; a bit list has up to six times as many bits.
#[derive(Clone, Copy, Debug)]
pub enum Lengths {
    /// None, few, at this most, or a multiple of 8 now and then.
    Upto(u64),
    /// So many, or as many as the limit allows.
    Full(u64),
}

impl Lengths {
    fn pick(self, limit: u32, times: u64, rng: &mut Rng) -> usize {
        let within = |most: u64| u64::from(limit).min(times * most);
        let length = match self {
            Lengths::Full(most) => within(most),
            Lengths::Upto(most) => match rng.below(6) {
                0 => 0,
                1 => within(most),
                2 => rng.between(0, within(most)) / 8 * 8,
                3 => rng.between(0, within(most)),
                _ => rng.between(0, within(most).min(9)),
            },
        };
        length as usize
    }

    /// How many elements a list has: fewer the longer they are.
    fn count(self, limit: u32, each: u64, rng: &mut Rng) -> usize {
        match self {
            Lengths::Full(most) => u64::from(limit).min(most / each / 2) as usize,
            Lengths::Upto(most) => Lengths::Upto(most.min(9)).pick(limit, 1, rng),
        }
    }

    /// The lengths in each of so many elements.
    fn inside(self, count: usize) -> Self {
        match self {
            Lengths::Full(most) => Lengths::Full(most / 2 / (count as u64).max(1)),
            Lengths::Upto(most) => Lengths::Upto(most / 2),
        }
    }
}

fn bits(rng: &mut Rng, count: usize) -> Vec<bool> {
    let one_in = rng.pick(&[1, 2, 2, 8]);
    (0..count).map(|_| rng.one_in(one_in)).collect()
}

fn random(layout: &Layout, of: Type, lengths: Lengths, rng: &mut Rng) -> Value {
    match layout.kind(of).expect("a type of the table") {
        Kind::Number(length) | Kind::FixedBytes(length) => {
            Value::Fixed(rng.bytes(*length as usize))
        }
        Kind::Boolean => Value::Fixed(vec![rng.below(2) as u8]),
        Kind::FreeBytes(limit) => {
            let length = lengths.pick(*limit, 1, rng);
            Value::Free(rng.bytes(length))
        }
        Kind::BitVector(count) => Value::Vector(bits(rng, *count as usize)),
        Kind::BitList(limit) => {
            let length = lengths.pick(*limit, 6, rng);
            Value::List(bits(rng, length))
        }
        Kind::Container(fields) => {
            Value::Row(fields.iter().map(|field| random(layout, *field, lengths, rng)).collect())
        }
        Kind::Vector(element, count) => {
            Value::Row(elements(layout, *element, *count as usize, lengths, rng))
        }
        Kind::List(element, limit) => {
            let count = lengths.count(*limit, layout.head(*element), rng);
            Value::Elements(elements(layout, *element, count, lengths, rng))
        }
        Kind::Union(options) => {
            let selector = rng.below(options.len() as u64) as u8;
            let body = options[usize::from(selector)];
            Value::Union(selector, body.map(|body| Box::new(random(layout, body, lengths, rng))))
        }
    }
}

fn elements(
    layout: &Layout,
    element: Type,
    count: usize,
    lengths: Lengths,
    rng: &mut Rng,
) -> Vec<Value> {
    (0..count).map(|_| random(layout, element, lengths.inside(count), rng)).collect()
}

/// A random value of the message's type, and its encoding.
pub fn random_message(layout: &Layout, lengths: Lengths, rng: &mut Rng) -> (Value, Vec<u8>) {
    let last = layout.message().expect("at least one type");
    let value = random(layout, last, lengths, rng);
    let message = encode(layout, last, &value);
    (value, message)
}
