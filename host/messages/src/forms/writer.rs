//! The value writer as document 01 tells it: what a form says, or its first fault.

use super::value::{encode, Form, Value};
use cartwhisker::{Kind, Layout, Type};

/// What is wrong with a form.
#[derive(Clone, Copy, Debug, PartialEq, Eq, PartialOrd, Ord, Hash)]
pub enum Fault {
    MissingWord,
    LongBytes,
    LongBits,
    LongList,
    NoOption,
    ShortBody,
    Boolean,
    VectorBits,
    ListBits,
    LeftWords,
    LeftBytes,
}

impl Fault {
    pub const ALL: [Fault; 11] = [
        Fault::MissingWord,
        Fault::LongBytes,
        Fault::LongBits,
        Fault::LongList,
        Fault::NoOption,
        Fault::ShortBody,
        Fault::Boolean,
        Fault::VectorBits,
        Fault::ListBits,
        Fault::LeftWords,
        Fault::LeftBytes,
    ];

    pub fn told(self) -> &'static str {
        match self {
            Fault::MissingWord => "missing word",
            Fault::LongBytes => "free bytes over limit",
            Fault::LongBits => "bit list over limit",
            Fault::LongList => "list over limit",
            Fault::NoOption => "no such option",
            Fault::ShortBody => "body too short",
            Fault::Boolean => "wrong boolean",
            Fault::VectorBits => "last byte of a bit vector",
            Fault::ListBits => "last byte of a bit list",
            Fault::LeftWords => "leftover contents",
            Fault::LeftBytes => "leftover bodies",
        }
    }
}

/// 25: 0 for contents or 1 for bodies, and the index.
#[derive(Clone, Copy, Debug, PartialEq, Eq)]
pub struct Wrong {
    pub fault: Fault,
    pub side: u64,
    pub index: u64,
}

fn in_contents(fault: Fault, index: usize) -> Wrong {
    Wrong { fault, side: 0, index: index as u64 }
}

fn in_bodies(fault: Fault, index: usize) -> Wrong {
    Wrong { fault, side: 1, index: index as u64 }
}

/// A walk in preorder.
struct Walk<'a> {
    layout: &'a Layout,
    form: &'a Form,
    word: usize,
    byte: usize,
}

/// The value that the form has. "25 names the first fault in preorder, ... leftover contents next,
/// leftover bodies last."
pub fn value_of(layout: &Layout, form: &Form) -> Result<Value, Wrong> {
    let mut walk = Walk { layout, form, word: 0, byte: 0 };
    let value = walk.item(layout.message().expect("at least one type"))?;
    if walk.word < form.contents.len() {
        return Err(in_contents(Fault::LeftWords, walk.word));
    }
    if walk.byte < form.bodies.len() {
        return Err(in_bodies(Fault::LeftBytes, walk.byte));
    }
    Ok(value)
}

/// The message that the form is written as.
pub fn written(layout: &Layout, form: &Form) -> Result<Vec<u8>, Wrong> {
    let value = value_of(layout, form)?;
    let message = encode(layout, layout.message().expect("at least one type"), &value);
    assert!(message.len() <= u32::MAX as usize, "no record holds the form of such a message");
    Ok(message)
}

impl Walk<'_> {
    /// "Its contents word (missing, over limit, no such option), then its body (too short: the
    /// buffer's length; wrong boolean; last byte of bits)". Readings 37 to 39 give the indices.
    fn item(&mut self, of: Type) -> Result<Value, Wrong> {
        let layout = self.layout;
        match layout.kind(of).expect("a type of the table") {
            Kind::Number(length) | Kind::FixedBytes(length) => {
                self.body(u64::from(*length)).map(Value::Fixed)
            }
            Kind::Boolean => {
                let body = self.body(1)?;
                match body[0] {
                    0 | 1 => Ok(Value::Fixed(body)),
                    _ => Err(in_bodies(Fault::Boolean, self.byte - 1)),
                }
            }
            Kind::FreeBytes(limit) => {
                let length = self.limited(*limit, Fault::LongBytes)?;
                self.body(u64::from(length)).map(Value::Free)
            }
            Kind::BitVector(count) => self.bits(*count, Fault::VectorBits).map(Value::Vector),
            Kind::BitList(limit) => {
                let length = self.limited(*limit, Fault::LongBits)?;
                self.bits(length, Fault::ListBits).map(Value::List)
            }
            Kind::Container(fields) => {
                let values: Result<_, _> = fields.iter().map(|field| self.item(*field)).collect();
                values.map(Value::Row)
            }
            Kind::Vector(element, count) => self.elements(*element, *count).map(Value::Row),
            // "Missing or over the limit 25 as at a leaf, before its elements."
            Kind::List(element, limit) => {
                let count = self.limited(*limit, Fault::LongList)?;
                self.elements(*element, count).map(Value::Elements)
            }
            Kind::Union(options) => {
                let selector = self.limited(options.len() as u32 - 1, Fault::NoOption)?;
                let body = options[selector as usize].map(|of| self.item(of)).transpose()?;
                Ok(Value::Union(selector as u8, body.map(Box::new)))
            }
        }
    }

    /// Each takes a word or a byte, so that a count that is too large soon ends it.
    fn elements(&mut self, element: Type, count: u32) -> Result<Vec<Value>, Wrong> {
        (0..count).map(|_| self.item(element)).collect()
    }

    /// The next contents word, which is at most so much.
    fn limited(&mut self, most: u32, fault: Fault) -> Result<u32, Wrong> {
        let Some(word) = self.form.contents.get(self.word) else {
            return Err(in_contents(Fault::MissingWord, self.form.contents.len()));
        };
        if *word > most {
            return Err(in_contents(fault, self.word));
        }
        self.word += 1;
        Ok(*word)
    }

    fn body(&mut self, length: u64) -> Result<Vec<u8>, Wrong> {
        let left = &self.form.bodies[self.byte..];
        if (left.len() as u64) < length {
            return Err(in_bodies(Fault::ShortBody, self.form.bodies.len()));
        }
        self.byte += length as usize;
        Ok(left[..length as usize].to_vec())
    }

    /// Raw bytes "with zero above the last bit".
    fn bits(&mut self, count: u32, fault: Fault) -> Result<Vec<bool>, Wrong> {
        let raw = self.body(u64::from(count).div_ceil(8).max(1))?;
        let mut bits: Vec<bool> =
            raw.iter().flat_map(|byte| (0..8).map(move |i| byte >> i & 1 == 1)).collect();
        let above = bits.split_off(count as usize);
        if above.contains(&true) {
            return Err(in_bodies(fault, self.byte - 1));
        }
        Ok(bits)
    }
}
