//! Who owns which byte of an accepted message.

use crate::{listing, Kind, Layout, Record, Refusal, Type};
use std::fmt;
use std::slice::Iter;

/// A step from an item to one inside of it.
#[derive(Clone, Copy, Debug, PartialEq, Eq, Hash)]
pub enum Step {
    /// Into this field of a container.
    Field(u32),
    /// Into the body of a union, which has this selector.
    Option(u8),
    /// Into this element of a list or vector.
    Element(u32),
}

/// The way from the message to an item: `message.1#2.0[7]` is element 7 of field 0 of the body with
/// selector 2 of field 1.
#[derive(Clone, Debug, Default, PartialEq, Eq, Hash)]
pub struct Path(pub Vec<Step>);

impl Path {
    pub fn with(&self, step: Step) -> Path {
        let mut steps = self.0.clone();
        steps.push(step);
        Path(steps)
    }
}

impl fmt::Display for Path {
    fn fmt(&self, out: &mut fmt::Formatter) -> fmt::Result {
        write!(out, "message")?;
        for step in &self.0 {
            match step {
                Step::Field(number) => write!(out, ".{number}")?,
                Step::Option(selector) => write!(out, "#{selector}")?,
                Step::Element(number) => write!(out, "[{number}]")?,
            }
        }
        Ok(())
    }
}

/// What a run of bytes is.
#[derive(Clone, Copy, Debug, PartialEq, Eq, Hash)]
pub enum Part {
    /// The offset of the variable field or element at the path.
    Offset,
    /// The selector of the union at the path.
    Selector,
    /// The item at the path, which has no items inside: no container, no union, and a list only if
    /// it is empty.
    Leaf,
}

/// A run of bytes that belong together, from `start` up to but not including `end`.
#[derive(Clone, Debug, PartialEq, Eq, Hash)]
pub struct Owner {
    pub start: u32,
    pub end: u32,
    pub part: Part,
    /// The type of the item at the path.
    pub of: Type,
    pub path: Path,
}

/// The owners of an accepted message's bytes, from its first byte to its last: each starts where
/// the one before it ended. A leaf without bytes is there too.
///
/// ```
/// use cartwhisker::{owners, Layout, Part};
///
/// let mut layout = Layout::new();
/// let note = layout.free_bytes(16);
/// layout.container([note]);
/// let found = owners(&layout, &[4, 0, 0, 0, 7, 8]).unwrap();
/// assert_eq!((found[0].start, found[0].end, found[0].part), (0, 4, Part::Offset));
/// assert_eq!((found[1].start, found[1].end, found[1].part), (4, 6, Part::Leaf));
/// assert_eq!(found[1].path.to_string(), "message.0");
/// ```
pub fn owners(layout: &Layout, message: &[u8]) -> Result<Vec<Owner>, Refusal> {
    let records = listing(&layout.bytes(), message)?;
    let mut walk = Walk { layout, message, records: records.iter() };
    Ok(walk.item(&Path::default()))
}

/// A walk along the listing, which has the items in preorder. That the layout is legal and the
/// message accepted is known, so every record that the layout asks for is there.
struct Walk<'a> {
    layout: &'a Layout,
    message: &'a [u8],
    records: Iter<'a, Record>,
}

impl Walk<'_> {
    fn item(&mut self, path: &Path) -> Vec<Owner> {
        let record = *self.records.next().expect("a record for each item");
        let of = record.type_handle();
        let owner = |end, part| Owner { start: record.start, end, part, of, path: path.clone() };
        match self.layout.kind(of) {
            Some(Kind::Container(fields)) => self.parts(record, fields, path, Step::Field),
            Some(Kind::List(element, _) | Kind::Vector(element, _))
                if record.start < record.end =>
            {
                let count = self.layout.element_count(of, record.bytes(self.message));
                let elements = vec![*element; count.expect("a list or vector")];
                self.parts(record, &elements, path, Step::Element)
            }
            Some(Kind::Union(options)) => {
                let selector = self.message[record.start as usize];
                let mut found = vec![owner(record.start + 1, Part::Selector)];
                if options[usize::from(selector)].is_some() {
                    found.extend(self.item(&path.with(Step::Option(selector))));
                }
                found
            }
            _ => vec![owner(record.end, Part::Leaf)],
        }
    }

    /// A container's fields or the elements of a list or vector: fixed ones and offsets come first,
    /// then the variable ones, both in their order.
    fn parts(
        &mut self,
        whole: Record,
        types: &[Type],
        path: &Path,
        step: fn(u32) -> Step,
    ) -> Vec<Owner> {
        let mut fixed = Vec::new();
        let mut variable = Vec::new();
        let mut start = whole.start;
        for (number, of) in types.iter().enumerate() {
            let end = start + self.layout.head(*of) as u32;
            let path = path.with(step(number as u32));
            let inside = self.item(&path);
            if self.layout.fixed_length(*of).is_some() {
                fixed.extend(inside);
            } else {
                fixed.push(Owner { start, end, part: Part::Offset, of: *of, path });
                variable.extend(inside);
            }
            start = end;
        }
        fixed.extend(variable);
        fixed
    }
}
