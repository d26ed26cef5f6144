//! The pieces of a message: whose bytes they are, and which of them a refusal is about.
//!
//! What is accepted is taken from the listing. In a refused message the way to the refused item is
//! found by asking the check about each item on it alone: every container, list and vector above it
//! is sound in itself, so the places of its fields or elements are known.

use cartwhisker::{owners, Kind, Layout, Part, Path, Refusal, Step, Type};
use std::ops::Range;

#[derive(Clone, Copy, Debug, PartialEq, Eq)]
pub enum Look {
    Offset,
    Selector,
    Leaf,
    /// Behind the refusal: not looked at.
    Unread,
}

#[derive(Clone, Debug)]
pub struct Piece {
    pub bytes: Range<usize>,
    pub look: Look,
    pub path: String,
    pub text: String,
}

#[derive(Default)]
pub struct Picture {
    pub pieces: Vec<Piece>,
    /// The bytes that the refusal is about. An empty range is a place where bytes are missing.
    pub mark: Option<Range<usize>>,
    pub advice: Vec<String>,
}

pub fn of(layout: &Layout, message: &[u8]) -> Picture {
    let mut walk = Walk { layout, message, picture: Picture::default() };
    if let Some(of) = layout.message() {
        walk.item(of, 0..message.len(), &Path::default());
    }
    let mut picture = walk.picture;
    // Fields are walked in their order; a stable sort puts them in the order of their bytes.
    picture.pieces.sort_by_key(|piece| piece.bytes.start);
    picture
}

struct Walk<'a> {
    layout: &'a Layout,
    message: &'a [u8],
    picture: Picture,
}

impl Walk<'_> {
    fn push(&mut self, bytes: Range<usize>, look: Look, path: &Path, text: String) {
        self.picture.pieces.push(Piece { bytes, look, path: path.to_string(), text });
    }

    fn refused(&self) -> bool {
        self.picture.mark.is_some()
    }

    fn kind(&self, of: Type) -> Kind {
        self.layout.kind(of).expect("a type of a legal table").clone()
    }

    fn offset(&self, at: usize) -> usize {
        let word = self.message[at..at + 4].try_into().expect("four bytes");
        u32::from_le_bytes(word) as usize
    }

    fn item(&mut self, of: Type, bytes: Range<usize>, path: &Path) {
        if self.refused() {
            let text = format!("{}, behind the refusal", self.described(of));
            return self.push(bytes, Look::Unread, path, text);
        }
        let refusal = match owners(&self.layout.up_to(of), &self.message[bytes.clone()]) {
            Ok(found) => {
                for owner in found {
                    let start = bytes.start + owner.start as usize;
                    let end = bytes.start + owner.end as usize;
                    let steps = path.0.iter().chain(&owner.path.0).copied().collect();
                    self.owned(start..end, owner.part, owner.of, &Path(steps));
                }
                return;
            }
            Err(refusal) => refusal,
        };
        // Items inside have lower types, so this type is the item's own.
        if refusal.type_number == of.number() {
            return self.culprit(of, bytes, path, refusal);
        }
        match self.kind(of) {
            Kind::Container(fields) => self.parts(&fields, bytes, path, Step::Field),
            Kind::List(element, _) | Kind::Vector(element, _) => {
                let count = self.layout.element_count(of, &self.message[bytes.clone()]);
                let elements = vec![element; count.expect("a list or vector")];
                self.parts(&elements, bytes, path, Step::Element);
            }
            Kind::Union(options) => {
                let selector = self.message[bytes.start];
                self.owned(bytes.start..bytes.start + 1, Part::Selector, of, path);
                if let Some(body) = options[usize::from(selector)] {
                    let path = path.with(Step::Option(selector));
                    self.item(body, bytes.start + 1..bytes.end, &path);
                }
            }
            _ => unreachable!("a leaf has no item inside"),
        }
    }

    /// The fields of a container, or the elements of a list or vector, that is sound in itself.
    fn parts(&mut self, types: &[Type], bytes: Range<usize>, path: &Path, step: fn(u32) -> Step) {
        let heads = self.heads(types, &bytes);
        let offsets: Vec<usize> = types
            .iter()
            .zip(&heads)
            .filter(|(of, _)| self.layout.fixed_length(**of).is_none())
            .map(|(_, head)| bytes.start + self.offset(head.start))
            .collect();
        let mut ends = offsets.iter().skip(1).copied().chain([bytes.end]);
        let mut starts = offsets.iter().copied();
        for (number, (of, head)) in types.iter().zip(heads).enumerate() {
            let path = path.with(step(number as u32));
            if self.layout.fixed_length(*of).is_some() {
                self.item(*of, head, &path);
            } else {
                self.owned(head, Part::Offset, *of, &path);
                let (start, end) = starts.next().zip(ends.next()).expect("an offset for each");
                self.item(*of, start..end, &path);
            }
        }
    }

    /// What each field or element takes in the fixed portion, whether or not the bytes are there.
    fn heads(&self, types: &[Type], bytes: &Range<usize>) -> Vec<Range<usize>> {
        let mut start = bytes.start;
        let mut next = |of: &Type| {
            let head = start..start + self.layout.head(*of) as usize;
            start = head.end;
            head
        };
        types.iter().map(&mut next).collect()
    }

    /// The item that the refusal is about.
    fn culprit(&mut self, of: Type, bytes: Range<usize>, path: &Path, refusal: Refusal) {
        let (a, b) = (refusal.a as usize, refusal.b as usize);
        let kind = self.kind(of);
        match &kind {
            Kind::Container(_) => return self.row_culprit(of, bytes, path, refusal),
            Kind::List(element, _) | Kind::Vector(element, _) => {
                return match self.layout.fixed_length(*element) {
                    Some(_) => self.length_culprit(of, *element, bytes, path, refusal),
                    None => self.row_culprit(of, bytes, path, refusal),
                };
            }
            _ => (),
        }
        let whole = bytes.clone();
        let (text, mark) = match (&kind, refusal.number) {
            (Kind::Union(_), 3) => (String::new(), whole),
            (Kind::Union(options), 8) => {
                self.advice_options(options);
                (self.described(of), whole.start..whole.start + 1)
            }
            (Kind::Union(_), _) => {
                self.owned(whole.start..whole.start + 1, Part::Selector, of, path);
                let rest = whole.start + 1..whole.end;
                let text = "bytes behind an option without body".to_string();
                self.push(rest.clone(), Look::Unread, path, text);
                self.picture.mark = Some(rest);
                return;
            }
            // Too long: what is too much; too short: the place behind the last byte.
            (_, 1 | 12 | 14) if a > b => (self.described(of), whole.start + b..whole.end),
            (_, 1 | 12) => (self.described(of), whole.end..whole.end),
            // The bits from number a on, up to the one that gives the length.
            (_, 9) => (self.described(of), whole.start + a / 8..whole.end),
            (Kind::BitVector(bits), 11) => {
                let used = bits % 8;
                let last = format!(
                    "The last byte holds {used} bits: its upper {} must be zero.",
                    8 - used
                );
                self.picture.advice.push(last);
                (self.described(of), whole.end - 1..whole.end)
            }
            (Kind::BitList(_), 11) => {
                let least =
                    "A bit list has at least one byte: its last one holds the set bit that \
                             stands behind its last bit.";
                self.picture.advice.push(least.to_string());
                (format!("{}, without bytes", self.described(of)), whole)
            }
            _ => (self.described(of), whole),
        };
        let look = if matches!(kind, Kind::Union(_)) { Look::Selector } else { Look::Leaf };
        if !text.is_empty() {
            let end = if look == Look::Selector { bytes.start + 1 } else { bytes.end };
            self.push(bytes.start..end, look, path, text);
            if end < bytes.end {
                let text = "behind the refusal".to_string();
                self.push(end..bytes.end, Look::Unread, path, text);
            }
        }
        self.picture.mark = Some(mark);
    }

    fn advice_options(&mut self, options: &[Option<Type>]) {
        let told: Vec<String> = options
            .iter()
            .enumerate()
            .map(|(selector, option)| match option {
                Some(of) => format!("{selector} ({})", self.described(*of)),
                None => format!("{selector} (no body)"),
            })
            .collect();
        self.picture.advice.push(format!("The union's selectors: {}.", told.join(", ")));
    }

    /// A list or vector of fixed elements whose own length or count is refused.
    fn length_culprit(
        &mut self,
        of: Type,
        element: Type,
        bytes: Range<usize>,
        path: &Path,
        refusal: Refusal,
    ) {
        let (length, b) = (bytes.len(), refusal.b as usize);
        let each = self.layout.head(element) as usize;
        let whole = length / each;
        // How much may stay, and what the bytes behind it are.
        let (kept, behind, text) = match (self.kind(of), refusal.number) {
            (Kind::List(..), 1) => {
                let cut = format!("cut after {} of {each} bytes", length % each);
                let cut = format!("{}, {cut}", self.described(element));
                (whole * each, path.with(Step::Element(whole as u32)), cut)
            }
            (_, 1) => (b.min(length), path.clone(), "behind the last element".to_string()),
            _ => (b * each, path.clone(), format!("{} elements too many", whole - b)),
        };
        let middle = bytes.start + kept;
        let first = format!("{}, not looked at", self.described(of));
        for (part, path, text) in
            [(bytes.start..middle, path, first), (middle..bytes.end, &behind, text)]
        {
            if !part.is_empty() {
                self.push(part, Look::Unread, path, text);
            }
        }
        let unit = if each == 1 { "byte" } else { "bytes" };
        self.picture.advice.push(format!(
            "Each element of {path} takes {each} {unit}; it has {length} bytes in all."
        ));
        self.picture.mark = Some(middle..bytes.end);
    }

    /// The fixed portion of a container, list or vector, as far as the bytes say what it is: its
    /// types, and its whole length.
    fn row(&self, of: Type, bytes: &Range<usize>, refusal: &Refusal) -> (Vec<Type>, usize) {
        match self.kind(of) {
            Kind::Container(fields) => {
                let portion = fields.iter().map(|field| self.layout.head(*field) as usize).sum();
                (fields, portion)
            }
            // More elements than there are bytes for are not shown.
            Kind::Vector(element, count) => {
                let count = count as usize;
                (vec![element; count.min(bytes.len() / 4 + 1)], 4 * count)
            }
            Kind::List(element, _) => {
                // The first offset says how many there are, unless it is bad itself.
                let first = if bytes.len() < 4 { 0 } else { self.offset(bytes.start) };
                let bad = matches!(refusal.number, 2 | 15) || first > bytes.len();
                let count = if bad { 1 } else { first / 4 };
                (vec![element; count], 4 * count)
            }
            _ => unreachable!("a leaf or a union has no fixed portion"),
        }
    }

    /// A container, list or vector whose own shape is refused: its fixed portion as far as the bytes
    /// reach.
    fn row_culprit(&mut self, of: Type, bytes: Range<usize>, path: &Path, refusal: Refusal) {
        let (types, portion) = self.row(of, &bytes, &refusal);
        let heads = self.heads(&types, &bytes);
        let portion = bytes.start + portion;
        let (a, b) = (refusal.a as usize, refusal.b as usize);
        let mark = match refusal.number {
            1 if a > b => portion..bytes.end,
            1 => bytes.end..bytes.end,
            2 => bytes.end - a..bytes.end,
            // The offsets of the elements above the limit.
            14 => heads[b].start..portion,
            number => self.bad_offset(&types, &heads, number, a).unwrap_or(bytes.clone()),
        };
        let told = self.told_of_row(of, portion - bytes.start, bytes.len(), path, &refusal);
        self.picture.advice.push(told);
        self.row_pieces(of, &types, &heads, bytes.clone(), path);
        if portion < bytes.end {
            let list = matches!(self.kind(of), Kind::List(..));
            let what = match types.len() {
                1 if list => "first offset",
                _ if list => "offsets",
                _ => "fixed portion",
            };
            let text = format!("behind the {what}, not looked at");
            self.push(portion..bytes.end, Look::Unread, path, text);
        }
        self.picture.mark = Some(mark);
    }

    /// The parts of a fixed portion, as far as there are bytes.
    fn row_pieces(
        &mut self,
        of: Type,
        types: &[Type],
        heads: &[Range<usize>],
        bytes: Range<usize>,
        path: &Path,
    ) {
        let container = matches!(self.kind(of), Kind::Container(_));
        let step = if container { Step::Field } else { Step::Element };
        for (number, (field, head)) in types.iter().zip(heads).enumerate() {
            let path = path.with(step(number as u32));
            let there = head.start.min(bytes.end)..head.end.min(bytes.end);
            if there.is_empty() {
                break;
            }
            if there != *head {
                let what = match self.layout.fixed_length(*field) {
                    Some(_) => self.described(*field),
                    None => "offset".to_string(),
                };
                let text = format!("{what}, cut after {} of {} bytes", there.len(), head.len());
                self.push(there, Look::Unread, &path, text);
            } else if self.layout.fixed_length(*field).is_some() {
                let text = format!("{}, not looked at", self.described(*field));
                self.push(there, Look::Unread, &path, text);
            } else {
                self.owned(there, Part::Offset, *field, &path);
            }
        }
    }

    /// What helps to mend the fixed portion, so long, of an item of so many bytes.
    fn told_of_row(
        &self,
        of: Type,
        portion: usize,
        length: usize,
        path: &Path,
        refusal: &Refusal,
    ) -> String {
        let kind = self.kind(of);
        let noun = match kind {
            Kind::Container(_) => "container",
            Kind::List(..) => "list",
            _ => "vector",
        };
        match (kind, refusal.number) {
            (Kind::List(..), 14) => {
                format!("The list {path} has {} elements and may have {}.", refusal.a, refusal.b)
            }
            (Kind::List(..), 2 | 15) => format!(
                "The list {path} begins with an offset of 4 bytes for each element; it has {length} \
                 bytes in all."
            ),
            (_, 6 | 7) => format!("The {noun} {path} has {length} bytes."),
            _ => format!(
                "The fixed portion of {path} ({}) takes {portion} bytes; it has {length} bytes in all.",
                self.described(of)
            ),
        }
    }

    /// The offset that refusal 4, 5, 6, 7 or 15 is about.
    fn bad_offset(
        &self,
        types: &[Type],
        heads: &[Range<usize>],
        number: u32,
        value: usize,
    ) -> Option<Range<usize>> {
        let mut before = 0;
        for (of, head) in types.iter().zip(heads) {
            if self.layout.fixed_length(*of).is_some() {
                continue;
            }
            let offset = self.offset(head.start);
            let found = match number {
                6 => offset == value && offset < before,
                _ => offset == value,
            };
            if found {
                return Some(head.clone());
            }
            before = offset;
        }
        None
    }

    fn owned(&mut self, bytes: Range<usize>, part: Part, of: Type, path: &Path) {
        let (look, text) = match part {
            Part::Offset => (Look::Offset, format!("offset {}", self.offset(bytes.start))),
            Part::Selector => (Look::Selector, self.selector(bytes.start, of)),
            Part::Leaf => {
                let value = self.value(of, &self.message[bytes.clone()]);
                (Look::Leaf, format!("{}{value}", self.described(of)))
            }
        };
        self.push(bytes, look, path, text);
    }

    fn selector(&self, at: usize, of: Type) -> String {
        let selector = self.message[at];
        let Some(Kind::Union(options)) = self.layout.kind(of) else {
            return format!("selector {selector}");
        };
        let bare = options.get(usize::from(selector)).is_some_and(|option| option.is_none());
        format!("selector {selector}{}", if bare { ", an option without body" } else { "" })
    }

    fn described(&self, of: Type) -> String {
        let what = crate::table::described(&self.kind(of));
        format!("{what} (type {})", of.number())
    }

    /// The value of a leaf, as far as a line has room for it.
    fn value(&self, of: Type, bytes: &[u8]) -> String {
        match self.kind(of) {
            Kind::Number(width) if width <= 16 => {
                let mut wide = [0; 16];
                wide[..bytes.len()].copy_from_slice(bytes);
                format!(": {}", u128::from_le_bytes(wide))
            }
            Kind::Boolean => format!(": {}", bytes[0] == 1),
            Kind::FreeBytes(_) => {
                format!(": {} byte{}", bytes.len(), if bytes.len() == 1 { "" } else { "s" })
            }
            Kind::BitVector(bits) => format!(": {}", bits_of(bytes, bits as usize)),
            Kind::BitList(_) => {
                let last = bytes.last().copied().unwrap_or(1);
                let bits = bytes.len() * 8 - 1 - last.leading_zeros() as usize;
                let text = bits_of(bytes, bits);
                let noun = if bits == 1 { "bit" } else { "bits" };
                format!(": {bits} {noun}{}{text}", if bits == 0 { "" } else { " " })
            }
            Kind::List(..) => ": no elements".to_string(),
            _ => String::new(),
        }
    }
}

/// The first bits, lowest first.
fn bits_of(bytes: &[u8], count: usize) -> String {
    const SHOWN: usize = 48;
    let bit = |i: usize| if bytes[i / 8] >> (i % 8) & 1 == 1 { '1' } else { '0' };
    let mut text: String = (0..count.min(SHOWN)).map(bit).collect();
    if count > SHOWN {
        text += "..";
    }
    text
}
