//! Layout tables, made from named pieces or taken apart.

use crate::{check_layout, Refusal};

/// A type of a [`Layout`]: what the builder's methods give, and what containers, unions, lists and
/// vectors are made of. It is a number and nothing more: a handle of another layout names whatever type has that
/// number here, or makes a table that is refused.
#[derive(Clone, Copy, Debug, PartialEq, Eq, PartialOrd, Ord, Hash)]
pub struct Type(u32);

impl Type {
    pub fn number(self) -> u32 {
        self.0
    }

    /// The type of this number, as a listing or a refusal names it.
    pub fn from_number(number: u32) -> Self {
        Self(number)
    }
}

/// What a type is.
#[derive(Clone, Debug, PartialEq, Eq, Hash)]
pub enum Kind {
    /// A number of so many bytes: 1, 2, 4, 8, 16 or 32.
    Number(u32),
    /// One byte, 0 or 1.
    Boolean,
    /// So many bytes, at least 1.
    FixedBytes(u32),
    /// At most so many bytes.
    FreeBytes(u32),
    /// So many bits, at least 1.
    BitVector(u32),
    /// At most so many bits.
    BitList(u32),
    /// Its fields, 1 to 64.
    Container(Vec<Type>),
    /// Its options, 1 to 128, by selector. `None` is an option without body.
    Union(Vec<Option<Type>>),
    /// Elements of this type, at most so many.
    List(Type, u32),
    /// Elements of this type, exactly so many, at least 1.
    Vector(Type, u32),
}

/// The option word of an option without body.
const NO_BODY: u32 = u32::MAX;
/// Bytes of an offset.
const OFFSET: u64 = 4;

/// A layout table in the making. The message has the type that is added last.
///
/// Nothing is prevented here: a width of 3, an empty container or a 65th type makes a table that
/// [`check`](crate::check) refuses with number 20 and the number of the bad word.
///
/// ```
/// use cartwhisker::Layout;
///
/// let mut layout = Layout::new();
/// let price = layout.number(8);
/// let note = layout.free_bytes(16);
/// let flags = layout.bit_list(8);
/// layout.container([price, note, flags]);
/// assert_eq!(layout.words(), [4, 5, 7, 9, 11, 0, 8, 3, 16, 5, 8, 6, 3, 0, 1, 2]);
/// assert!(layout.check().is_ok());
///
/// layout.number(3);
/// assert_eq!(layout.check().unwrap_err().number, 20);
/// ```
#[derive(Clone, Debug, Default, PartialEq, Eq, Hash)]
pub struct Layout {
    kinds: Vec<Kind>,
    /// Of each type its length in bytes, if it is fixed.
    lengths: Vec<Option<u64>>,
}

impl Layout {
    pub fn new() -> Self {
        Self::default()
    }

    /// A number of `width` bytes, lowest byte first: 1, 2, 4, 8, 16 or 32.
    pub fn number(&mut self, width: u32) -> Type {
        self.add(Kind::Number(width))
    }

    pub fn boolean(&mut self) -> Type {
        self.add(Kind::Boolean)
    }

    /// Exactly `length` bytes.
    pub fn fixed_bytes(&mut self, length: u32) -> Type {
        self.add(Kind::FixedBytes(length))
    }

    /// At most `limit` bytes.
    pub fn free_bytes(&mut self, limit: u32) -> Type {
        self.add(Kind::FreeBytes(limit))
    }

    /// Exactly `bits` bits.
    pub fn bit_vector(&mut self, bits: u32) -> Type {
        self.add(Kind::BitVector(bits))
    }

    /// At most `limit` bits.
    pub fn bit_list(&mut self, limit: u32) -> Type {
        self.add(Kind::BitList(limit))
    }

    pub fn container(&mut self, fields: impl IntoIterator<Item = Type>) -> Type {
        self.add(Kind::Container(fields.into_iter().collect()))
    }

    /// The options by selector, from 0 on; `None` is an option without body.
    ///
    /// ```
    /// use cartwhisker::{check, Layout};
    ///
    /// let mut layout = Layout::new();
    /// let price = layout.number(2);
    /// layout.union([None, Some(price)]);
    /// assert!(check(&layout.bytes(), &[0]).is_ok());
    /// assert!(check(&layout.bytes(), &[1, 42, 0]).is_ok());
    /// assert_eq!(check(&layout.bytes(), &[2]).unwrap_err().number, 8);
    /// ```
    pub fn union(&mut self, options: impl IntoIterator<Item = Option<Type>>) -> Type {
        self.add(Kind::Union(options.into_iter().collect()))
    }

    /// At most `limit` elements.
    ///
    /// ```
    /// use cartwhisker::{check, Layout};
    ///
    /// let mut layout = Layout::new();
    /// let transaction = layout.free_bytes(1000);
    /// layout.list(transaction, 2);
    /// assert_eq!(layout.words(), [2, 3, 5, 3, 1000, 8, 0, 2]);
    /// assert!(check(&layout.bytes(), &[]).is_ok());
    /// assert!(check(&layout.bytes(), &[8, 0, 0, 0, 10, 0, 0, 0, 0xaa, 0xbb, 0xcc]).is_ok());
    /// assert_eq!(check(&layout.bytes(), &[12, 0, 0, 0].repeat(3)).unwrap_err().number, 14);
    /// ```
    pub fn list(&mut self, element: Type, limit: u32) -> Type {
        self.add(Kind::List(element, limit))
    }

    /// Exactly `count` elements. A vector is fixed if its element is.
    ///
    /// ```
    /// use cartwhisker::{check, Layout};
    ///
    /// let mut layout = Layout::new();
    /// let price = layout.number(2);
    /// let prices = layout.vector(price, 3);
    /// assert_eq!(layout.fixed_length(prices), Some(6));
    /// assert!(check(&layout.bytes(), &[1, 0, 2, 0, 3, 0]).is_ok());
    /// layout.vector(price, 0);
    /// assert_eq!(layout.check().unwrap_err().number, 20);
    /// ```
    pub fn vector(&mut self, element: Type, count: u32) -> Type {
        self.add(Kind::Vector(element, count))
    }

    /// Adds a type of this kind.
    pub fn add(&mut self, kind: Kind) -> Type {
        self.lengths.push(self.length_of(&kind));
        self.kinds.push(kind);
        Type(self.kinds.len() as u32 - 1)
    }

    fn length_of(&self, kind: &Kind) -> Option<u64> {
        match kind {
            Kind::Number(width) => Some(u64::from(*width)),
            Kind::Boolean => Some(1),
            Kind::FixedBytes(length) => Some(u64::from(*length)),
            Kind::BitVector(bits) => Some(u64::from(*bits).div_ceil(8).max(1)),
            // Nested containers and vectors can be longer than a word holds; such a table is
            // refused, so it does not matter which large number stands here.
            Kind::Vector(element, count) => {
                Some(self.fixed_length(*element)?.saturating_mul(u64::from(*count)))
            }
            Kind::Container(fields) => fields
                .iter()
                .try_fold(0_u64, |sum, field| Some(sum.saturating_add(self.fixed_length(*field)?))),
            Kind::FreeBytes(_) | Kind::BitList(_) | Kind::Union(_) | Kind::List(..) => None,
        }
    }

    /// The types from number 0 on.
    pub fn kinds(&self) -> &[Kind] {
        &self.kinds
    }

    pub fn kind(&self, of: Type) -> Option<&Kind> {
        self.kinds.get(of.0 as usize)
    }

    /// The length of the type's items, or `None` if they have different ones.
    pub fn fixed_length(&self, of: Type) -> Option<u64> {
        self.lengths.get(of.0 as usize).copied().flatten()
    }

    /// What the type takes in a container's fixed portion, and each element in a list's or vector's:
    /// its length, or an offset's.
    pub fn head(&self, of: Type) -> u64 {
        self.fixed_length(of).unwrap_or(OFFSET)
    }

    /// How many elements an accepted item has, if its type is a list or vector: a vector has as many
    /// as the table says, and a list shows by its length or by its first offset.
    ///
    /// ```
    /// use cartwhisker::Layout;
    ///
    /// let mut layout = Layout::new();
    /// let transaction = layout.free_bytes(1000);
    /// let list = layout.list(transaction, 2);
    /// assert_eq!(layout.element_count(list, &[8, 0, 0, 0, 10, 0, 0, 0, 0xaa, 0xbb]), Some(2));
    /// assert_eq!(layout.element_count(list, &[]), Some(0));
    /// assert_eq!(layout.element_count(transaction, &[]), None);
    /// ```
    pub fn element_count(&self, of: Type, item: &[u8]) -> Option<usize> {
        match self.kind(of)? {
            Kind::Vector(_, count) => Some(*count as usize),
            Kind::List(element, _) => Some(match self.fixed_length(*element) {
                Some(length) => (item.len() as u64).checked_div(length).unwrap_or(0) as usize,
                None => crate::words(item).next().unwrap_or(0) as usize / OFFSET as usize,
            }),
            _ => None,
        }
    }

    /// The type of the message, if there is one.
    pub fn message(&self) -> Option<Type> {
        self.kinds.len().checked_sub(1).map(|last| Type(last as u32))
    }

    /// The layout whose message has the type `last`: the types up to it.
    pub fn up_to(&self, last: Type) -> Layout {
        let count = (last.0 as usize + 1).min(self.kinds.len());
        Layout { kinds: self.kinds[..count].to_vec(), lengths: self.lengths[..count].to_vec() }
    }

    /// The table's words: the number of types, where each body starts, and the bodies.
    pub fn words(&self) -> Vec<u32> {
        let bodies: Vec<Vec<u32>> = self.kinds.iter().map(body).collect();
        let mut words = vec![self.kinds.len() as u32];
        let mut start = self.kinds.len() + 1;
        for body in &bodies {
            words.push(start as u32);
            start += body.len();
        }
        words.extend(bodies.concat());
        words
    }

    /// The words as little-endian bytes, the form that every call takes.
    pub fn bytes(&self) -> Vec<u8> {
        self.words().iter().flat_map(|word| word.to_le_bytes()).collect()
    }

    /// Whether the table is legal; if not, refusal 20 with its first bad word.
    pub fn check(&self) -> Result<(), Refusal> {
        check_layout(&self.bytes())
    }

    /// Takes a legal table apart.
    ///
    /// ```
    /// use cartwhisker::{Kind, Layout};
    ///
    /// let mut layout = Layout::new();
    /// layout.bit_vector(9);
    /// let again = Layout::read(&layout.bytes()).unwrap();
    /// assert_eq!(again.kinds(), [Kind::BitVector(9)]);
    /// ```
    pub fn read(table: &[u8]) -> Result<Layout, Refusal> {
        check_layout(table)?;
        let words: Vec<u32> = crate::words(table).collect();
        let mut layout = Layout::new();
        // The table is legal: each body is there, whole, and its words mean what is read here.
        for start in &words[1..=words[0] as usize] {
            let body = &words[*start as usize..];
            let named = |body: &[u32]| body[2..2 + body[1] as usize].to_vec();
            layout.add(match body[0] {
                0 => Kind::Number(body[1]),
                1 => Kind::Boolean,
                2 => Kind::FixedBytes(body[1]),
                3 => Kind::FreeBytes(body[1]),
                4 => Kind::BitVector(body[1]),
                5 => Kind::BitList(body[1]),
                6 => Kind::Container(named(body).into_iter().map(Type).collect()),
                7 => Kind::Union(named(body).into_iter().map(option).collect()),
                8 => Kind::List(Type(body[1]), body[2]),
                _ => Kind::Vector(Type(body[1]), body[2]),
            });
        }
        Ok(layout)
    }
}

fn option(word: u32) -> Option<Type> {
    (word != NO_BODY).then_some(Type(word))
}

fn body(kind: &Kind) -> Vec<u32> {
    match kind {
        Kind::Number(width) => vec![0, *width],
        Kind::Boolean => vec![1],
        Kind::FixedBytes(length) => vec![2, *length],
        Kind::FreeBytes(limit) => vec![3, *limit],
        Kind::BitVector(bits) => vec![4, *bits],
        Kind::BitList(limit) => vec![5, *limit],
        Kind::Container(fields) => {
            let mut words = vec![6, fields.len() as u32];
            words.extend(fields.iter().map(|field| field.0));
            words
        }
        Kind::Union(options) => {
            let mut words = vec![7, options.len() as u32];
            words.extend(options.iter().map(|option| option.map_or(NO_BODY, |body| body.0)));
            words
        }
        Kind::List(element, limit) => vec![8, element.0, *limit],
        Kind::Vector(element, count) => vec![9, element.0, *count],
    }
}
