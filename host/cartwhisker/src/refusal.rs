//! Why a message is refused, where, and how to mend it.

use std::fmt;

/// A refusal: its number, the two numbers that belong to it, and the place.
///
/// `a` and `b` are 0 where the refusal has no such number. `type_number` and `start` are those of
/// the item that was refused; lengths and offsets in `a` and `b` are counted from that item's first
/// byte. Refusals 20 to 22 are not about an item: their type and start are 0.
///
/// Its text is one sentence that says what is wrong, where, and how to mend it:
///
/// ```
/// use cartwhisker::Refusal;
///
/// let refusal = Refusal { number: 7, a: 200, b: 0, type_number: 3, start: 0 };
/// assert_eq!(refusal.name(), "OffsetOutOfBounds");
/// assert_eq!(
///     refusal.to_string(),
///     "refusal 7 (OffsetOutOfBounds) in the item of type 3 at byte 0: offset 200 points behind \
///      the item's last byte; let every offset be at most the item's length"
/// );
/// ```
#[derive(Clone, Copy, Debug, PartialEq, Eq, Hash)]
pub struct Refusal {
    pub number: u32,
    pub a: u64,
    pub b: u64,
    pub type_number: u32,
    pub start: u64,
}

impl std::error::Error for Refusal {}

impl Refusal {
    /// The refusal's name, which for 1 to 12 and 15 is the one that the Rust crate gives it.
    pub fn name(&self) -> &'static str {
        match self.number {
            1 => "InvalidByteLength",
            2 => "InvalidLengthPrefix",
            3 => "OutOfBoundsByte",
            4 => "OffsetIntoFixedPortion",
            5 => "OffsetSkipsVariableBytes",
            6 => "OffsetsAreDecreasing",
            7 => "OffsetOutOfBounds",
            8 => "UnionSelectorInvalid",
            9 => "OutOfBounds",
            10 => "MissingLengthInformation",
            11 => "ExcessBits",
            12 => "InvalidByteCount",
            13 => "bad boolean",
            14 => "over limit",
            15 => "InvalidListFixedBytesLen",
            20 => "bad layout",
            21 => "2^32 or more",
            22 => "no room",
            23 => "bad state",
            24 => "limits differ",
            25 => "bad value",
            26 => "builder full",
            _ => "unknown",
        }
    }

    /// What is wrong, as half a sentence.
    pub fn fault(&self) -> String {
        let (a, b) = (self.a, self.b);
        match self.number {
            1 if b == 0 => {
                format!("{} where none may be", counted(a, "byte follows", "bytes follow"))
            }
            1 if a < b => format!("{} where {b} are needed", counted(a, "byte", "bytes")),
            1 if self.list_rest() == 0 => {
                format!("{} where only {b} may be", counted(a, "byte", "bytes"))
            }
            1 => format!("{a} bytes where only {b} may be, or in a list a multiple of {b}"),
            2 => format!(
                "{} where an offset takes {b}",
                counted(a, "byte is left", "bytes are left")
            ),
            3 => "no bytes where a union has its selector".to_string(),
            4 => format!("offset {a} points into the fixed portion"),
            5 => format!("the first offset, {a}, skips bytes behind the fixed portion"),
            6 => format!("offset {a} is below the offset before it"),
            7 => format!("offset {a} points behind the item's last byte"),
            8 if a > 127 => format!("selector {a} is above 127, which is reserved"),
            8 => format!("the union has no option with selector {a}"),
            9 => format!("a bit at {a} or above where there may be {}", counted(b, "bit", "bits")),
            10 => "no bit is set, so that the bit list's length is unknown".to_string(),
            11 => "a bit is set behind the last one, or a bit list has no bytes at all".to_string(),
            12 => format!("bits in {} where {b} hold them", counted(a, "byte", "bytes")),
            13 => format!("a boolean's byte is {a}"),
            14 => format!("the length or count, {a}, is above the limit {b}"),
            15 if a == 0 => "a list's first offset is 0".to_string(),
            15 => format!("a list's first offset, {a}, is no multiple of 4"),
            20 => format!("word {a} of the layout breaks the rules of a table, or is missing"),
            21 => "the length is 2^32 or more, and offsets have 32 bits".to_string(),
            22 => format!("{a} are needed where there is room for {b}"),
            23 => "the state handed in is none that the calls before it give".to_string(),
            24 => "the two bitfields have different limits".to_string(),
            25 => format!("the value's {} are wrong at index {b}", contents_or_bodies(a)),
            26 => format!("the builder holds {a} items already"),
            number => format!("{number} with {a} and {b} is no refusal that this host knows"),
        }
    }

    /// How to mend it, as half a sentence.
    pub fn mend(&self) -> String {
        let (a, b) = (self.a, self.b);
        match self.number {
            1 if a < b => format!("add the {}", counted(b - a, "missing byte", "missing bytes")),
            1 if [0, a - b].contains(&self.list_rest()) => {
                format!("remove the last {}", counted(a - b, "byte", "bytes"))
            }
            1 => format!(
                "remove the last {} bytes, or in a list the last {}",
                a - b,
                self.list_rest()
            ),
            2 => "write the offset of every variable field or element whole".to_string(),
            3 => "write the selector byte of one of its options".to_string(),
            4 => "let the first offset be the length of the fixed portion, and none be below it"
                .to_string(),
            5 => "set it to the length of the fixed portion".to_string(),
            6 => "write variable fields or elements in their order, so that offsets never fall"
                .to_string(),
            7 => "let every offset be at most the item's length".to_string(),
            8 => "write the selector of an option that the layout has".to_string(),
            9 => format!("keep to {}, or raise the limit in the layout", counted(b, "bit", "bits")),
            10 => "set the bit behind the list's last bit".to_string(),
            11 => "clear the bits behind the last one, or write a bit list's shortest body, the byte 1"
                .to_string(),
            12 => format!("write exactly {}", counted(b, "byte", "bytes")),
            13 => "write 0 or 1".to_string(),
            14 => format!("shorten it to at most {b}, or raise the limit in the layout"),
            15 => "set it to 4 times the number of elements, and send no bytes for an empty list"
                .to_string(),
            20 => "correct the table at that word".to_string(),
            21 => "split it into shorter messages".to_string(),
            22 => format!("lend a buffer with room for {a}"),
            23 => "begin anew and hand on just what the calls give back".to_string(),
            24 => "make both with the same limit".to_string(),
            25 => format!("correct its {} there", contents_or_bodies(a)),
            26 => format!("give a container at most {a} fields"),
            _ => "see that host and archive are of one release".to_string(),
        }
    }

    /// Whether the refusal is about an item of the message, so that its type and start say where.
    pub fn has_place(&self) -> bool {
        matches!(self.number, 1..=15)
    }

    /// Of a length that is too long by refusal 1, the bytes behind the last whole element if the
    /// item is a list; 0 if it can be none.
    fn list_rest(&self) -> u64 {
        self.a.checked_rem(self.b).unwrap_or(0)
    }
}

fn counted(count: u64, one: &str, many: &str) -> String {
    format!("{count} {}", if count == 1 { one } else { many })
}

fn contents_or_bodies(a: u64) -> &'static str {
    if a == 0 {
        "contents"
    } else {
        "bodies"
    }
}

impl fmt::Display for Refusal {
    fn fmt(&self, out: &mut fmt::Formatter) -> fmt::Result {
        write!(out, "refusal {} ({})", self.number, self.name())?;
        if self.has_place() {
            write!(out, " in the item of type {} at byte {}", self.type_number, self.start)?;
        }
        write!(out, ": {}; {}", self.fault(), self.mend())
    }
}

#[cfg(test)]
mod tests {
    use super::*;

    const NUMBERS: [u32; 22] =
        [1, 2, 3, 4, 5, 6, 7, 8, 9, 10, 11, 12, 13, 14, 15, 20, 21, 22, 23, 24, 25, 26];

    fn refusal(number: u32, a: u64, b: u64) -> Refusal {
        Refusal { number, a, b, type_number: 5, start: 77 }
    }

    #[test]
    fn every_number_has_a_name_a_fault_and_a_way_to_mend_it() {
        for number in NUMBERS {
            let refusal = refusal(number, 0, 0);
            assert_ne!(refusal.name(), "unknown", "{number}");
            assert!(!refusal.fault().contains("no refusal"), "{number}");
            assert!(!refusal.mend().contains("release"), "{number}");
        }
    }

    #[test]
    fn one_sentence_each() {
        for number in NUMBERS {
            for (a, b) in [(0, 0), (1, 0), (0, 1), (1, 2), (2, 1), (300, 300)] {
                let text = refusal(number, a, b).to_string();
                assert!(!text.contains(". ") && !text.contains('\n') && !text.ends_with('.'));
                assert_eq!(text.matches("; ").count(), 1, "{text}");
            }
        }
    }

    #[test]
    fn only_items_have_a_place() {
        for number in NUMBERS {
            let text = refusal(number, 1, 2).to_string();
            assert_eq!(text.contains("type 5 at byte 77"), number < 20, "{text}");
        }
    }

    #[test]
    fn too_short_and_too_long_are_mended_in_different_ways() {
        assert_eq!(refusal(1, 10, 12).mend(), "add the 2 missing bytes");
        assert_eq!(refusal(1, 13, 12).mend(), "remove the last 1 byte");
        assert_eq!(refusal(1, 2, 0).fault(), "2 bytes follow where none may be");
        assert_eq!(refusal(1, 2, 0).mend(), "remove the last 2 bytes");
    }

    /// The numbers alone do not say whether the item is a list: where it may be one, both are told.
    #[test]
    fn a_list_keeps_its_whole_elements() {
        assert_eq!(refusal(1, 24, 8).fault(), "24 bytes where only 8 may be");
        assert_eq!(refusal(1, 24, 8).mend(), "remove the last 16 bytes");
        let cut = refusal(1, 29, 8);
        assert_eq!(cut.fault(), "29 bytes where only 8 may be, or in a list a multiple of 8");
        assert_eq!(cut.mend(), "remove the last 21 bytes, or in a list the last 5");
        // Here both are the same bytes.
        assert_eq!(refusal(1, 13, 8).mend(), "remove the last 5 bytes");
        assert_eq!(refusal(1, 5, 8).fault(), "5 bytes where 8 are needed");
    }

    #[test]
    fn a_list_s_first_offset() {
        assert_eq!(refusal(15, 0, 0).fault(), "a list's first offset is 0");
        assert_eq!(refusal(15, 6, 0).fault(), "a list's first offset, 6, is no multiple of 4");
        assert_eq!(refusal(15, 6, 0).name(), "InvalidListFixedBytesLen");
    }

    #[test]
    fn a_number_from_a_later_release_is_told_as_it_is() {
        assert!(refusal(99, 1, 2).to_string().contains("99 with 1 and 2"));
    }
}
