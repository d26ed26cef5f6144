//! What the oracle's serde parts ask of `serde_utils`: text of bytes in hexadecimal, and back.
//!
//! No comparison goes through here. It does what its name says all the same, so that nobody who
//! runs into it later is misled.

pub mod hex {
    use serde::de::{Error, Visitor};
    use std::fmt;

    /// The bytes as `0x` and two digits each.
    pub fn encode<T: AsRef<[u8]>>(data: T) -> String {
        let digits = data.as_ref().iter().map(|byte| format!("{byte:02x}"));
        std::iter::once("0x".to_string()).chain(digits).collect()
    }

    /// Reads what `encode` writes.
    pub struct PrefixedHexVisitor;

    impl Visitor<'_> for PrefixedHexVisitor {
        type Value = Vec<u8>;

        fn expecting(&self, out: &mut fmt::Formatter) -> fmt::Result {
            out.write_str("bytes in hexadecimal behind 0x")
        }

        fn visit_str<E: Error>(self, text: &str) -> Result<Vec<u8>, E> {
            let digits = text.strip_prefix("0x").ok_or_else(|| E::custom("no 0x in front"))?;
            if !digits.is_ascii() || digits.len() % 2 != 0 {
                return Err(E::custom("no whole number of bytes"));
            }
            (0..digits.len())
                .step_by(2)
                .map(|i| u8::from_str_radix(&digits[i..i + 2], 16).map_err(E::custom))
                .collect()
        }
    }
}
