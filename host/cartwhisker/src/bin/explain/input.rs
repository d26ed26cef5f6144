//! What is asked: a layout, and mostly a message.

use std::fs;
use std::io::{self, Read};

#[derive(Debug, PartialEq)]
pub struct Asked {
    pub layout: Vec<u8>,
    pub message: Option<Vec<u8>>,
}

pub fn parse(arguments: &[String]) -> Result<Asked, String> {
    let (mut layout, mut message) = (None, None);
    let mut rest = arguments.iter();
    while let Some(argument) = rest.next() {
        let mut value = || rest.next().ok_or(format!("{argument} lacks its value"));
        match argument.as_str() {
            "--words" => once(&mut layout, words(value()?)?, "layout")?,
            "--hex" => once(&mut message, hex(value()?)?, "message")?,
            name if name.starts_with("--") => return Err(format!("unknown option {name}")),
            name if layout.is_none() => layout = Some(file(name)?),
            name => once(&mut message, file(name)?, "message")?,
        }
    }
    Ok(Asked { layout: layout.ok_or("there is no layout")?, message })
}

fn once(place: &mut Option<Vec<u8>>, bytes: Vec<u8>, what: &str) -> Result<(), String> {
    if place.replace(bytes).is_some() {
        return Err(format!("more than one {what}"));
    }
    Ok(())
}

fn file(name: &str) -> Result<Vec<u8>, String> {
    let read = if name == "-" {
        let mut bytes = Vec::new();
        io::stdin().read_to_end(&mut bytes).map(|_| bytes)
    } else {
        fs::read(name)
    };
    read.map_err(|error| format!("{name}: {error}"))
}

/// Words in decimal, with spaces or commas between them.
fn words(text: &str) -> Result<Vec<u8>, String> {
    let mut bytes = Vec::new();
    for word in text.split([' ', ',', '\n', '\t']).filter(|word| !word.is_empty()) {
        let number: u32 = word.parse().map_err(|_| format!("no word of 32 bits: {word}"))?;
        bytes.extend(number.to_le_bytes());
    }
    Ok(bytes)
}

/// Pairs of hexadecimal digits. Spaces, commas and a leading 0x are passed over.
fn hex(text: &str) -> Result<Vec<u8>, String> {
    let text = text.trim();
    let text = text.strip_prefix("0x").unwrap_or(text);
    let mut digits = Vec::new();
    for letter in text.chars().filter(|letter| !letter.is_whitespace() && *letter != ',') {
        digits.push(letter.to_digit(16).ok_or(format!("no hexadecimal digit: {letter}"))? as u8);
    }
    if digits.len() % 2 != 0 {
        return Err("an odd number of hexadecimal digits".to_string());
    }
    Ok(digits.chunks_exact(2).map(|pair| pair[0] << 4 | pair[1]).collect())
}

#[cfg(test)]
mod tests {
    use super::*;

    fn parsed(arguments: &[&str]) -> Result<Asked, String> {
        parse(&arguments.iter().map(|text| text.to_string()).collect::<Vec<String>>())
    }

    #[test]
    fn words_and_digits() {
        let asked = parsed(&["--words", "1, 258", "--hex", "0x2A 00ff"]).unwrap();
        assert_eq!(asked.layout, [1, 0, 0, 0, 2, 1, 0, 0]);
        assert_eq!(asked.message, Some(vec![0x2a, 0, 0xff]));
        assert_eq!(parsed(&["--words", "1"]).unwrap().message, None);
        assert_eq!(parsed(&["--words", "1", "--hex", ""]).unwrap().message, Some(vec![]));
    }

    #[test]
    fn what_is_not_asked_rightly() {
        for wrong in [
            &[][..],
            &["--hex", "00"],
            &["--words"],
            &["--words", "4294967296"],
            &["--words", "1", "--hex", "0"],
            &["--words", "1", "--hex", "xx"],
            &["--words", "1", "--hex", "00", "--hex", "00"],
            &["--nothing", "1"],
            &["/no/such/file"],
        ] {
            assert!(parsed(wrong).is_err(), "{wrong:?}");
        }
    }
}
