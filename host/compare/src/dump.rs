//! A case file as text, for whoever has to find out why a case differs.

use crate::format::{self, to_items, to_number, to_row, Held, Raw, HELD_BITS, VARIABLE};
use crate::ops::{self, Kind};
use std::io::{self, Read, Write};

/// Longer byte rows are cut; their length is always told.
const MOST_BYTES: usize = 48;

/// Writes `count` records from number `first` on.
pub fn dump(
    input: &mut impl Read,
    output: &mut impl Write,
    first: u64,
    count: u64,
) -> io::Result<()> {
    let mut record = 0;
    while record < first.saturating_add(count) {
        let Some(raw) = format::read_record(input)? else {
            return Ok(());
        };
        if record >= first {
            write_one(output, record, &raw)?;
        }
        record += 1;
    }
    Ok(())
}

fn write_one(output: &mut impl Write, record: u64, raw: &Raw) -> io::Result<()> {
    let op = ops::find(raw.op);
    let name = op.map_or("unknown to this driver", |op| op.name);
    writeln!(output, "record {record} operation {} {name}", raw.op)?;
    let (asks, gives) = op.map_or((&[][..], &[][..]), |op| (op.asks, op.gives));
    for (place, part) in raw.parts.iter().enumerate() {
        let text = if op.is_none() {
            format!("part {}", bytes(part))
        } else if place < asks.len() {
            format!("asked {}", told(part, asks[place]))
        } else if place == asks.len() {
            format!("head {}", head(part))
        } else if let Some(kind) = gives.get(place - asks.len() - 1) {
            format!("given {}", told(part, *kind))
        } else {
            format!("more {}", bytes(part))
        };
        writeln!(output, "  {text}")?;
    }
    Ok(())
}

fn head(part: &[u8]) -> String {
    if part.len() != 40 {
        return format!("malformed, {}", bytes(part));
    }
    let row = to_row(part);
    if row[0] == 0 {
        "accepted".to_string()
    } else {
        format!("refused {} ({}, {}) type {} start {}", row[0], row[1], row[2], row[3], row[4])
    }
}

fn told(part: &[u8], kind: Kind) -> String {
    match kind {
        _ if part.is_empty() => "nothing".to_string(),
        Kind::Number | Kind::Count | Kind::Maybe if part.len() == 8 => to_number(part).to_string(),
        Kind::Held if part.len() == 272 => held(&Held::from_part(part)),
        Kind::Ranges if part.len() % 16 == 0 => {
            let pairs = to_row(part);
            let each = pairs.chunks(2).map(|pair| format!("{}..{}", pair[0], pair[1]));
            format!("ranges {}", each.collect::<Vec<String>>().join(" "))
        }
        Kind::Builder | Kind::BuilderAfter if part.len() == format::BUILDER_BYTES => {
            let row = to_row(part);
            let each = (2..66).map(|i| (row[i], row[i + 64])).enumerate();
            let used = each.filter(|(i, pair)| (*i as u64) < row[0] || *pair != (0, 0));
            let texts = used.map(|(i, pair)| format!("{i}: {}..{}", pair.0, pair.1));
            let texts = texts.collect::<Vec<String>>().join(", ");
            format!("state count {} position {} items {texts}", row[0], row[1])
        }
        Kind::Encoder | Kind::EncoderAfter if part.len() == format::ENCODER_BYTES => {
            let row = to_row(part);
            format!("state fixed size {} used {} and {}", row[0], row[1], row[2])
        }
        Kind::Registrations if part.len() % 8 == 0 => {
            let each = to_row(part).into_iter().map(|length| match length {
                VARIABLE => "variable".to_string(),
                fixed => fixed.to_string(),
            });
            format!("registrations {}", each.collect::<Vec<String>>().join(" "))
        }
        Kind::Items => {
            let each = to_items(part).into_iter().map(|item| {
                let kind = if item.fixed { "fixed" } else { "variable" };
                format!("{kind} {}", bytes(&item.bytes))
            });
            format!("items {}", each.collect::<Vec<String>>().join("; "))
        }
        _ => bytes(part),
    }
}

/// Short fields as their bits, lowest first; others by their bytes up to the last that is not zero.
fn held(held: &Held) -> String {
    let used = held.bytes.iter().rposition(|byte| *byte != 0).map_or(0, |last| last + 1);
    let sound = held.length <= HELD_BITS && used <= Held::raw_bytes(held.length);
    let text = if sound && held.length <= 64 && used <= 8 {
        let bits = (0..held.length).map(|i| if held.bit(i) { '1' } else { '0' });
        let past = (held.length..(8 * used) as u64).any(|i| held.bit(i));
        let mark = if past { " and bits past its end" } else { "" };
        format!("bits [{}]{mark}", bits.collect::<String>())
    } else {
        format!("raw {}", bytes(&held.bytes[..used]))
    };
    format!("held length {} N {} {text}", held.length, held.n)
}

fn bytes(part: &[u8]) -> String {
    let shown = part.iter().take(MOST_BYTES).map(|byte| format!("{byte:02x}"));
    let text = shown.collect::<Vec<String>>().join(" ");
    let rest = if part.len() > MOST_BYTES { " .." } else { "" };
    format!("{} bytes [{text}{rest}]", part.len())
}

#[cfg(test)]
mod tests {
    use super::*;
    use crate::format::{number, row, Case, Head};

    fn text(case: &Case) -> String {
        let mut out = Vec::new();
        dump(&mut &case.record()[..], &mut out, 0, 9).unwrap();
        String::from_utf8(out).unwrap()
    }

    #[test]
    fn a_held_field_and_a_refusal() {
        let case = Case {
            op: 19,
            question: vec![Held::zero(3, 5).with_bits(&[2]).part(), number(3)],
            head: Head::new(9, 3, 3),
            results: vec![vec![]],
        };
        let expected =
            "record 0 operation 19 BitList get\n  asked held length 3 N 5 bits [001]\n  \
                        asked 3\n  head refused 9 (3, 3) type 0 start 0\n  given nothing\n";
        assert_eq!(text(&case), expected);
    }

    #[test]
    fn registrations_and_ranges() {
        let case = Case {
            op: 50,
            question: vec![vec![1, 4, 0, 0, 0], row(&[1, VARIABLE])],
            head: Head::SUCCESS,
            results: vec![number(2), row(&[0, 1, 5, 5])],
        };
        assert!(text(&case).contains("asked registrations 1 variable\n"));
        assert!(text(&case).contains("given ranges 0..1 5..5\n"));
    }
}
