//! A layout in words, and what is wrong with a bad one.

use cartwhisker::{Kind, Layout, Refusal};

pub fn described(kind: &Kind) -> String {
    let plural = |count: u32| if count == 1 { "" } else { "s" };
    match kind {
        Kind::Number(width) => format!("number of {width} byte{}", plural(*width)),
        Kind::Boolean => "boolean".to_string(),
        Kind::FixedBytes(length) => format!("{length} fixed byte{}", plural(*length)),
        Kind::FreeBytes(limit) => format!("free bytes up to {limit}"),
        Kind::BitVector(bits) => format!("bit vector of {bits}"),
        Kind::BitList(limit) => format!("bit list up to {limit}"),
        Kind::Container(fields) => {
            format!("container of {} field{}", fields.len(), plural(fields.len() as u32))
        }
        Kind::Union(options) => {
            format!("union of {} option{}", options.len(), plural(options.len() as u32))
        }
        Kind::List(_, limit) => format!("list of up to {limit} element{}", plural(*limit)),
        Kind::Vector(_, count) => format!("vector of {count} element{}", plural(*count)),
    }
}

/// A line for each type.
pub fn shown(layout: &Layout) -> String {
    let types = layout.kinds().len();
    let mut text = format!("legal layout: {types} types, {} words\n\n", layout.words().len());
    for (number, kind) in layout.kinds().iter().enumerate() {
        text += &format!("  type {number:<3} {}", described(kind));
        match kind {
            Kind::Container(fields) => {
                let fields: Vec<String> = fields.iter().map(|of| of.number().to_string()).collect();
                text += &format!(": types {}", fields.join(" "));
            }
            Kind::Union(options) => {
                let body = |of: &Option<cartwhisker::Type>| {
                    of.map_or("none".to_string(), |of| of.number().to_string())
                };
                let bodies: Vec<String> = options.iter().map(body).collect();
                text += &format!(": bodies {}", bodies.join(" "));
            }
            Kind::List(element, _) | Kind::Vector(element, _) => {
                text += &format!(": type {}", element.number());
            }
            _ => (),
        }
        let length = layout.fixed_length(cartwhisker::Type::from_number(number as u32));
        text += &match length {
            Some(length) => format!(", {length} bytes"),
            None => ", variable".to_string(),
        };
        text += if number + 1 == types { "  <- the message\n" } else { "\n" };
    }
    text
}

/// The words with the bad one marked, and what it should be.
pub fn refused(layout: &[u8], refusal: &Refusal) -> String {
    let words: Vec<u32> = layout
        .chunks_exact(4)
        .map(|word| u32::from_le_bytes(word.try_into().expect("four bytes")))
        .collect();
    let bad = refusal.a as usize;
    let mut text = format!("{refusal}\n\n");
    let cut = layout.len() % 4;
    for (first, row) in words.chunks(8).enumerate().map(|(i, row)| (i * 8, row)) {
        text += &format!("  word {first:<4}");
        for word in row {
            text += &format!(" {word:>10}");
        }
        text.push('\n');
        if (first..first + row.len()).contains(&bad) {
            text += &format!("           {:>width$} here\n", "^", width = (bad - first + 1) * 11);
        }
    }
    let state = if cut != 0 {
        format!("cut: only {cut} of its 4 bytes are there")
    } else if bad >= words.len() {
        "missing".to_string()
    } else {
        words[bad].to_string()
    };
    let role = if cut != 0 { "every word has 4 bytes".to_string() } else { role(&words, bad) };
    text + &format!("\nWord {bad} is {state}. There {role}.\n")
}

/// What word number `bad` is for, in a table that is right before it.
fn role(words: &[u32], bad: usize) -> String {
    let word = |at: usize| words.get(at).copied().unwrap_or(0);
    let types = word(0) as usize;
    if bad == 0 {
        return "stands the number of types, 1 to 64".to_string();
    }
    if bad == words.len() && bad <= types {
        return format!("and up to word {types} stand the starts of the {types} bodies");
    }
    let mut start = types + 1;
    for number in 0..types {
        if bad == number + 1 {
            return format!("starts the body of type {number}, which is word {start}");
        }
        if bad == start {
            if word(start) > 9 || bad >= words.len() {
                return format!("stands the kind of type {number}, 0 to 9");
            }
            let what = if word(start) == 6 { "container" } else { "vector" };
            return format!(
                "stands the kind of type {number}, a {what}, whose fixed portion would take more \
                 than 4294967295 bytes"
            );
        }
        let kind = word(start);
        let further = match kind {
            1 => 0,
            6 | 7 => 1 + word(start + 1) as usize,
            8 | 9 => 2,
            _ => 1,
        };
        if bad == start + 1 && further > 0 {
            return match kind {
                0 => format!("stands the width of type {number}: 1, 2, 4, 8, 16 or 32"),
                2 => format!("stands the length of type {number}, at least 1"),
                3 => format!("stands the greatest length of type {number}"),
                4 => format!("stands the number of bits of type {number}, at least 1"),
                5 => format!("stands the greatest number of bits of type {number}"),
                6 => format!("stands the number of fields of type {number}, 1 to 64"),
                7 => format!("stands the number of options of type {number}, 1 to 128"),
                _ => format!("stands the element of type {number}: a type below {number}"),
            };
        }
        if (start + 2..=start + further).contains(&bad) {
            let place = bad - start - 2;
            return match kind {
                6 => format!("stands field {place} of type {number}: a type below {number}"),
                7 => format!(
                    "stands option {place} of type {number}: a type below {number}, or 4294967295 \
                     for no body"
                ),
                8 => format!("stands the greatest count of type {number}"),
                _ => format!("stands the count of type {number}, at least 1"),
            };
        }
        start += 1 + further;
    }
    format!("the table has ended already, with word {}", start - 1)
}
