//! The value form of a message, made from its listing: what unfolding is to give.
//!
//! The listing has the items in preorder, and so has the form its words and bytes.

use cartwhisker::{listing, Kind, Layout};

pub struct Form {
    pub records: u64,
    pub words: u64,
    pub bodies: Vec<u8>,
}

/// The raw bytes of a bit list: the set bit behind its last bit taken away.
fn raw(body: &[u8]) -> Vec<u8> {
    let (last, rest) = body.split_last().expect("a bit list has a byte");
    let last = last & !(1 << last.ilog2());
    let mut raw = rest.to_vec();
    if body[body.len() - 1] != 1 || rest.is_empty() {
        raw.push(last);
    }
    raw
}

pub fn of(table: &[u8], message: &[u8]) -> Form {
    let layout = Layout::read(table).expect("a legal table");
    let records = listing(table, message).expect("an accepted message");
    let mut form = Form { records: records.len() as u64, words: 0, bodies: Vec::new() };
    for record in records {
        let body = record.bytes(message);
        match layout.kind(record.type_handle()).expect("a type of the table") {
            Kind::Container(_) | Kind::Vector(..) => {}
            Kind::Union(_) | Kind::List(..) => form.words += 1,
            Kind::FreeBytes(_) => {
                form.words += 1;
                form.bodies.extend(body);
            }
            Kind::BitList(_) => {
                form.words += 1;
                form.bodies.extend(raw(body));
            }
            _ => form.bodies.extend(body),
        }
    }
    form
}

#[cfg(test)]
mod tests {
    use super::*;

    #[test]
    fn bits_without_their_mark() {
        assert_eq!(raw(&[0x0d]), [5]);
        assert_eq!(raw(&[1]), [0]);
        assert_eq!(raw(&[0xff, 1]), [0xff]);
        assert_eq!(raw(&[0xff, 3]), [0xff, 1]);
    }
}
