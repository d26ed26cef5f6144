//! What the crate's decoding says of a message: the refusal, or the form of the value.

use super::ask::Head;
use super::value::Form;
use super::writer::written;
use crate::answers::expected;
use crate::types::Subject;
use crate::watch::Notes;
use cartwhisker::{Kind, Layout, Record, Type};

/// What unfolding is to answer where there is room. The model has to write the form as the message
/// again.
pub fn told(subject: &Subject, message: &[u8]) -> Result<Form, Head> {
    let mut notes = Notes::default();
    let decoded = (subject.decode)(message, &mut notes);
    let number_of = |note: &_| subject.number_of(note);
    match expected(&subject.layout, message, decoded, &notes, number_of).answer {
        Ok(records) => {
            let form = form_of(&subject.layout, message, &records);
            let again = written(&subject.layout, &form);
            assert_eq!(again.as_deref(), Ok(message), "written otherwise: {:?}", subject.layout);
            Ok(form)
        }
        Err(refusal) => Err([
            u64::from(refusal.number),
            refusal.a,
            refusal.b,
            u64::from(refusal.type_number),
            refusal.start,
        ]),
    }
}

/// The form from the slices that the crate handed out.
fn form_of(layout: &Layout, message: &[u8], records: &[Record]) -> Form {
    let mut form = Form::default();
    for record in records {
        let body = record.bytes(message);
        match layout.kind(Type::from_number(record.type_number)).expect("a type of the table") {
            Kind::Container(_) | Kind::Vector(..) => (),
            Kind::List(element, _) => form.contents.push(elements(layout, *element, body)),
            Kind::Union(_) => form.contents.push(u32::from(body[0])),
            Kind::FreeBytes(_) => {
                form.contents.push(body.len() as u32);
                form.bodies.extend(body);
            }
            Kind::BitList(_) => add_bits(&mut form, body),
            _ => form.bodies.extend(body),
        }
    }
    form
}

/// How many elements a list has that the crate has read.
fn elements(layout: &Layout, element: Type, body: &[u8]) -> u32 {
    match layout.fixed_length(element) {
        Some(length) => body.len() as u32 / length as u32,
        None if body.is_empty() => 0,
        // The first offset is behind the last.
        None => u32::from_le_bytes(body[..4].try_into().expect("four bytes")) / 4,
    }
}

/// A bit list's body without the set bit behind its last.
fn add_bits(form: &mut Form, body: &[u8]) {
    let (last, before) = body.split_last().expect("at least one byte");
    let mark = 7 - last.leading_zeros() as usize;
    form.contents.push((8 * before.len() + mark) as u32);
    form.bodies.extend(before);
    // The mark's byte goes where it holds nothing else, but an empty list keeps one byte.
    if mark > 0 || before.is_empty() {
        form.bodies.push(last ^ 1 << mark);
    }
}
