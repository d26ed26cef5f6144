//! What is asked about one value, or one table.

use super::ask::{layout_check, message_of, under, unfolding, writing, About, Case};
use super::tables::checked;
use super::value::{Form, Value};
use super::{by_crate, damage, tables, Take};
use crate::rng::Rng;
use crate::types::Subject;
use cartwhisker::Layout;

/// Of each value so many damaged forms, damaged messages and damaged tables.
const FORMS: usize = 24;
const MESSAGES: usize = 12;
const TABLES: usize = 4;

/// A run: so many cases are still to be given.
pub struct Run<'a> {
    pub rng: Rng,
    pub left: u64,
    pub take: Take<'a>,
}

impl Run<'_> {
    /// A case that no record holds is none.
    fn give(&mut self, case: Option<Case>) {
        if let Some(case) = case.filter(|_| self.left > 0) {
            self.left -= 1;
            (self.take)(case);
        }
    }

    fn up_to(&mut self, most: usize) -> usize {
        self.rng.between(0, most as u64) as usize
    }

    fn pick<T: Clone>(&mut self, choices: &[T]) -> T {
        choices[self.rng.below(choices.len() as u64) as usize].clone()
    }

    /// A message that the crate reads, whose value may be known.
    pub fn of_crate(&mut self, subject: &Subject, message: &[u8], value: Option<&Value>) {
        let form = by_crate::told(subject, message).expect("a value's encoding");
        if let Some(value) = value {
            assert_eq!(form, Form::of(value), "read otherwise under {:?}", subject.layout);
        }
        self.value(subject.name, &subject.layout, message, &form);
        let mut messages = Vec::new();
        let mut keep = |bytes: &[u8]| messages.push(bytes.to_vec());
        crate::damage::of(&subject.layout, message, &mut self.rng, &mut keep);
        let about = About { subject: subject.name, what: "damaged message" };
        for _ in 0..MESSAGES {
            let message = self.pick(&messages);
            let told = by_crate::told(subject, &message);
            let room = (self.up_to(form.contents.len() + 1), self.up_to(form.bodies.len() + 1));
            let asked = (&subject.table[..], &message[..]);
            let case = unfolding(about, asked, &told, room, &mut self.rng);
            self.give(case);
        }
    }

    /// A value's message and form: buffers around each boundary, then forms and tables made bad.
    pub fn value(&mut self, subject: &'static str, layout: &Layout, message: &[u8], form: &Form) {
        self.boundaries(subject, layout, message, form);
        let table = layout.bytes();
        let about = About { subject, what: "damaged form" };
        let forms = damage::of(form, &mut self.rng);
        for _ in 0..FORMS {
            let form = self.pick(&forms);
            let room = self.up_to(message.len() + 9);
            let told = under(layout, &form);
            let case = writing(about, (&table, &form), &told, room, &mut self.rng);
            self.give(case);
        }
        for _ in 0..TABLES {
            let table = tables::damaged(&table, &mut self.rng);
            self.bad_table(subject, &table);
        }
    }

    /// The unfolding and the writer with buffers around each boundary.
    pub fn boundaries(
        &mut self,
        subject: &'static str,
        layout: &Layout,
        message: &[u8],
        form: &Form,
    ) {
        let table = layout.bytes();
        self.give(layout_check(About { subject, what: "table" }, &table));
        let told = Ok(form.clone());
        for (what, room) in unfolding_rooms(form) {
            let about = About { subject, what };
            let case = unfolding(about, (&table, message), &told, room, &mut self.rng);
            self.give(case);
        }
        let written = under(layout, form);
        assert_eq!(written.as_deref(), Ok(message), "written otherwise under {layout:?}");
        for (what, room) in writing_rooms(message.len(), &mut self.rng) {
            let about = About { subject, what };
            let case = writing(about, (&table, form), &written, room, &mut self.rng);
            self.give(case);
        }
    }

    /// A table that may be bad, asked of its own check and of both calls. Where it is not, only the writer is asked: no
    /// type of the crate is read under it.
    pub fn bad_table(&mut self, subject: &'static str, table: &[u8]) {
        let about = About { subject, what: "damaged table" };
        self.give(layout_check(about, table));
        let (words, bytes, room) = (self.up_to(3), self.up_to(11), self.up_to(19));
        let form = Form {
            contents: (0..words).map(|_| self.rng.below(6) as u32).collect(),
            bodies: self.rng.bytes(bytes),
        };
        if let Err(word) = checked(table) {
            let told = Err([20, word as u64, 0, 0, 0]);
            let message = self.rng.bytes(bytes);
            let rooms = (self.up_to(4), room);
            let case = unfolding(about, (table, &message), &told, rooms, &mut self.rng);
            self.give(case);
        }
        let told = message_of(table, &form);
        let case = writing(about, (table, &form), &told, room, &mut self.rng);
        self.give(case);
    }
}

/// Rooms for words and bytes: exact, one more, one short and empty, in each and in both.
fn unfolding_rooms(form: &Form) -> Vec<(&'static str, (usize, usize))> {
    let (words, bytes) = (form.contents.len(), form.bodies.len());
    let mut rooms = vec![
        ("exact", (words, bytes)),
        ("one more in both", (words + 1, bytes + 1)),
        ("one more in words", (words + 1, bytes)),
        ("one more in bytes", (words, bytes + 1)),
        ("empty", (0, 0)),
    ];
    if words > 0 {
        rooms.push(("one short in words", (words - 1, bytes)));
        rooms.push(("no words", (0, bytes + 1)));
    }
    if bytes > 0 {
        rooms.push(("one short in bytes", (words, bytes - 1)));
        rooms.push(("no bytes", (words + 1, 0)));
    }
    if words > 0 && bytes > 0 {
        rooms.push(("one short in both", (words - 1, bytes - 1)));
    }
    rooms
}

fn writing_rooms(length: usize, rng: &mut Rng) -> Vec<(&'static str, usize)> {
    let more = length + rng.between(2, 40) as usize;
    let mut rooms = vec![("exact", length), ("one more", length + 1), ("more", more), ("empty", 0)];
    rooms.extend(length.checked_sub(1).map(|room| ("one short", room)));
    rooms
}
