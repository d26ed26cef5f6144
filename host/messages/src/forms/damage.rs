//! What is made of a right form: cut, extended, its words and bytes changed.

use super::value::Form;
use crate::rng::Rng;

/// A form up to this many words or bytes is damaged at each, a longer one at some.
const EVERY: usize = 12;

/// Places below the length, all of them or some.
fn places(length: usize, rng: &mut Rng) -> Vec<usize> {
    if length <= EVERY {
        (0..length).collect()
    } else {
        (0..EVERY).map(|_| rng.below(length as u64) as usize).collect()
    }
}

fn word(form: &mut Form, at: usize, rng: &mut Rng) {
    let old = form.contents[at];
    let few = rng.below(12) as u32;
    let random = rng.next() as u32;
    let near = [old.wrapping_sub(1), old.wrapping_add(1), old ^ 8, few];
    let limits = [0, 127, 128, 255, 256, u32::MAX, random];
    form.contents[at] = if rng.one_in(2) { rng.pick(&near) } else { rng.pick(&limits) };
}

fn byte(form: &mut Form, at: usize, rng: &mut Rng) {
    let old = form.bodies[at];
    let others = [rng.byte(), old ^ 1 << rng.below(8), old ^ 0x80, 2, 0xff, 0];
    form.bodies[at] = rng.pick(&others);
}

/// One change of any kind.
fn change(form: &mut Form, rng: &mut Rng) {
    let (words, bytes) = (form.contents.len() as u64, form.bodies.len() as u64);
    match rng.below(6) {
        0 if words > 0 => form.contents.truncate(rng.below(words) as usize),
        1 if bytes > 0 => form.bodies.truncate(rng.below(bytes) as usize),
        2 if words > 0 => word(form, rng.below(words) as usize, rng),
        3 if bytes > 0 => byte(form, rng.below(bytes) as usize, rng),
        4 => form.contents.push(rng.below(4) as u32),
        _ => form.bodies.push(rng.byte()),
    }
}

/// Every form that is made of this one.
pub fn of(form: &Form, rng: &mut Rng) -> Vec<Form> {
    let mut found = Vec::new();
    let mut with = |rng: &mut Rng, damage: &mut dyn FnMut(&mut Form, &mut Rng)| {
        let mut other = form.clone();
        damage(&mut other, rng);
        found.push(other);
    };
    for at in places(form.contents.len(), rng) {
        with(rng, &mut |form, _| form.contents.truncate(at));
        with(rng, &mut |form, rng| word(form, at, rng));
        with(rng, &mut |form, rng| word(form, at, rng));
    }
    for at in places(form.bodies.len(), rng) {
        with(rng, &mut |form, _| form.bodies.truncate(at));
        with(rng, &mut |form, rng| byte(form, at, rng));
    }
    // The last byte, where a bitfield's spare bits are and a body is one short.
    if let Some(last) = form.bodies.len().checked_sub(1) {
        with(rng, &mut |form, rng| byte(form, last, rng));
        with(rng, &mut |form, _| form.bodies.truncate(last));
    }
    for _ in 0..2 {
        with(rng, &mut |form, rng| form.contents.push(rng.below(4) as u32));
        with(rng, &mut |form, rng| form.bodies.push(rng.byte()));
    }
    // Two faults at a time: which comes first?
    for _ in 0..6 {
        with(rng, &mut |form, rng| {
            change(form, rng);
            change(form, rng);
        });
    }
    with(rng, &mut |form, _| *form = Form::default());
    found
}
