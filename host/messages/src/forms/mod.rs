//! The check of a table, the unfolding and the value writer: cases of operations 70, 73 and 74.
//!
//! What is expected comes from a model in this folder, written from document 01 and its readings:
//! values, their encoding and their form (`value`), a form's first fault (`writer`), the check of a
//! table (`tables`). Which messages are refused, and with what, is the crate's own answer with the
//! known differences (`answers`); where it accepts, the form is made from the slices that it handed
//! out, and the model has to write it as the message again.

mod ask;
mod by_crate;
mod damage;
mod run;
mod tables;
mod value;
mod wide;
mod writer;

pub use ask::Case;
pub(crate) use tables::at_limits;
pub use tables::checked;
pub use value::{encode, Form, Lengths, Value};
pub use writer::{value_of, written, Fault, Wrong};

use crate::rng::Rng;
use crate::{random_tables, types};
use run::Run;
use std::collections::BTreeMap;

/// In each turn so many random tables that the crate reads, and so many that it does not.
const RANDOM: usize = 96;
const WIDE: usize = 48;
const FEW: Lengths = Lengths::Upto(42);
/// Three times as many bytes are nearly a record.
const LONG: Lengths = Lengths::Full(80_000);

/// Where the cases go.
pub type Take<'a> = &'a mut dyn FnMut(Case);

/// Tables at the limits and long values, then the crate's types and random tables in turn, until
/// there are so many cases.
pub fn cases(seed: u64, count: u64, take: Take) {
    let mut run = Run { rng: Rng::new(seed), left: count, take };
    for table in at_limits() {
        run.bad_table("tables at the limits", &table);
    }
    for layout in wide::long() {
        let (value, message) = value::random_message(&layout, LONG, &mut run.rng);
        run.boundaries("long values", &layout, &message, &Form::of(&value));
    }
    let subjects = types::all();
    while run.left > 0 {
        for subject in &subjects {
            let message = (subject.encode)(&mut run.rng);
            run.of_crate(subject, &message, None);
        }
        for _ in 0..RANDOM {
            let subject = random_tables::subject(&mut run.rng);
            let (value, message) = value::random_message(&subject.layout, FEW, &mut run.rng);
            run.of_crate(&subject, &message, Some(&value));
        }
        for _ in 0..WIDE {
            let layout = wide::layout(&mut run.rng);
            let (value, message) = value::random_message(&layout, FEW, &mut run.rng);
            run.value("wide tables", &layout, &message, &Form::of(&value));
        }
    }
}

/// Of each kind of case so many are recorded; longer ones are not.
const RECORDED: usize = 6;
const LONGEST_RECORDED: usize = 2_400;
/// So many are looked through.
const LOOKED: u64 = 60_000;

/// A few cases of each kind, for the recorded list: of every way of making one and every answer,
/// and of each type that the crate reads its first round trip.
pub fn sample(seed: u64, take: Take) {
    let mut rng = Rng::new(seed);
    let mut found = BTreeMap::new();
    cases(seed, LOOKED, &mut |case| {
        let trip = case.what == "exact";
        // Some are passed over, so that not all are of the first types.
        if case.record.len() > LONGEST_RECORDED || !(trip || rng.one_in(4)) {
            return;
        }
        let (subject, most) = if trip { (case.subject, 1) } else { ("", RECORDED) };
        let kind = (case.op, case.number, case.fault, case.what, subject);
        let recorded = found.entry(kind).or_insert(0);
        if *recorded < most {
            *recorded += 1;
            take(case);
        }
    });
}
