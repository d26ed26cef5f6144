//! Cases of the unfolding and of the value writer, which `messages` makes.

use crate::{Cases, Options};
use messages::forms::{self, Case, Fault};
use std::collections::BTreeMap;
use std::io::{self, Write};

/// Writes the cases, prints the faults of the forms, and ends as every file of cases does.
pub fn write(options: &Options) -> io::Result<()> {
    let mut cases = Cases::create(&options.out, (0, 1))?;
    let mut faults: BTreeMap<Fault, u64> = Fault::ALL.map(|fault| (fault, 0)).into();
    let mut trips: BTreeMap<&str, u64> = BTreeMap::new();
    let mut outcome = Ok(());
    let mut take = |case: Case| {
        if outcome.is_ok() {
            outcome = cases.output.write_all(&case.record);
        }
        cases.tally.add(case.op, case.number, case.record.len());
        if (case.op, case.what) == (74, "exact") {
            *trips.entry(source(case.subject)).or_default() += 1;
        }
        if let Some(fault) = case.fault {
            *faults.entry(fault).or_default() += 1;
        }
    };
    if options.sample {
        forms::sample(options.seed, &mut take);
    } else {
        forms::cases(options.seed, options.count, &mut take);
    }
    outcome?;
    let faults = faults.iter().map(|(fault, count)| (fault.told(), *count));
    println!("25 by fault: {}", listed(faults));
    println!("round trips: {}", listed(trips));
    cases.end()
}

/// Where a value comes from: the crate's types are one source.
fn source(subject: &'static str) -> &'static str {
    match subject {
        "random tables" | "wide tables" | "long values" => subject,
        _ => "the crate's types",
    }
}

fn listed<'a>(counts: impl IntoIterator<Item = (&'a str, u64)>) -> String {
    let each = counts.into_iter().map(|(name, count)| format!("{name}: {count}"));
    each.collect::<Vec<String>>().join(", ")
}
