//! Every short question about bitfields, with the crate's answers, replayed in files of cases that
//! are made and thrown away one after another: all of them together would take tens of gigabytes.

use crate::format::{number, put_record, Case, Head, Held, Part};
use crate::make::{self, fields};
use crate::ops::{as_list, OPS};
use crate::oracle;
use crate::rng::Rng;
use std::fs;
use std::path::{Path, PathBuf};
use std::process::Command;

/// A file of cases holds so many bytes, and what the last record has over it.
const FILE_BYTES: usize = 100_000_000;

/// Strings of up to two bytes are read with each N up to this: a bit more than they can hold.
const MOST_FOR_STRINGS: u64 = 17;

/// A file of cases under way, and what came of those before it.
struct Files {
    folder: PathBuf,
    replay: PathBuf,
    records: Vec<u8>,
    waiting: u64,
    cases: u64,
    differ: u64,
    files: u64,
}

impl Files {
    fn new(replay: &Path) -> Result<Files, String> {
        let replay = fs::canonicalize(replay).map_err(|e| format!("{}: {e}", replay.display()))?;
        let folder = std::env::temp_dir().join(format!("every-{}", std::process::id()));
        fs::create_dir(&folder).map_err(|e| format!("{}: {e}", folder.display()))?;
        let records = Vec::with_capacity(FILE_BYTES + 1_000);
        Ok(Files { folder, replay, records, waiting: 0, cases: 0, differ: 0, files: 0 })
    }

    fn put(&mut self, op: u32, parts: &[&[u8]]) -> Result<(), String> {
        put_record(&mut self.records, op, parts);
        self.counted()
    }

    fn put_case(&mut self, case: &Case) -> Result<(), String> {
        self.records.extend(case.record());
        self.counted()
    }

    fn counted(&mut self) -> Result<(), String> {
        self.waiting += 1;
        if self.records.len() >= FILE_BYTES {
            self.replayed()?;
        }
        Ok(())
    }

    fn made(&self) -> u64 {
        self.cases + self.waiting
    }

    /// Replays what is waiting. A run that does not tell of just these cases is a failure, and not
    /// only a difference.
    fn replayed(&mut self) -> Result<(), String> {
        let failed = |error: std::io::Error| format!("{}: {error}", self.folder.display());
        fs::write(self.folder.join("cases"), &self.records).map_err(failed)?;
        let run = Command::new(&self.replay).current_dir(&self.folder).output().map_err(failed)?;
        let said = String::from_utf8_lossy(&run.stdout);
        let last = said.lines().last().unwrap_or("");
        let differ = differing(last, self.waiting).ok_or(format!("replay said: {last}"))?;
        if differ > 0 {
            print!("file {} of these:\n{said}", self.files);
        }
        self.differ += differ;
        self.cases += self.waiting;
        self.files += 1;
        self.waiting = 0;
        self.records.clear();
        Ok(())
    }
}

impl Drop for Files {
    fn drop(&mut self) {
        // A folder that is left behind is no reason to fail.
        _ = fs::remove_dir_all(&self.folder);
    }
}

/// How many differ, by a last line `N cases, D differ` that tells of so many cases.
fn differing(line: &str, cases: u64) -> Option<u64> {
    let rest = line.strip_prefix(&format!("{cases} cases, "))?;
    rest.strip_suffix(" differ")?.parse().ok()
}

/// Every field of each N up to `most`, at every place up to its end and just past it.
fn singles(files: &mut Files, most: u64) -> Result<(), String> {
    let of_one = |op: &u32| (10..=45).contains(op) && !matches!(as_list(*op), 11 | 13..=15 | 23);
    for op in OPS.iter().map(|op| op.number).filter(of_one) {
        let mut outcome = Ok(());
        make::exhaustive(op, most, &mut Rng::for_op(1, op), &mut |made| {
            if outcome.is_ok() {
                outcome = files.put_case(&made.case());
            }
        });
        outcome?;
    }
    Ok(())
}

/// Every pair of fields of each N up to `most`, of vectors and of lists of any two lengths.
fn pairs(files: &mut Files, most: u64) -> Result<(), String> {
    let head = Head::SUCCESS.part();
    for ops in [[13, 14, 15, 23], [33, 34, 35, 43]] {
        for n in 0..=most {
            let parts: Vec<Part> = fields::every(ops[0], n).iter().map(Held::part).collect();
            let held: Vec<_> = parts.iter().map(|part| oracle::lent(ops[0], part)).collect();
            for (first, own) in held.iter().zip(&parts) {
                for (second, other) in held.iter().zip(&parts) {
                    for op in ops {
                        let result = oracle::of_pair(op, &**first, &**second);
                        files.put(op, &[own, other, &head, &result])?;
                    }
                }
            }
        }
    }
    Ok(())
}

/// `from_bytes` of every string of up to two bytes.
fn strings(files: &mut Files) -> Result<(), String> {
    let mut every: Vec<Vec<u8>> = vec![vec![]];
    every.extend((0..=255).map(|byte| vec![byte]));
    every.extend((0..=u16::MAX).map(|bytes| bytes.to_le_bytes().to_vec()));
    for op in [11, 31] {
        for n in 0..=MOST_FOR_STRINGS {
            for bytes in &every {
                let case = oracle::ask(op, vec![bytes.clone(), number(n)]);
                let (question, head) = (&case.question, case.head.part());
                files.put(op, &[&question[0], &question[1], &head, &case.results[0]])?;
            }
        }
    }
    Ok(())
}

pub fn compare(arguments: &[String]) -> Result<(), String> {
    let (mut most, mut replay) = (10, None);
    for pair in arguments.chunks(2) {
        let [name, value] = pair else { return Err(format!("{} lacks its value", pair[0])) };
        match name.as_str() {
            "--most" => most = value.parse().map_err(|_| format!("no number: {value}"))?,
            "--replay" => replay = Some(PathBuf::from(value)),
            _ => return Err(format!("unknown option {name}")),
        }
    }
    let replay = replay.ok_or("--replay is missing")?;
    if most > 12 {
        return Err("--most is at most 12".to_string());
    }
    let mut files = Files::new(&replay)?;
    strings(&mut files)?;
    let strings = files.made();
    singles(&mut files, most)?;
    let singles = files.made() - strings;
    pairs(&mut files, most)?;
    files.replayed()?;
    let (cases, differ) = (files.cases, files.differ);
    let pairs = cases - strings - singles;
    println!("strings: {strings}; up to {most} bits, one field: {singles}, two: {pairs}");
    println!("{cases} cases, {differ} differ");
    match differ {
        0 => Ok(()),
        _ => Err("ours and the crate differ".to_string()),
    }
}

#[cfg(test)]
mod tests {
    use super::differing;

    #[test]
    fn only_a_line_of_just_these_cases_is_taken() {
        assert_eq!(differing("12 cases, 0 differ", 12), Some(0));
        assert_eq!(differing("12 cases, 3 differ", 12), Some(3));
        assert_eq!(differing("11 cases, 0 differ", 12), None);
        assert_eq!(differing("bad record 4", 12), None);
        assert_eq!(differing("", 0), None);
    }
}
