//! Our side of what has no C call: the proved program `measure`, run as a child.
//!
//! It does the operation of a plan so many times and prints a sum. The time of a call is that of a
//! run with so many rounds, less that of a run with none, so that the child's start, its reading of
//! the plan and its first touch of its rooms fall out. Every sum is compared with the one that the
//! crate's answer gives: a call that was refused, or left out, would be seen.

use crate::measure::Timed;
use std::path::{Path, PathBuf};
use std::process::Command;
use std::time::{Duration, Instant};

const PROGRAM: &str = concat!(env!("CARGO_MANIFEST_DIR"), "/../../crates/measure/out/measure");

/// What a round of the operation adds to the sum.
pub struct Adds {
    /// Lengths and counts.
    pub number: u64,
    /// Bytes that were made, one of which is added in each round.
    pub bytes: Vec<u8>,
}

/// An operation, by its number in docs/CASES.md, and what it works on.
pub struct Plan {
    pub operation: u32,
    pub parts: Vec<Vec<u8>>,
    pub adds: Adds,
}

impl Adds {
    fn sum(&self, rounds: u64) -> u64 {
        let byte = |i: u64| self.bytes.get(i as usize).copied().map_or(0, u64::from);
        let turn: u64 = (0..256).map(byte).sum();
        let rest: u64 = (1..=rounds % 256).map(|i| byte(i % 256)).sum();
        rounds * self.number + rounds / 256 * turn + rest
    }
}

pub fn is_built() -> bool {
    Path::new(PROGRAM).is_file()
}

/// A folder that a child is run in, removed at the end.
struct Folder(PathBuf);

impl Folder {
    fn new() -> Self {
        static NEXT: std::sync::atomic::AtomicU32 = std::sync::atomic::AtomicU32::new(0);
        let number = NEXT.fetch_add(1, std::sync::atomic::Ordering::Relaxed);
        let path = std::env::temp_dir().join(format!("bench-{}-{number}", std::process::id()));
        std::fs::create_dir_all(&path).expect("a folder for a plan");
        Self(path)
    }
}

impl Drop for Folder {
    fn drop(&mut self) {
        let _ = std::fs::remove_dir_all(&self.0);
    }
}

impl Plan {
    /// The file that the program reads.
    pub fn file(&self, rounds: u64) -> Vec<u8> {
        let mut file = self.operation.to_le_bytes().to_vec();
        file.extend((self.parts.len() as u32 + 1).to_le_bytes());
        file.extend(8_u32.to_le_bytes());
        file.extend(rounds.to_le_bytes());
        for part in &self.parts {
            file.extend((part.len() as u32).to_le_bytes());
            file.extend(part);
        }
        file
    }

    /// How long a child takes for so many rounds.
    fn child(&self, rounds: u64) -> Duration {
        let folder = Folder::new();
        std::fs::write(folder.0.join("plan"), self.file(rounds)).expect("a plan");
        let mut command = Command::new(PROGRAM);
        command.current_dir(&folder.0);
        let start = Instant::now();
        let output = command.output().expect("crates/measure/out/measure runs");
        let time = start.elapsed();
        let said = String::from_utf8_lossy(&output.stdout);
        assert_eq!(said.trim(), self.adds.sum(rounds).to_string(), "operation {}", self.operation);
        time
    }

    /// For `measure::nanoseconds`: so many rounds, the child's own beginning and end left out.
    pub fn timed(&self, rounds: u64) -> Duration {
        self.child(rounds).saturating_sub(self.child(0))
    }
}

/// A figure for our side, or none where the program is not built.
pub fn figures(oracle: Timed, plan: &Plan) -> (f64, Option<f64>) {
    let ours = |rounds| plan.timed(rounds);
    if is_built() {
        let both = crate::measure::nanoseconds(&[oracle, &ours]);
        (both[0], Some(both[1]))
    } else {
        (crate::measure::nanoseconds(&[oracle])[0], None)
    }
}

#[cfg(test)]
mod tests {
    use super::*;

    #[test]
    fn a_sum_is_that_of_its_rounds() {
        let adds = Adds { number: 7, bytes: (0..100).collect() };
        let one_by_one: u64 =
            (1..=700_u64).map(|round| 7 + if round % 256 < 100 { round % 256 } else { 0 }).sum();
        assert_eq!(adds.sum(700), one_by_one);
    }
}
