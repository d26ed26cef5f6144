//! Speeds: the crate's, built for release, and ours beside them.
//!
//! Both sides get the same bytes, on the same machine, in the same run. A figure is the median of
//! several timed runs after a warming one; a run repeats the call until it takes long enough for
//! the clock. Where the program `measure` is not built its columns are empty: no figure is made up.

mod bits;
mod form;
mod measure;
mod messages;
mod ours;
mod plot;
mod worst;

use std::process::ExitCode;

const USAGE: &str = "usage:
  bench               both tables
  bench messages      check, listing, unfolding and writing beside the crate's decoding and encoding
  bench bits          the bitfield operations beside the crate's
  bench worst         hostile tables, deep nesting, the longest messages; stack
  bench plot FILE     time against the length of a message, as an SVG picture
For a tool that counts instructions (./instructions):
  bench cases         the names of the messages
  bench bit-cases     the names of the bitfield operations
  bench count CASE decode|encode|check|listing N
  bench count-bits CASE N
      calls it N times and measures nothing
  bench plan CASE unfold|write N FILE
  bench plan-bits CASE N FILE
      the plan by which crates/measure/out/measure does the same";

/// How many times as fast.
fn times(ratio: f64) -> String {
    if ratio < 100.0 {
        format!("{ratio:.2}x")
    } else {
        format!("{ratio:.0}x")
    }
}

/// Bytes without a pattern that a processor could guess, the same in every run.
fn scattered(bytes: usize, seed: u64) -> Vec<u8> {
    let mut state = seed;
    let mut next = || {
        state =
            state.wrapping_mul(6_364_136_223_846_793_005).wrapping_add(1_442_695_040_888_963_407);
        (state >> 56) as u8
    };
    (0..bytes).map(|_| next()).collect()
}

fn number(text: &str) -> Result<u64, String> {
    text.parse().map_err(|_| format!("no number: {text}"))
}

fn write(file: &str, contents: impl AsRef<[u8]>) -> Result<(), String> {
    std::fs::write(file, contents).map_err(|error| format!("{file}: {error}"))
}

fn bit_case(name: &str) -> Result<bits::Case, String> {
    bits::find(name).ok_or(format!("no case {name}"))
}

fn run(arguments: &[&str]) -> Result<(), String> {
    match arguments {
        [] => {
            messages::print();
            println!();
            bits::print();
        }
        ["messages"] => messages::print(),
        ["bits"] => bits::print(),
        ["worst", rest @ ..] => worst::run(rest)?,
        ["cases"] => messages::cases().iter().for_each(|case| println!("{}", case.name)),
        ["bit-cases"] => bits::cases().iter().for_each(|case| println!("{}", case.name)),
        ["plot", file] => write(file, plot::svg(&messages::growth()))?,
        ["count", name, side, times] => messages::count(name, side, number(times)?)?,
        ["count-bits", name, times] => bit_case(name)?.count(number(times)?),
        ["plan", name, "unfold", times, file] => {
            write(file, messages::find(name)?.planned(73)?.file(number(times)?))?;
        }
        ["plan", name, "write", times, file] => {
            write(file, messages::find(name)?.planned(74)?.file(number(times)?))?;
        }
        ["plan-bits", name, times, file] => {
            write(file, bit_case(name)?.plan().file(number(times)?))?;
        }
        _ => return Err(USAGE.to_string()),
    }
    Ok(())
}

fn main() -> ExitCode {
    let arguments: Vec<String> = std::env::args().skip(1).collect();
    let arguments: Vec<&str> = arguments.iter().map(|argument| argument.as_str()).collect();
    match run(&arguments) {
        Ok(()) => ExitCode::SUCCESS,
        Err(message) => {
            eprintln!("{message}");
            ExitCode::FAILURE
        }
    }
}
