//! The crate as oracle: asks it questions and writes its answers as files of cases.

mod document;
mod dump;
mod every;
mod format;
#[cfg(feature = "messages")]
mod forms;
mod make;
mod ops;
mod oracle;
mod published;
mod rng;
mod sample;
mod tally;

use make::Made;
use rng::Rng;
use std::fs::File;
use std::io::{self, BufReader, BufWriter, Write};
use std::process::ExitCode;
use tally::Tally;

const USAGE: &str = "usage:
  compare cases --out FILE [--ops LIST] [--seed S] [--count N] [--depth D] [--part K/OF]
      the limits and every short question, bitfields up to about D bits (5), then random ones
      until there are N (200000); with --part only each OF-th case from number K on is written
  compare cases --sample --out FILE [--ops LIST] [--seed S] [--bytes B]
      a part of them that takes at most B bytes (640000)
  compare document [--sample] --out FILE [--seed S]
      cases whose answers are document 01's and not the crate's, or three of each operation and number
  compare published --out FILE
      the public standard's examples and the shapes of its tests, answered by its rules
  compare pairs --replay PROGRAM [--most N]
      every bitfield and every pair of them of each N up to 10, lists of every length, in each
      operation, and every string of up to two bytes read with each N up to 17: the crate's
      answers, in files of about 100 MB, each of which PROGRAM replays
  compare dump FILE [FIRST [COUNT]]
      the records as text
  compare messages [--seed S] [--count N] [--depth D] [--short D]
      our message check and listing beside the crate's decoding: every string of up to D bytes (2;
      with --short 3 up to 3 bytes for the types that have such short messages), then N (1000000)
      random values' encodings, damaged in every offset, cut at every length, extended and so on
  compare messages --out FILE [--seed S] [--count N]
      the shortest message of each type and answer among N (1000000), as cases of operations 71, 72
  compare messages --sample --out FILE [--seed S]
      a few of them, as cases of operation 72
  compare forms --out FILE [--seed S] [--count N]
  compare forms --sample --out FILE [--seed S]
      N (200000) cases of the unfolding and the value writer, or a few of each kind
LIST is as 1-4,11,50; without it all operations are asked.";

struct Options {
    out: String,
    ops: Vec<u32>,
    seed: u64,
    count: u64,
    depth: u64,
    part: (u64, u64),
    sample: bool,
    bytes: usize,
}

impl Options {
    fn parse(arguments: &[String]) -> Result<Options, String> {
        let mut options = Options {
            out: String::new(),
            ops: ops::OPS.iter().map(|op| op.number).collect(),
            seed: 1,
            count: 200_000,
            depth: 5,
            part: (0, 1),
            sample: false,
            bytes: 640_000,
        };
        let mut rest = arguments.iter();
        while let Some(name) = rest.next() {
            if name == "--sample" {
                options.sample = true;
                continue;
            }
            let value = rest.next().ok_or(format!("{name} lacks its value"))?;
            options.set(name, value)?;
        }
        if options.out.is_empty() {
            return Err("--out is missing".to_string());
        }
        Ok(options)
    }

    fn set(&mut self, name: &str, value: &str) -> Result<(), String> {
        match name {
            "--out" => self.out = value.to_string(),
            "--ops" => self.ops = ops::parse_list(value)?,
            "--seed" => self.seed = number(value)?,
            "--count" => self.count = number(value)?,
            "--depth" => self.depth = number(value)?,
            "--bytes" => self.bytes = number(value)? as usize,
            "--part" => {
                let (part, of) = value.split_once('/').ok_or("--part is as 3/16")?;
                self.part = (number(part)?, number(of)?);
                if self.part.0 >= self.part.1 {
                    return Err("parts are numbered from 0 to one below their count".to_string());
                }
            }
            _ => return Err(format!("unknown option {name}")),
        }
        // Fields of more bits than this are too many to be written out.
        if self.depth > 12 {
            return Err("--depth is at most 12".to_string());
        }
        Ok(())
    }
}

fn number(text: &str) -> Result<u64, String> {
    text.parse().map_err(|_| format!("no number: {text}"))
}

/// A file of cases that counts what is written.
struct Cases {
    output: BufWriter<File>,
    tally: Tally,
    seen: u64,
    part: (u64, u64),
}

impl Cases {
    fn create(path: &str, part: (u64, u64)) -> io::Result<Cases> {
        Ok(Cases {
            output: BufWriter::with_capacity(1 << 20, File::create(path)?),
            tally: Tally::default(),
            seen: 0,
            part,
        })
    }

    fn take(&mut self, made: Made) -> io::Result<()> {
        let mine = self.seen % self.part.1 == self.part.0;
        self.seen += 1;
        if mine {
            let case = made.case();
            let bytes = format::write_record(&mut self.output, &case)?;
            self.tally.add(case.op, case.head.number, bytes);
        }
        Ok(())
    }

    fn end(mut self) -> io::Result<()> {
        self.output.flush()?;
        println!("{}", self.tally);
        Ok(())
    }
}

/// Makers hand out cases through a closure that cannot stop them; the first failure is kept.
fn collect(cases: &mut Cases, make: impl FnOnce(make::Take)) -> io::Result<()> {
    let mut outcome = Ok(());
    make(&mut |made| {
        if outcome.is_ok() {
            outcome = cases.take(made);
        }
    });
    outcome
}

fn write_cases(options: &Options) -> io::Result<()> {
    let mut cases = Cases::create(&options.out, options.part)?;
    let rng = |op: &u32| Rng::for_op(options.seed, *op);
    let mut rngs: Vec<(u32, Rng)> = options.ops.iter().map(|op| (*op, rng(op))).collect();
    for (op, rng) in &mut rngs {
        collect(&mut cases, |take| make::limits(*op, rng, take))?;
        collect(&mut cases, |take| make::exhaustive(*op, options.depth, rng, take))?;
    }
    while cases.seen < options.count {
        for (op, rng) in &mut rngs {
            if cases.seen < options.count {
                cases.take(make::random(*op, rng))?;
            }
        }
    }
    cases.end()
}

fn write_sample(options: &Options) -> io::Result<()> {
    let mut cases = Cases::create(&options.out, (0, 1))?;
    let share = options.bytes / options.ops.len();
    for op in &options.ops {
        for case in sample::of_operation(*op, options.seed, share) {
            cases.take(Made::Answered(case))?;
        }
    }
    cases.end()
}

fn write_document(options: &Options) -> io::Result<()> {
    let mut cases = Cases::create(&options.out, (0, 1))?;
    let make = if options.sample { document::sample } else { document::cases };
    collect(&mut cases, |take| make(options.seed, &mut |case| take(Made::Answered(case))))?;
    cases.end()
}

fn print_dump(arguments: &[String]) -> Result<(), String> {
    let path = arguments.first().ok_or("dump lacks its file")?;
    let first = arguments.get(1).map_or(Ok(0), |text| number(text))?;
    let count = arguments.get(2).map_or(Ok(u64::MAX), |text| number(text))?;
    let file = File::open(path).map_err(|error| format!("{path}: {error}"))?;
    let mut output = BufWriter::new(io::stdout());
    dump::dump(&mut BufReader::new(file), &mut output, first, count)
        .and_then(|()| output.flush())
        .map_err(|error| format!("{path}: {error}"))
}

#[cfg(feature = "messages")]
fn compare_messages(arguments: &[String]) -> Result<(), String> {
    let mut options = messages::Options::default();
    let mut out = None;
    let (flags, pairs): (Vec<&String>, Vec<&String>) =
        arguments.iter().partition(|name| *name == "--sample");
    for pair in pairs.chunks(2) {
        let [name, value] = pair else { return Err(format!("{} lacks its value", pair[0])) };
        match name.as_str() {
            "--seed" => options.seed = number(value)?,
            "--count" => options.count = number(value)?,
            "--depth" => options.depth = number(value)? as usize,
            "--short" => options.short = number(value)? as usize,
            "--out" => out = Some(value),
            _ => return Err(format!("unknown option {name}")),
        }
    }
    if let Some(path) = out {
        let written = File::create(path).and_then(|file| {
            let mut file = BufWriter::new(file);
            if flags.is_empty() {
                messages::write_cases(options.seed, options.count, &mut file)
            } else {
                messages::write_sample(options.seed, &mut file)
            }
        });
        let cases = written.map_err(|error| format!("{path}: {error}"))?;
        println!("{cases} cases");
        return Ok(());
    }
    if !flags.is_empty() {
        return Err("--out is missing".to_string());
    }
    let report = messages::compared(options);
    println!("{report}");
    match report.differences() {
        0 => Ok(()),
        _ => Err("ours and the crate differ".to_string()),
    }
}

#[cfg(not(feature = "messages"))]
fn compare_messages(_: &[String]) -> Result<(), String> {
    Err("this driver was built without the archive: build it with the feature messages".to_string())
}

#[cfg(not(feature = "messages"))]
mod forms {
    pub fn write(_: &crate::Options) -> std::io::Result<()> {
        Err(std::io::Error::other("this driver was built without the archive"))
    }
}

fn run(arguments: &[String]) -> Result<(), String> {
    let (command, rest) = arguments.split_first().ok_or(USAGE)?;
    let written = match command.as_str() {
        "dump" => return print_dump(rest),
        "messages" => return compare_messages(rest),
        "pairs" => return every::compare(rest),
        "cases" => {
            let options = Options::parse(rest)?;
            if options.sample {
                write_sample(&options)
            } else {
                write_cases(&options)
            }
        }
        "document" => write_document(&Options::parse(rest)?),
        "forms" => forms::write(&Options::parse(rest)?),
        "published" => published::write(&Options::parse(rest)?.out),
        _ => return Err(USAGE.to_string()),
    };
    written.map_err(|error| error.to_string())
}

fn main() -> ExitCode {
    let arguments: Vec<String> = std::env::args().skip(1).collect();
    match run(&arguments) {
        Ok(()) => ExitCode::SUCCESS,
        Err(message) => {
            eprintln!("{message}");
            ExitCode::FAILURE
        }
    }
}
