//! Compares the lister with the second program's own.

use super::outputs::{Comparison, Format};
use super::tally::{Name, Often};
use crate::check::{Claim, Report};
use crate::generate::streams::{StreamGenerator, LONG_MIN};
use crate::hex;
use crate::trunk::lister;
use std::path::Path;
use std::process::ExitCode;

/// Streams.
pub const DEFAULT_COUNT: u64 = 600;
const OFTEN: Often = Often {
    least: 10,
    of: DEFAULT_COUNT,
};

pub const LISTER: Format = Format {
    command: "compare-lister",
    option: "--lister",
    own: lister::list,
    answers: &[
        ("heading", &["heading"]),
        ("record", &["ack", "signal", "transmitter"]),
        ("refused", &["20", "21", "25", "22"]),
    ],
    answer,
    law: None,
    pieces: lister::split,
    show: hex::encode,
    smaller: |_| Vec::new(),
};

fn answer(line: &str) -> Name {
    let words: Vec<&str> = line.split(' ').collect();
    let (about, answer) = match words[..] {
        [_, "refused", number] => ("refused", number),
        ["record", ..] => ("heading", "heading"),
        [_, kind, ..] => ("record", kind),
        _ => ("", line),
    };
    (about.to_string(), answer.to_string())
}

/// Runs the whole comparison and prints the outcome.
pub fn run(program: &Path, seed: u64, count: u64) -> Result<ExitCode, String> {
    println!("seed {seed}, {count} streams");
    let mut generator = StreamGenerator::new(seed);
    let mut comparison = Comparison::new(&LISTER, program);
    let mut report = Report::default();
    let (mut long, mut empty) = (0, 0);
    comparison.compare(&KNOWN_STREAM)?;
    for _ in 0..count {
        let stream = generator.stream();
        long += u64::from(stream.len() > LONG_MIN);
        empty += u64::from(stream.is_empty());
        comparison.compare(&stream)?;
    }
    let least = OFTEN.in_a_run_of(count);
    comparison.report(least, &mut report);
    for (what, occurred) in [("long streams", long), ("empty streams", empty)] {
        let mut claim = Claim::new(what);
        claim.sample(occurred >= least, || format!("{occurred} occurred"));
        report.count_own(&claim);
    }
    report.count_own(&known());
    Ok(report.finish())
}

/// The lister's case in document 01, "Sizes and edges".
const KNOWN_STREAM: [u8; 6] = [0x20, 0, 0, 0, 5, 0x21];
const KNOWN_OUTPUT: &str = "\
record kind number bytes
0 ack 5 5
1 refused 20
";

fn known() -> Claim {
    let mut claim = Claim::new("the lister's case in document 01");
    let printed = lister::list(&KNOWN_STREAM);
    claim.sample(printed == KNOWN_OUTPUT, || printed.clone());
    claim
}
