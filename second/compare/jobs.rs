//! Compares the bench program with the second program's own jobs, so that what is timed does the
//! same.

use super::outputs::{Comparison, Format};
use super::tally::Name;
use crate::check::Report;
use crate::jobs;
use crate::trunk::record::Kind;
use crate::trunk::station::PLACES;
use std::path::Path;
use std::process::ExitCode;

/// More than there are bytes in a PDU.
const TIMES: u32 = 200;

pub const JOBS: Format = Format {
    command: "compare-jobs",
    option: "--bench",
    own: jobs::run,
    answers: &[
        (
            "cycle",
            &[
                "0", "1", "2", "3", "4", "5", "6", "7", "8", "9", "10", "11", "12", "16",
            ],
        ),
        (
            "heard",
            &[
                "0", "1", "2", "3", "4", "5", "6", "7", "8", "9", "10", "11", "12", "13", "14",
                "15", "16",
            ],
        ),
        ("bad", &["line"]),
    ],
    answer,
    law: None,
    pieces: |input| input.split_inclusive(|&byte| byte == b'\n').collect(),
    show: |line| String::from_utf8_lossy(line).trim_end().to_string(),
    smaller: |_| Vec::new(),
};

fn answer(line: &str) -> Name {
    let mut words = line.split(' ').map(str::to_string);
    let mut next = || words.next().unwrap_or_default();
    (next(), next())
}

/// Each of these is behind a line that can be read, and before one.
const BAD_LINES: [&str; 27] = [
    "",
    " ",
    "cycle",
    "cycle 1",
    "cycle 1 ",
    "cycle 1 1 ",
    "cycle 1 1 1",
    "cycle  1 1",
    "cycle 1  1",
    " cycle 1 1",
    "cycle\t1 1",
    "cycle 1 1\r",
    "cycles 1 1",
    "clock 1 1",
    "cycle 1 x",
    "cycle x 1",
    "cycle -1 1",
    "cycle 1 +1",
    "cycle 13 1",
    "cycle 15 1",
    "cycle 17 1",
    "cycle 18 1",
    "cycle 19 1",
    "cycle 32 1",
    "cycle 256 1",
    "cycle 1 1000000000",
    "heard 17 1",
];

/// Runs the whole comparison and prints the outcome.
pub fn run(program: &Path) -> Result<ExitCode, String> {
    let mut comparison = Comparison::new(&JOBS, program);
    let kinds = Kind::all().filter(|&kind| jobs::has_cycle(kind));
    let cycles = kinds.map(|kind| format!("cycle {} {TIMES}\n", kind.byte()));
    let heard = (0..=PLACES).map(|units| format!("heard {units} {TIMES}\n"));
    let all: String = cycles.chain(heard).collect();
    comparison.compare(all.as_bytes())?;
    for input in ["", "cycle 0 0\nheard 016 0\n", "cycle 1 1"] {
        comparison.compare(input.as_bytes())?;
    }
    for line in BAD_LINES {
        comparison.compare(format!("heard 2 1\n{line}\nheard 2 1\n").as_bytes())?;
    }
    let mut report = Report::default();
    comparison.report(1, &mut report);
    Ok(report.finish())
}
