//! Compares the codec program with the second program's own reader and writer, line by line.

use super::outputs::cut;
use super::program;
use super::shrink::shrink;
use super::tally::{Name, Often, Tally};
use super::versions::VersionCounts;
use crate::check::{Claim, Report};
use crate::codec::fields::{Fields, Visit, Visitor};
use crate::codec::{self, Line};
use crate::generate::codec_cases;
use crate::generate::codec_lines::CodecLines;
use crate::numbers::Refusal;
use crate::pdu::read::{read, read_archive};
use crate::pdu::write::write;
use crate::pdu::Pdu;
use std::path::Path;
use std::process::ExitCode;

/// Lines.
pub const DEFAULT_COUNT: u64 = 200_000;
const OFTEN: Often = Often {
    least: 50,
    of: DEFAULT_COUNT,
};
/// So many lines, or a few more, are given to one run of the program.
const LINES_OF_A_RUN: usize = 1_000;
const PROGRESS_STEP: u64 = 20;
/// So many differing runs are cut down and shown; the table counts all differences.
const FAILURES_SHOWN: u32 = 3;

/// Refusals of reading; what is taken; the same of archive reading, which never answers 50; the
/// answers to each form that is to be written, in the order of document 01; and lines that cannot be
/// read.
const ANSWERS: &[(&str, &[&str])] = &[
    (
        "read",
        &[
            "1", "2", "3", "4", "5", "6", "7", "64", "9", "10", "11", "12", "8", "131", "132",
            "133", "134", "135", "136", "137", "138", "50", "14", "15",
        ],
    ),
    (
        "taken",
        &[
            "transmitter",
            "signal 0",
            "signal 1",
            "signal 2",
            "signal 6",
            "signal 7",
        ],
    ),
    (
        "archive",
        &[
            "1", "2", "3", "4", "5", "6", "7", "64", "9", "10", "11", "12", "8", "131", "132",
            "133", "134", "135", "136", "137", "138", "14", "15",
        ],
    ),
    (
        "archived",
        &[
            "transmitter",
            "signal 0",
            "signal 1",
            "signal 2",
            "signal 3",
            "signal 4",
            "signal 5",
            "signal 6",
            "signal 7",
        ],
    ),
    ("transmitter", &["2", "52", "9", "16", "written"]),
    (
        "signal",
        &[
            "2", "52", "10", "131", "132", "133", "134", "135", "136", "137", "138", "50", "14",
            "15", "16", "written",
        ],
    ),
    ("line", &["bad"]),
];

/// What a line asks for, and what it is answered.
fn name(line: &str, answer: &str) -> Name {
    let refusal = answer
        .split(' ')
        .skip_while(|&word| word != "refused")
        .nth(1);
    let written = refusal.unwrap_or("written").to_string();
    let (about, answer) = match Line::parse(line) {
        Some(Line::Read(datagram)) => name_of_reading(read(&datagram), "taken", "read"),
        Some(Line::Archive(datagram)) => {
            name_of_reading(read_archive(&datagram), "archived", "archive")
        }
        Some(Line::WriteTransmitter(..)) => ("transmitter", written),
        Some(Line::WriteSignal(..)) => ("signal", written),
        None => ("line", "bad".to_string()),
    };
    (about.to_string(), answer)
}

/// What a reading is about where it takes the datagram, or refuses it; and its answer.
fn name_of_reading(
    answer: Result<Pdu, Refusal>,
    taken: &'static str,
    refused: &'static str,
) -> (&'static str, String) {
    match answer {
        Ok(Pdu::Transmitter(_)) => (taken, "transmitter".to_string()),
        Ok(Pdu::Signal(record, _)) => (taken, format!("signal {}", record.network.message_type)),
        Err(refusal) => (refused, refusal.number().to_string()),
    }
}

/// What the two programs print for an input.
struct Outputs {
    own: String,
    other: String,
}

impl Outputs {
    /// The error is that the program cannot be run.
    fn of(program: &Path, input: &str) -> Result<Self, String> {
        Ok(Outputs {
            own: codec::run(input.as_bytes()),
            other: program::run(program, &[], input.as_bytes())?,
        })
    }

    fn differ(&self) -> bool {
        self.own != self.other
    }

    /// Prints each line that is answered differently, and both answers.
    fn print_differences(&self, input: &str) {
        let mut lines = input.split('\n');
        let mut own = self.own.split('\n');
        let mut other = self.other.split('\n');
        loop {
            let line = lines.next();
            match (own.next(), other.next()) {
                (None, None) => break,
                (own, other) if own == other => {}
                (own, other) => {
                    println!("  line:     {}", cut(line.unwrap_or("no line")));
                    println!("    second: {}", cut(own.unwrap_or("no line")));
                    println!("    other:  {}", cut(other.unwrap_or("no line")));
                }
            }
        }
    }
}

struct Comparison<'a> {
    program: &'a Path,
    tally: Tally,
    failures: u32,
}

impl Comparison<'_> {
    fn compare(&mut self, input: &str) -> Result<(), String> {
        let outputs = Outputs::of(self.program, input)?;
        let mut other = outputs.other.lines();
        for (line, own) in input.split('\n').zip(outputs.own.lines()) {
            self.tally
                .count(&name(line, own), other.next() != Some(own));
        }
        if outputs.differ() {
            self.failures += 1;
            if self.failures <= FAILURES_SHOWN {
                self.show_cut_down(input);
            }
        }
        Ok(())
    }

    /// Shows as few of the lines as still differ, and keeps them in a file.
    fn show_cut_down(&self, input: &str) {
        let lines: Vec<&str> = input.split_inclusive('\n').collect();
        let count = lines.len();
        let fails = |lines: &[&str]| {
            Outputs::of(self.program, &lines.concat()).is_ok_and(|outputs| outputs.differ())
        };
        let left = shrink(lines, fails);
        println!(
            "difference {}: {} of {count} lines",
            self.failures,
            left.len()
        );
        let left = left.concat();
        if let Ok(outputs) = Outputs::of(self.program, &left) {
            outputs.print_differences(&left);
        }
        let own = std::env::args().next().unwrap_or_default();
        let program = self.program.display();
        let file = format!("{own}-compare-codec-{}", self.failures);
        match std::fs::write(&file, left) {
            Ok(()) => println!("  again: {own} compare-codec --codec {program} --input {file}"),
            Err(error) => println!("  cannot write '{file}': {error}"),
        }
    }

    fn all_agree(&self) -> Claim {
        let mut claim = Claim::new("the outputs for all inputs");
        claim.sample(self.failures == 0, || format!("{} differ", self.failures));
        claim
    }
}

/// Runs the whole comparison and prints the outcome.
pub fn run(program: &Path, seed: u64, count: u64) -> Result<ExitCode, String> {
    println!("seed {seed}, {count} lines");
    let mut generator = CodecLines::new(seed);
    let mut extremes = Extremes::default();
    let mut versions = Versions::default();
    let mut behind = Behind::default();
    let mut comparison = Comparison {
        program,
        tally: Tally::new(ANSWERS),
        failures: 0,
    };
    for input in codec_cases::inputs() {
        comparison.compare(&input)?;
    }
    let (mut done, mut runs) = (0, 0);
    while done < count {
        let mut lines = Vec::new();
        while lines.len() < LINES_OF_A_RUN.min((count - done) as usize) {
            lines.extend(generator.next());
        }
        for line in &lines {
            extremes.add(line);
            versions.add(line);
            behind.add(line);
        }
        let input: String = lines.iter().map(|line| format!("{line}\n")).collect();
        comparison.compare(&input)?;
        done += lines.len() as u64;
        runs += 1;
        if runs % PROGRESS_STEP == 0 {
            eprintln!("compared {done} of {count} lines");
        }
    }
    let least = OFTEN.in_a_run_of(count);
    let mut report = Report::default();
    comparison.tally.print();
    comparison.tally.report(least, &mut report);
    report.count(&comparison.all_agree());
    extremes.report(least, &mut report);
    versions.report(least, &mut report);
    behind.report(least, &mut report);
    Ok(report.finish())
}

/// Compares the answers to the lines in a file, and fails if they differ.
pub fn compare_input(program: &Path, file: &str) -> Result<ExitCode, String> {
    let input = std::fs::read(file).map_err(|error| format!("cannot read '{file}': {error}"))?;
    let input = String::from_utf8_lossy(&input);
    let outputs = Outputs::of(program, &input)?;
    if !outputs.differ() {
        println!("both print the same {} lines", outputs.own.lines().count());
    }
    outputs.print_differences(&input);
    Ok(ExitCode::from(u8::from(outputs.differ())))
}

/// The versions of what is read and of what is written.
#[derive(Default)]
struct Versions {
    read: VersionCounts,
    written: VersionCounts,
}

impl Versions {
    fn add(&mut self, line: &Line) {
        match line {
            Line::Read(datagram) if read(datagram).is_ok() => self.read.count(datagram),
            Line::Read(_) | Line::Archive(_) => {}
            Line::WriteTransmitter(record, room) => self.write(&Pdu::Transmitter(*record), *room),
            Line::WriteSignal(record, body, room) => self.write(&Pdu::Signal(*record, body), *room),
        }
    }

    fn write(&mut self, pdu: &Pdu, room: usize) {
        let mut output = vec![0; room];
        if write(pdu, &mut output).is_ok() {
            self.written.count(&output);
        }
    }

    fn report(&self, least: u64, report: &mut Report) {
        self.read.report("read", least, report);
        self.written.report("written", least, report);
    }
}

/// How many datagrams were read that have bytes behind their first PDU, by each reading; the bytes are
/// not shown.
#[derive(Default)]
struct Behind {
    read: u64,
    archived: u64,
}

impl Behind {
    fn add(&mut self, line: &Line) {
        let is_longer = |datagram: &[u8], answer: Result<Pdu, Refusal>| {
            answer.is_ok_and(|pdu| pdu.size() < datagram.len())
        };
        match line {
            Line::Read(datagram) => self.read += u64::from(is_longer(datagram, read(datagram))),
            Line::Archive(datagram) => {
                let archived = is_longer(datagram, read_archive(datagram));
                self.archived += u64::from(archived);
            }
            _ => {}
        }
    }

    fn report(&self, least: u64, report: &mut Report) {
        let (read, archived) = (self.read, self.archived);
        let mut claim = Claim::new(format!(
            "first PDUs with bytes behind them: {read} read, {archived} read by archive reading"
        ));
        claim.sample(read.min(archived) >= least, || {
            format!("not {least} of each")
        });
        report.count_own(&claim);
    }
}

/// How often each field of the records to be written was 0, and the largest of its type.
#[derive(Default)]
struct Extremes {
    transmitter: Counts,
    signal: Counts,
}

impl Extremes {
    fn add(&mut self, line: &Line) {
        match line {
            Line::Read(_) | Line::Archive(_) => {}
            Line::WriteTransmitter(record, _) => self.transmitter.add(*record),
            Line::WriteSignal(record, ..) => self.signal.add(*record),
        }
    }

    fn report(&self, least: u64, report: &mut Report) {
        for (form, counts) in [("Transmitter", &self.transmitter), ("Signal", &self.signal)] {
            let what = format!("each field of a {form} is 0, and the largest of its type");
            let mut claim = Claim::new(format!("{what}, {least} times or more"));
            for (at, &[zero, largest]) in counts.fields.iter().enumerate() {
                claim.sample(zero.min(largest) >= least, || {
                    format!("field {at}: {zero} and {largest} times")
                });
            }
            report.count_own(&claim);
        }
    }
}

#[derive(Default)]
struct Counts {
    fields: Vec<[u64; 2]>,
    /// The field that comes next.
    at: usize,
}

impl Counts {
    fn add(&mut self, mut record: impl Fields) {
        self.at = 0;
        record.visit(&mut Visit(self));
    }
}

impl Visitor for Counts {
    fn visit(&mut self, value: u64, most: u64) -> u64 {
        if self.at == self.fields.len() {
            self.fields.push([0; 2]);
        }
        let [zero, largest] = &mut self.fields[self.at];
        *zero += u64::from(value == 0);
        *largest += u64::from(value == most);
        self.at += 1;
        value
    }
}
