//! Compares what a program prints with what the second program prints for the same standard
//! input, line by line.

use super::program;
use super::shrink::shrink;
use super::tally::{Name, Tally};
use crate::check::{Claim, Report};
use std::path::Path;
use std::process::ExitCode;

/// So many failures are cut down and shown; the table counts all differences.
const FAILURES_SHOWN: u32 = 3;
/// So many characters are shown of a long line.
const SHOWN_MAX: usize = 500;

/// The format that a program reads and prints.
pub struct Format {
    /// The command of the comparison, and its option that names the program.
    pub command: &'static str,
    pub option: &'static str,
    /// What the second program prints.
    pub own: fn(&[u8]) -> String,
    /// The answers that should occur, and the one that a printed line gives.
    pub answers: &'static [(&'static str, &'static [&'static str])],
    pub answer: fn(&str) -> Name,
    /// What each output is to keep to, whatever the second program prints.
    pub law: Option<Law>,
    /// The input in pieces, each of which may be left out, and a piece for a reader.
    pub pieces: fn(&[u8]) -> Vec<&[u8]>,
    pub show: fn(&[u8]) -> String,
    /// Smaller inputs that are not made by leaving out pieces alone.
    pub smaller: fn(&[u8]) -> Vec<Vec<u8>>,
}

pub struct Law {
    pub name: &'static str,
    /// In what the output for an input breaks the law. The program may be run on further inputs;
    /// the error is that it cannot be.
    pub breach: fn(&[u8], &str, Run) -> Result<Option<String>, String>,
}

/// What the program prints for an input.
pub type Run<'a> = &'a dyn Fn(&[u8]) -> Result<String, String>;

/// What the two programs print for an input.
struct Outputs {
    own: String,
    other: String,
    /// The first line that differs, counted from 0.
    difference: Option<usize>,
    breach: Option<String>,
}

impl Outputs {
    /// The error is that the program cannot be run.
    fn of(format: &Format, program: &Path, input: &[u8]) -> Result<Self, String> {
        let run = |input: &[u8]| program::run(program, &[], input);
        let own = (format.own)(input);
        let other = run(input)?;
        let lines = own.split('\n').zip(other.split('\n'));
        let same = lines.take_while(|(own, other)| own == other).count();
        let breach = match &format.law {
            Some(law) => (law.breach)(input, &other, &run)?,
            None => None,
        };
        Ok(Outputs {
            difference: Some(same).filter(|_| own != other),
            breach,
            own,
            other,
        })
    }

    fn failed(&self) -> bool {
        self.difference.is_some() || self.breach.is_some()
    }

    fn print_failure(&self) {
        if let Some(index) = self.difference {
            let line = |text: &str| cut(text.split('\n').nth(index).unwrap_or("no line"));
            println!("  printed line {}", index + 1);
            println!("    second: {}", line(&self.own));
            println!("    other:  {}", line(&self.other));
        }
        if let Some(breach) = &self.breach {
            println!("  {breach}");
        }
    }
}

/// A long line without its end.
pub fn cut(line: &str) -> String {
    match line.char_indices().nth(SHOWN_MAX) {
        Some((end, _)) => format!("{}..", &line[..end]),
        None => line.to_string(),
    }
}

pub struct Comparison<'a> {
    format: &'static Format,
    program: &'a Path,
    tally: Tally,
    failures: u32,
    breaches: u32,
}

impl<'a> Comparison<'a> {
    pub fn new(format: &'static Format, program: &'a Path) -> Self {
        Comparison {
            format,
            program,
            tally: Tally::new(format.answers),
            failures: 0,
            breaches: 0,
        }
    }

    /// Compares the outputs for one input; the error is that the program cannot be run.
    pub fn compare(&mut self, input: &[u8]) -> Result<(), String> {
        let outputs = Outputs::of(self.format, self.program, input)?;
        for (index, line) in outputs.own.lines().enumerate() {
            let differs = outputs.difference == Some(index);
            self.tally.count(&(self.format.answer)(line), differs);
        }
        self.failures += u32::from(outputs.failed());
        self.breaches += u32::from(outputs.breach.is_some());
        if outputs.failed() && self.failures <= FAILURES_SHOWN {
            println!("failure {}", self.failures);
            outputs.print_failure();
            self.show_cut_down(input);
        }
        Ok(())
    }

    /// Prints the table and counts its checks; one more that no input failed, and one that none
    /// broke the law.
    pub fn report(&self, least: u64, report: &mut Report) {
        let count = |what, failures, report: &mut Report| {
            let mut claim = Claim::new(what);
            claim.sample(failures == 0, || format!("{failures} failures"));
            report.count(&claim);
        };
        self.tally.print();
        self.tally.report(least, report);
        count("the outputs for all inputs", self.failures, report);
        if let Some(law) = &self.format.law {
            count(law.name, self.breaches, report);
        }
    }

    /// Cuts a failing input down, shows what is left, and keeps it in a file beside the second
    /// program.
    fn show_cut_down(&self, input: &[u8]) {
        let pieces = self.format.pieces;
        let left = self.cut_down(input);
        let (count, of) = (pieces(&left).len(), pieces(input).len());
        println!("  cut down to {count} of {of} parts");
        for piece in pieces(&left) {
            println!("    {}", cut(&(self.format.show)(piece)));
        }
        if let Ok(outputs) = Outputs::of(self.format, self.program, &left) {
            outputs.print_failure();
        }
        self.keep(&left);
    }

    /// The input as small as it can be made while it still fails.
    fn cut_down(&self, input: &[u8]) -> Vec<u8> {
        let fails = |input: &[u8]| {
            Outputs::of(self.format, self.program, input).is_ok_and(|outputs| outputs.failed())
        };
        let smaller = |input: &[u8]| {
            let inputs = (self.format.smaller)(input).into_iter();
            inputs.rev().find(|smaller| fails(smaller))
        };
        let mut left = input.to_vec();
        loop {
            let pieces = (self.format.pieces)(&left);
            left = shrink(pieces, |fewer| fails(&fewer.concat())).concat();
            let length = left.len();
            while let Some(smaller) = smaller(&left) {
                left = smaller;
            }
            if left.len() == length {
                return left;
            }
        }
    }

    fn keep(&self, input: &[u8]) {
        let Format {
            command, option, ..
        } = self.format;
        let own = std::env::args().next().unwrap_or_default();
        let program = self.program.display();
        let file = format!("{own}-{command}-{}", self.failures);
        match std::fs::write(&file, input) {
            Ok(()) => println!("  again: {own} {command} {option} {program} --input {file}"),
            Err(error) => println!("  cannot write '{file}': {error}"),
        }
    }
}

/// Compares the outputs for the input in a file, and fails if they differ.
pub fn compare_input(format: &Format, program: &Path, file: &str) -> Result<ExitCode, String> {
    let input = std::fs::read(file).map_err(|error| format!("cannot read '{file}': {error}"))?;
    let outputs = Outputs::of(format, program, &input)?;
    if !outputs.failed() {
        println!("both print the same {} lines", outputs.own.lines().count());
    }
    outputs.print_failure();
    Ok(ExitCode::from(u8::from(outputs.failed())))
}
