//! Compares the archive's answers with the second program's own.

use super::tally::{Often, Tally};
use crate::check::Report;
use crate::hex;
use crate::pdu::read::Answer;
use std::process::ExitCode;

/// So many differences are printed in full; the table counts them all.
const DIFFERENCES_SHOWN: u64 = 5;
const OFTEN: Often = Often {
    least: 100,
    of: 1_000_000,
};
const PROGRESS_STEP: u64 = 100_000;

/// What the archive and the second program answer to: datagrams, or records.
pub struct Subject {
    /// In the plural.
    pub name: &'static str,
    /// The archive's call.
    pub call: &'static str,
    pub own: fn(&[u8]) -> Answer,
    pub archive: fn(&[u8]) -> Answer,
    /// The answers, each with what it is about.
    pub answers: &'static [(&'static str, &'static [u32])],
    /// What an answer of this number to these bytes is about.
    pub about: fn(&[u8], u32) -> String,
    /// The command of the whole comparison, and that of a single one.
    pub command: &'static str,
    pub command_of_one: &'static str,
}

/// Compares so many samples in each comparison, and hands each on to further checks.
pub fn run(
    comparisons: &mut [Comparison],
    name: &str,
    (seed, count): (u64, u64),
    mut sample: impl FnMut() -> Vec<u8>,
    mut check: impl FnMut(&[u8]),
) {
    println!("seed {seed}, {count} {name}");
    for done in 1..=count {
        let bytes = sample();
        for comparison in comparisons.iter_mut() {
            comparison.compare(done, &bytes);
        }
        check(&bytes);
        if done % PROGRESS_STEP == 0 {
            eprintln!("compared {done} of {count} {name}");
        }
    }
}

/// How often an answer is to occur among so many samples.
pub fn least(count: u64) -> u64 {
    OFTEN.in_a_run_of(count)
}

pub struct Comparison {
    subject: &'static Subject,
    seed: u64,
    tally: Tally,
    differences: u64,
}

impl Comparison {
    pub fn new(subject: &'static Subject, seed: u64) -> Self {
        Comparison {
            subject,
            seed,
            tally: Tally::new(subject.answers),
            differences: 0,
        }
    }

    /// Prints the table and counts a check for each answer.
    pub fn report(&self, least: u64, report: &mut Report) {
        println!("{}", self.subject.call);
        self.tally.print();
        self.tally.report(least, report);
    }

    fn compare(&mut self, index: u64, bytes: &[u8]) {
        let own = (self.subject.own)(bytes);
        let archive = (self.subject.archive)(bytes);
        let about = (self.subject.about)(bytes, own.number);
        let differ = own != archive;
        self.tally.count(&(about, own.number.to_string()), differ);
        if differ {
            self.show_difference(index, bytes, archive, own);
        }
    }

    fn show_difference(&mut self, index: u64, bytes: &[u8], archive: Answer, own: Answer) {
        self.differences += 1;
        if self.differences > DIFFERENCES_SHOWN {
            return;
        }
        let program = std::env::args().next().unwrap_or_default();
        let Subject {
            name,
            call,
            command,
            command_of_one,
            ..
        } = self.subject;
        let (seed, bytes) = (self.seed, hex::encode(bytes));
        println!("difference at number {index} of the {name}, {call}");
        println!("  bytes:    {bytes}");
        print_answers(archive, own);
        println!("  this one: {program} {command_of_one} {bytes}");
        println!("  the run:  {program} {command} --seed {seed} --count {index}");
    }
}

fn print_answers(archive: Answer, own: Answer) {
    let print = |who, answer: Answer| {
        println!("  {who:<9} number {}, size {}", answer.number, answer.size);
    };
    print("archive:", archive);
    print("second:", own);
}

/// Both answers to one sample; fails if they differ.
pub fn compare_one(subject: &Subject, bytes: &[u8]) -> ExitCode {
    let archive = (subject.archive)(bytes);
    let own = (subject.own)(bytes);
    print_answers(archive, own);
    ExitCode::from(u8::from(archive != own))
}
