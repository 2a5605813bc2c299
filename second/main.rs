//! The second program: document 01, with the requests of document 02 that have landed, once more,
//! written from their text alone. It compares its answers with those of the proved archive and of the
//! proved programs.

mod archive;
mod bench;
mod bytes;
mod check;
mod codec;
mod compare;
mod generate;
mod hex;
mod jobs;
mod numbers;
mod pdu;
mod plans;
mod random;
mod sample;
mod trunk;

use compare::archive_reading::ARCHIVE_READING;
use compare::datagrams::DATAGRAMS;
use compare::jobs::JOBS;
use compare::lister::LISTER;
use compare::records::RECORDS;
use compare::replay::REPLAY;
use std::io::Read;
use std::path::Path;
use std::process::ExitCode;

const USAGE: &str = "usage:
  second compare [--seed S] [--count N]           the archive's answers to N datagrams, by both readings
  second compare-records [--seed S] [--count N]   the archive's answers to N trunk records
  second compare-lister --lister PROGRAM [--seed S] [--count N]   a lister on N streams
  second compare-replay --replay PROGRAM [--seed S] [--count N]   a replay on N calls
  second compare-codec --codec PROGRAM [--seed S] [--count N]     a codec on N lines
  second compare-jobs --bench PROGRAM             a bench program on a few small jobs
  second compare-plans --planner PROGRAM --plancheck PROGRAM [--seed S] [--count N]
                                                  a planner and a check of plans on N lists of rates
  second compare-lister --lister PROGRAM --input FILE   a lister on one stream
  second compare-replay --replay PROGRAM --input FILE   a replay on one script
  second compare-codec --codec PROGRAM --input FILE     a codec on these lines
  second compare-jobs --bench PROGRAM --input FILE      a bench program on these jobs
  second one HEX      both answers to one datagram; - is an empty one
  second archive HEX  both answers to one datagram of an old capture; - is an empty one
  second record HEX   both answers to one record; - is an empty one
  second list         list the trunk records on standard input, as the lister does
  second replay       make the calls on standard input, as replay does
  second codec        read and write the lines on standard input, as codec does
  second jobs         run the jobs on standard input, as the bench program does
  second exercise     print a sample exercise, a script for replay
  second tell         tell what the output of replay on standard input says
  second plan-job     run the job on standard input, as planbench does
  second bench --bench PROGRAM --planbench PROGRAM
                      time the archive and the bench programs against this one";

const DEFAULT_SEED: u64 = 1;
const BAD_ARGUMENTS: u8 = 2;

fn main() -> ExitCode {
    let words: Vec<String> = std::env::args().skip(1).collect();
    let words: Vec<&str> = words.iter().map(String::as_str).collect();
    match run(&words) {
        Ok(status) => status,
        Err(message) => {
            eprintln!("second: {message}\n{USAGE}");
            ExitCode::from(BAD_ARGUMENTS)
        }
    }
}

fn run(words: &[&str]) -> Result<ExitCode, String> {
    match words {
        ["compare", options @ ..] => {
            let (seed, count) = settings(options, compare::datagrams::DEFAULT_COUNT)?;
            Ok(compare::datagrams::run(seed, count))
        }
        ["compare-records", options @ ..] => {
            let (seed, count) = settings(options, compare::records::DEFAULT_COUNT)?;
            Ok(compare::records::run(seed, count))
        }
        ["compare-lister", "--lister", program, rest @ ..] => compare_lister(program, rest),
        ["compare-replay", "--replay", program, rest @ ..] => compare_replay(program, rest),
        ["compare-codec", "--codec", program, rest @ ..] => compare_codec(program, rest),
        ["compare-jobs", "--bench", program, rest @ ..] => compare_jobs(program, rest),
        ["compare-plans", "--planner", planner, "--plancheck", plancheck, rest @ ..] => {
            let (seed, count) = settings(rest, compare::plans::DEFAULT_COUNT)?;
            compare::plans::run(Path::new(planner), Path::new(plancheck), seed, count)
        }
        ["one", text] => Ok(compare::compare_one(&DATAGRAMS, &bytes(text)?)),
        ["archive", text] => Ok(compare::compare_one(&ARCHIVE_READING, &bytes(text)?)),
        ["record", text] => Ok(compare::compare_one(&RECORDS, &bytes(text)?)),
        ["list"] => print(trunk::lister::list(&input()?)),
        ["replay"] => print(trunk::replay::run(&input()?)),
        ["codec"] => print(codec::run(&input()?)),
        ["jobs"] => print(jobs::run(&input()?)),
        ["exercise"] => print(sample::exercise::script()),
        ["tell"] => print(sample::tell::tell(&String::from_utf8_lossy(&input()?))?),
        ["plan-job"] => print(bench::plans::run_job(&String::from_utf8_lossy(&input()?))?),
        ["bench", "--bench", program, "--planbench", planbench] => {
            bench::run(Path::new(program), Path::new(planbench))?;
            Ok(ExitCode::SUCCESS)
        }
        [] => Err("no command".to_string()),
        _ => Err(format!("cannot read '{}'", words.join(" "))),
    }
}

fn compare_lister(program: &str, rest: &[&str]) -> Result<ExitCode, String> {
    let program = Path::new(program);
    if let ["--input", file] = rest {
        return compare::compare_input(&LISTER, program, file);
    }
    let (seed, count) = settings(rest, compare::lister::DEFAULT_COUNT)?;
    compare::lister::run(program, seed, count)
}

fn compare_replay(program: &str, rest: &[&str]) -> Result<ExitCode, String> {
    let program = Path::new(program);
    if let ["--input", file] = rest {
        return compare::compare_input(&REPLAY, program, file);
    }
    let (seed, count) = settings(rest, compare::replay::DEFAULT_COUNT)?;
    compare::replay::run(program, seed, count)
}

fn compare_codec(program: &str, rest: &[&str]) -> Result<ExitCode, String> {
    let program = Path::new(program);
    if let ["--input", file] = rest {
        return compare::codec::compare_input(program, file);
    }
    let (seed, count) = settings(rest, compare::codec::DEFAULT_COUNT)?;
    compare::codec::run(program, seed, count)
}

fn compare_jobs(program: &str, rest: &[&str]) -> Result<ExitCode, String> {
    let program = Path::new(program);
    match rest {
        [] => compare::jobs::run(program),
        ["--input", file] => compare::compare_input(&JOBS, program, file),
        _ => Err(format!("cannot read '{}'", rest.join(" "))),
    }
}

/// The seed and the count.
fn settings(options: &[&str], default_count: u64) -> Result<(u64, u64), String> {
    let mut seed = DEFAULT_SEED;
    let mut count = default_count;
    for option in options.chunks(2) {
        match option {
            ["--seed", value] => seed = number(value)?,
            ["--count", value] => count = number(value)?,
            _ => return Err(format!("cannot read '{}'", option.join(" "))),
        }
    }
    if count == 0 {
        return Err("--count is at least 1".to_string());
    }
    Ok((seed, count))
}

fn number(text: &str) -> Result<u64, String> {
    text.parse()
        .map_err(|_| format!("'{text}' is not a whole number"))
}

fn bytes(text: &str) -> Result<Vec<u8>, String> {
    hex::decode(text).ok_or_else(|| format!("'{text}' is not hex"))
}

/// All of standard input.
fn input() -> Result<Vec<u8>, String> {
    let mut input = Vec::new();
    let read = std::io::stdin().read_to_end(&mut input);
    read.map_err(|error| format!("cannot read standard input: {error}"))?;
    Ok(input)
}

fn print(text: String) -> Result<ExitCode, String> {
    print!("{text}");
    Ok(ExitCode::SUCCESS)
}
