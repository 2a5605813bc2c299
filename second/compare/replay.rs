//! Compares the replay program with the second program's own ends, and holds it to demand 3.

use super::absences::Absences;
use super::bundles::Bundles;
use super::demand3::{self, Fault};
use super::judge_check;
use super::known_cases;
use super::offers::Offers;
use super::outputs::{Comparison, Format, Law, Run};
use super::tally::{Name, Often};
use crate::check::{Claim, Report};
use crate::generate::line_cases;
use crate::generate::scripts;
use crate::pdu::read::read;
use crate::random::Random;
use crate::trunk::record::{Kind, Record, HEAD_SIZE};
use crate::trunk::replay;
use crate::trunk::script::{self, Line, Outcome};
use std::collections::BTreeSet;
use std::path::Path;
use std::process::ExitCode;

/// Calls.
pub const DEFAULT_COUNT: u64 = 300_000;
const OFTEN: Often = Often {
    least: 10,
    of: DEFAULT_COUNT,
};
const PROGRESS_STEP: u64 = 100;

/// Answers stand in the order of documents 01 and 02. Left out is 25 to an offer, for which more PDUs
/// would have to be accepted than a script has. Of the PDUs delivered, the Signals of types 1 and 2
/// are told apart, and at the end the stations that timing messages made Fine, and their limits.
pub const REPLAY: Format = Format {
    command: "compare-replay",
    option: "--replay",
    own: replay::run,
    answers: &[
        ("station", &["0", "37"]),
        ("store", &["made"]),
        ("poke", &["done"]),
        (
            "offer",
            &[
                "28", "1", "2", "3", "4", "5", "6", "7", "64", "8", "9", "10", "11", "12", "131",
                "132", "133", "134", "135", "136", "137", "138", "50", "14", "15", "23", "51",
                "24", "taken",
            ],
        ),
        ("send", &["28", "26", "20", "29", "16", "written"]),
        ("near", &["20", "21", "29", "27", "taken"]),
        (
            "far",
            &["20", "21", "29", "25", "22", "16", "repeat", "early"],
        ),
        (
            "delivered",
            &[
                "40", "41", "30", "31", "32", "33", "34", "42", "43", "35", "44",
            ],
        ),
        ("type 1", &["31", "32", "33", "44"]),
        ("type 2", &["31", "32", "33", "34", "47", "44"]),
        ("clock", &["36", "46"]),
        ("end", &["counts", "waiting", "coarse", "fine"]),
        ("end", &["timing", "fine by timing", "unit", "bad line"]),
        ("end", &["limit 24", "limit 60", "limit 96", "limit 600"]),
        ("end", &["another limit"]),
    ],
    answer,
    law: Some(Law {
        name: "demand 3, for fair scripts and where they go on with record k and its reply",
        breach,
    }),
    pieces: |input| input.split_inclusive(|&byte| byte == b'\n').collect(),
    show: |line| {
        String::from_utf8_lossy(line)
            .trim_end_matches('\n')
            .to_string()
    },
    smaller: without_one_pdu,
};

fn answer(line: &str) -> Name {
    let words: Vec<&str> = line.split(' ').collect();
    let (about, answer) = match words[..] {
        ["far", "delivered", _, answer, ..] => (about_delivered(line), answer),
        ["far", "repeat" | "early", ..] => ("far", words[1]),
        ["state", _, _, _, state, _] => ("end", state),
        ["timing", exchanges, count] if exchanges == count => ("end", "fine by timing"),
        ["limit", "24" | "60" | "96" | "600"] => ("end", line),
        ["limit", _] => ("end", "another limit"),
        ["counts" | "timing" | "unit", ..] => ("end", words[0]),
        ["bad", ..] => ("end", "bad line"),
        ["store", _] => ("store", "made"),
        ["poke", _] => ("poke", "done"),
        ["send", _, _] if words[1] != "refused" => ("send", "written"),
        ["offer" | "near", _] => (words[0], "taken"),
        [about, .., answer] => (about, answer),
        _ => ("", line),
    };
    (about.to_string(), answer.to_string())
}

/// The message type of a Signal of round-trip timing that the line puts out.
fn about_delivered(line: &str) -> &'static str {
    let Some(Outcome::Delivered { pdu, .. }) = Outcome::parse(line) else {
        return "delivered";
    };
    match read(&pdu).as_ref().map(Kind::carrying) {
        Ok(Some(Kind::Rtt)) => "type 1",
        Ok(Some(Kind::RttReply)) => "type 2",
        _ => "delivered",
    }
}

/// The script without the arrivals of one PDU, those of later PDUs numbered one less; so for each
/// PDU.
fn without_one_pdu(input: &[u8]) -> Vec<Vec<u8>> {
    let (lines, _) = script::parse(input);
    let numbers: BTreeSet<u32> = lines.iter().filter_map(arriving).collect();
    let text = |left_out: u32| {
        let lines = lines.iter().filter(|line| arriving(line) != Some(left_out));
        let moved = lines.map(|line| format!("{}\n", moved_up(line, left_out)));
        moved.collect::<String>().into_bytes()
    };
    numbers.into_iter().map(text).collect()
}

/// The number of the PDU that arrives at the far end.
fn arriving(line: &Line) -> Option<u32> {
    let Line::Far { record, .. } = line else {
        return None;
    };
    let record = Record::split(record).ok()?;
    Some(record.number).filter(|_| record.kind != Kind::Reply)
}

fn moved_up(line: &Line, left_out: u32) -> Line {
    let mut line = line.clone();
    if let Some(number) = arriving(&line).filter(|&number| number > left_out) {
        if let Line::Far { record, .. } = &mut line {
            record[1..HEAD_SIZE].copy_from_slice(&(number - 1).to_be_bytes());
        }
    }
    line
}

/// Judges the output, and what is printed where the script goes on with record k and its reply.
fn breach(input: &[u8], output: &str, run: Run) -> Result<Option<String>, String> {
    let longer = match demand3::judge(input, output) {
        Err(Fault::Broken(sentence)) => return Ok(Some(sentence)),
        Err(Fault::NotFair) => None,
        Ok(history) => history.handover().map(|calls| going_on(input, &calls)),
    };
    let Some(longer) = longer else {
        return Ok(None);
    };
    let fault = demand3::judge(&longer, &run(&longer)?).err();
    Ok(fault.map(|fault| format!("with record k and its reply handed over at the end, {fault}")))
}

/// The script with these lines behind it.
pub fn going_on(input: &[u8], lines: &[Line]) -> Vec<u8> {
    let mut longer = input.to_vec();
    if longer.last().is_some_and(|&byte| byte != b'\n') {
        longer.push(b'\n');
    }
    for line in lines {
        longer.extend(format!("{line}\n").bytes());
    }
    longer
}

/// How much was compared.
#[derive(Default)]
struct Extent {
    scripts: u64,
    calls: u64,
}

impl Extent {
    /// Adds a script with what is printed for it.
    fn add(&mut self, output: &str) {
        let calls = output.lines().filter(|line| is_call(line)).count();
        self.scripts += 1;
        self.calls += calls as u64;
    }

    fn is_half_of(&self, all: &Extent) -> bool {
        2 * self.scripts >= all.scripts && 2 * self.calls >= all.calls
    }
}

/// A printed line of a call; the others are of the first two lines, of somebody else's writing into
/// the store, and of the end.
fn is_call(line: &str) -> bool {
    let (about, _) = answer(line);
    !["station", "store", "poke", "end"].contains(&about.as_str())
}

/// All scripts, those that are fair, and of these the ones that leave a record to hand over.
#[derive(Default)]
struct Extents {
    all: Extent,
    fair: Extent,
    handed_over: Extent,
}

impl Extents {
    /// Adds a script with what is printed for it.
    fn add(&mut self, script: &[u8], output: &str) {
        self.all.add(output);
        let judged = demand3::judge(script, output);
        if judged != Err(Fault::NotFair) {
            self.fair.add(output);
        }
        if judged.is_ok_and(|history| history.handover().is_some()) {
            self.handed_over.add(output);
        }
    }

    /// Counts a check that enough scripts are fair, and one that enough of these leave a record.
    fn report(&self, report: &mut Report) {
        let Extents {
            all,
            fair,
            handed_over,
        } = self;
        let mut claim = Claim::new(format!(
            "{} of {} scripts and {} of {} calls are fair, half or more",
            fair.scripts, all.scripts, fair.calls, all.calls
        ));
        claim.sample(fair.is_half_of(all), || "fewer".to_string());
        report.count_own(&claim);
        let mut claim = Claim::new(format!(
            "{} of {} fair scripts leave a record to hand over, half or more",
            handed_over.scripts, fair.scripts
        ));
        claim.sample(handed_over.is_half_of(fair), || "fewer".to_string());
        report.count_own(&claim);
    }
}

/// Runs the whole comparison and prints the outcome.
pub fn run(program: &Path, seed: u64, count: u64) -> Result<ExitCode, String> {
    println!("seed {seed}, {count} calls");
    let mut seeds = Random::new(seed);
    let mut comparison = Comparison::new(&REPLAY, program);
    for script in line_cases::scripts() {
        comparison.compare(script.as_bytes())?;
    }
    let mut extents = Extents::default();
    let mut offers = Offers::new();
    let mut bundles = Bundles::new();
    let mut absences = Absences::new();
    while extents.all.calls < count {
        let script = scripts::script(seeds.next());
        comparison.compare(&script)?;
        let printed = replay::run(&script);
        extents.add(&script, &printed);
        offers.add(&script, &printed);
        bundles.add(&script);
        absences.add(&script);
        let Extent { scripts, calls } = extents.all;
        if scripts % PROGRESS_STEP == 0 {
            eprintln!("compared {scripts} scripts, {calls} calls");
        }
    }
    let mut report = Report::default();
    let least = OFTEN.in_a_run_of(count);
    comparison.report(least, &mut report);
    offers.report(least, &mut report);
    bundles.report(least, &mut report);
    absences.report(least, &mut report);
    extents.report(&mut report);
    known_cases::run(&mut report);
    judge_check::run(&mut report);
    Ok(report.finish())
}
