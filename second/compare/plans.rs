//! Compares the programs planner and plancheck with R-14, tried slot by slot.

use super::program;
use super::tally::{Often, Tally};
use crate::check::{Claim, Report};
use crate::plans::{self, generate, text, Block, Verdict};
use crate::random::Random;
use std::path::Path;
use std::process::ExitCode;

/// Lists of rates.
pub const DEFAULT_COUNT: u64 = 300;
const OFTEN: Often = Often {
    least: 10,
    of: DEFAULT_COUNT,
};
const PROGRESS: u64 = 50;
/// Damaged plans for each plan.
const DAMAGED: usize = 3;
/// Differences told in full.
const TOLD: u64 = 5;

struct Comparison<'a> {
    planner: &'a Path,
    plancheck: &'a Path,
    tally: Tally,
    differences: u64,
}

/// Runs the whole comparison and prints the outcome.
pub fn run(planner: &Path, plancheck: &Path, seed: u64, count: u64) -> Result<ExitCode, String> {
    println!("seed {seed}, {count} lists of rates");
    let mut random = Random::new(seed);
    let mut comparison = Comparison {
        planner,
        plancheck,
        tally: Tally::new(&[
            ("planner", &["plan", "61", "62", "63"]),
            ("plancheck", &["accepted", "61", "62", "not a plan"]),
        ]),
        differences: 0,
    };
    for turn in 0..count {
        if turn % PROGRESS == 0 {
            eprintln!("{turn} of {count}");
        }
        let rates = generate::rates(&mut random);
        comparison.compare(&mut random, &rates)?;
    }
    comparison.tally.print();
    let mut report = Report::default();
    comparison
        .tally
        .report(OFTEN.in_a_run_of(count), &mut report);
    report.count_own(&known());
    Ok(report.finish())
}

impl Comparison<'_> {
    /// Has the rates planned, and plans and damaged plans checked.
    fn compare(&mut self, random: &mut Random, rates: &[u8]) -> Result<(), String> {
        let printed = program::run(self.planner, &[], text::rates(rates).as_bytes())?;
        let blocks = text::read_blocks(&printed);
        let (answer, right) = match planner_refuses(rates) {
            Some(number) => (number.to_string(), printed == format!("refused {number}\n")),
            None => ("plan".to_string(), is_plan(rates, blocks.as_deref())),
        };
        self.count("planner", answer, right, || {
            format!("planner on {rates:?} prints {printed:?}")
        });
        let blocks = blocks.unwrap_or_default();
        self.check(rates, &blocks)?;
        self.check(rates, &generate::moved(random, &blocks))?;
        for _ in 0..DAMAGED {
            self.check(rates, &generate::damaged(random, &blocks))?;
        }
        Ok(())
    }

    fn check(&mut self, rates: &[u8], blocks: &[Block]) -> Result<(), String> {
        let input = format!("{}-\n{}", text::rates(rates), text::blocks(blocks));
        let printed = program::run(self.plancheck, &[], input.as_bytes())?;
        let verdict = plans::check(rates, blocks);
        let expected = text::verdict(verdict);
        let answer = expected
            .trim_end()
            .trim_start_matches("refused ")
            .to_string();
        self.count("plancheck", answer, printed == expected, || {
            format!("plancheck on {rates:?} and {blocks:?} prints {printed:?}, not {expected:?}")
        });
        Ok(())
    }

    fn count(&mut self, about: &str, answer: String, right: bool, tell: impl Fn() -> String) {
        self.tally.count(&(about.to_string(), answer), !right);
        if !right {
            self.differences += 1;
            if self.differences <= TOLD {
                println!("differs: {}", tell());
            }
        }
    }
}

/// The number that the planner is to print, if one: an output is never too short there.
fn planner_refuses(rates: &[u8]) -> Option<u8> {
    plans::rates_refused(rates).or_else(|| plans::wants_too_many(rates).then_some(63))
}

fn is_plan(rates: &[u8], blocks: Option<&[Block]>) -> bool {
    blocks.is_some_and(|blocks| plans::check(rates, blocks) == Verdict::Accepted)
}

/// The check on itself: three whole sets are a plan; two blocks of one set and remainder are none.
fn known() -> Claim {
    let mut claim = Claim::new("the check by every slot, on itself");
    let whole = |set| Block {
        set,
        first: 0,
        rate: 15,
    };
    let sets = [whole(0), whole(1), whole(2)];
    let verdict = plans::check(&[15, 15, 15], &sets);
    claim.sample(verdict == Verdict::Accepted, || {
        format!("{sets:?}: {verdict:?}")
    });
    let one = Block {
        set: 1,
        first: 5,
        rate: 3,
    };
    let verdict = plans::check(&[15, 3], &[whole(1), one]);
    claim.sample(verdict == Verdict::NotAPlan, || {
        format!("{one:?}: {verdict:?}")
    });
    claim
}
