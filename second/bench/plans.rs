//! Times planning for 64 rates and the check of their plan, against plain code for the same job.
//! This planner is for timing alone: no comparison rests on it.

use super::table::{print_heading, Rounds};
use crate::compare::program;
use std::path::Path;
use std::time::Instant;

const ROUNDS: usize = 11;
const RATES: usize = 64;
const PLANS: u64 = 20_000;
const CHECKS: u64 = 100_000;
/// What the jobs' sums are taken modulo.
const MODULUS: u64 = 1_000_003;

#[derive(Clone, Copy, Default)]
struct Block {
    set: u8,
    rate: u8,
    first: u16,
}

/// Prints a row for each job.
pub fn time(program: &Path) -> Result<(), String> {
    print_heading("plans for 64 rates");
    time_job(program, "plan", PLANS)?;
    time_job(program, "check", CHECKS)
}

fn time_job(program: &Path, job: &str, times: u64) -> Result<(), String> {
    let second = std::env::current_exe();
    let second = second.map_err(|error| format!("cannot find this program: {error}"))?;
    let line = format!("{job} {times}\n");
    eprint!("timing {line}");
    let mut rounds = Rounds::default();
    for _ in 0..ROUNDS {
        let (printed, nanoseconds) = timed(program, &[], &line)?;
        rounds.proved.push(nanoseconds / times as f64);
        let (expected, nanoseconds) = timed(&second, &["plan-job"], &line)?;
        rounds.second.push(nanoseconds / times as f64);
        if printed != expected {
            return Err(format!(
                "{job}: proved prints {printed:?}, second {expected:?}"
            ));
        }
    }
    rounds.print(job);
    Ok(())
}

fn timed(program: &Path, arguments: &[&str], input: &str) -> Result<(String, f64), String> {
    let start = Instant::now();
    let printed = program::run(program, arguments, input.as_bytes())?;
    Ok((printed, start.elapsed().as_nanos() as f64))
}

/// The job of a line, `plan TIMES` or `check TIMES`, and the line that it prints.
pub fn run_job(line: &str) -> Result<String, String> {
    let bad = || format!("cannot read '{}'", line.trim_end());
    let (job, times) = line.trim_end().split_once(' ').ok_or_else(bad)?;
    let times: u64 = times.parse().map_err(|_| bad())?;
    let mut rates: [u8; RATES] = std::array::from_fn(|i| (i % 11) as u8);
    let mut blocks = [Block::default(); RATES];
    plan(&rates, &mut blocks);
    let mut sum = 0;
    for turn in 0..times {
        let gave = match job {
            "plan" => plan_turn(turn, &mut rates, &mut blocks),
            "check" => check_turn(&rates, &mut blocks),
            _ => return Err(bad()),
        };
        sum = (sum + gave) % MODULUS;
    }
    Ok(format!("{sum}\n"))
}

/// One rate changes, and the plan is made anew.
fn plan_turn(turn: u64, rates: &mut [u8; RATES], blocks: &mut [Block; RATES]) -> u64 {
    let at = turn as usize % RATES;
    rates[at] = (rates[at] + 1) % 11;
    plan(rates, blocks);
    u64::from(blocks[at].first as u8)
}

/// The last block's first index changes by one, and the plan is checked.
fn check_turn(rates: &[u8; RATES], blocks: &mut [Block; RATES]) -> u64 {
    blocks[RATES - 1].first ^= 1;
    u64::from(check(rates, blocks))
}

/// By falling rate, one behind the other; the rates fit.
fn plan(rates: &[u8; RATES], blocks: &mut [Block; RATES]) {
    let mut order: [usize; RATES] = std::array::from_fn(|i| i);
    order.sort_by_key(|&i| (15 - rates[i], i));
    let mut start: u32 = 0;
    for i in order {
        let place = (start % 32_768) as u16;
        blocks[i] = Block {
            set: (start / 32_768) as u8,
            rate: rates[i],
            first: place.reverse_bits() >> 1,
        };
        start += 1 << rates[i];
    }
}

fn check(rates: &[u8; RATES], blocks: &[Block; RATES]) -> bool {
    (0..RATES).all(|i| {
        let block = blocks[i];
        rates[i] <= 15
            && block.rate == rates[i]
            && block.set < 3
            && u32::from(block.first) < 1 << (15 - block.rate)
            && blocks[..i].iter().all(|&other| !share(block, other))
    })
}

fn share(a: Block, b: Block) -> bool {
    let modulus: u16 = 1 << (15 - a.rate.max(b.rate));
    a.set == b.set && a.first % modulus == b.first % modulus
}
