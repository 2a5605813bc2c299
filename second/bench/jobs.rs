//! Times the bench program and the second program as they run the same job, each in a process of
//! its own. A job runs long enough that the start of a process does not count.

use super::table::{print_heading, Rounds};
use super::WORDS;
use crate::compare::program;
use crate::trunk::record::Kind;
use std::path::Path;
use std::time::Instant;

/// Rounds of the two programs alternate, as for the calls; each takes longer.
const ROUNDS: usize = 11;
const CYCLES: u64 = 500_000;
const STEPS: u64 = 3_000_000;
const UNITS: [usize; 3] = [0, 8, 16];

/// An offer, a send, an arrival and the reply.
pub fn time_cycles(program: &Path) -> Result<(), String> {
    print_heading("offer, send, arrive, reply");
    let transmitter = Kind::Transmitter.byte();
    time(
        program,
        "Transmitter",
        &format!("cycle {transmitter}"),
        CYCLES,
    )?;
    for words in WORDS {
        let kind = Kind::Signal(words).byte();
        let what = format!("Signal of {words} words");
        time(program, &what, &format!("cycle {kind}"), CYCLES)?;
    }
    Ok(())
}

/// A PPLI from the unit in the last place held; where none is held it is refused.
pub fn time_station(program: &Path) -> Result<(), String> {
    print_heading("station's step");
    for units in UNITS {
        let what = format!("{units} units held");
        time(program, &what, &format!("heard {units}"), STEPS)?;
    }
    Ok(())
}

/// Times a job of so many turns and prints a row.
fn time(program: &Path, what: &str, job: &str, turns: u64) -> Result<(), String> {
    let second = std::env::current_exe();
    let second = second.map_err(|error| format!("cannot find this program: {error}"))?;
    let line = format!("{job} {turns}\n");
    eprint!("timing {line}");
    let mut rounds = Rounds::default();
    for _ in 0..ROUNDS {
        let (printed, nanoseconds) = timed(program, &[], &line)?;
        rounds.proved.push(nanoseconds / turns as f64);
        let (expected, nanoseconds) = timed(&second, &["jobs"], &line)?;
        rounds.second.push(nanoseconds / turns as f64);
        if printed != expected {
            return Err(format!(
                "the job '{}': proved prints '{}', second '{}'",
                line.trim_end(),
                printed.trim_end(),
                expected.trim_end()
            ));
        }
    }
    rounds.print(what);
    Ok(())
}

/// What a program prints for an input, and the nanoseconds that it takes.
fn timed(program: &Path, arguments: &[&str], input: &str) -> Result<(String, f64), String> {
    let start = Instant::now();
    let printed = program::run(program, arguments, input.as_bytes())?;
    Ok((printed, start.elapsed().as_nanos() as f64))
}
