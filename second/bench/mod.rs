//! Times the proved archive and the proved bench program against the second program, on the same
//! inputs.

mod calls;
mod jobs;
pub mod plans;
mod table;

use std::path::Path;

/// Rounds of the two programs alternate, and medians count. Odd, so that there is one.
const ROUNDS: usize = 21;
/// Signals of these numbers of words show how the cost grows.
const WORDS: [usize; 6] = [0, 1, 2, 4, 8, 12];

/// Prints every table; the error is that the bench program cannot be run, or does something else.
pub fn run(program: &Path, planbench: &Path) -> Result<(), String> {
    println!("nanoseconds for each call, cycle or step: the median of alternating rounds");
    println!("ratio: second / proved, of the median round; above 1 the proved code is faster");
    calls::time_reading();
    calls::time_record_check();
    jobs::time_cycles(program)?;
    jobs::time_station(program)?;
    plans::time(planbench)
}
