//! The lines that the programs planner and plancheck read and print.

use super::{Block, Verdict};

/// The rates, one a line.
pub fn rates(rates: &[u8]) -> String {
    rates.iter().map(|rate| format!("{rate}\n")).collect()
}

/// The blocks, `SET FIRST RATE` one a line.
pub fn blocks(blocks: &[Block]) -> String {
    let line = |block: &Block| {
        let letter = char::from(b'A' + block.set);
        format!("{letter} {} {}\n", block.first, block.rate)
    };
    blocks.iter().map(line).collect()
}

/// What plancheck prints for a verdict.
pub fn verdict(verdict: Verdict) -> String {
    match verdict {
        Verdict::Accepted => "accepted\n".to_string(),
        Verdict::Refused(number) => format!("refused {number}\n"),
        Verdict::NotAPlan => "not a plan\n".to_string(),
    }
}

/// The blocks that planner printed, if they are some.
pub fn read_blocks(text: &str) -> Option<Vec<Block>> {
    text.lines().map(read_block).collect()
}

fn read_block(line: &str) -> Option<Block> {
    let mut words = line.split(' ');
    let set = match words.next()? {
        "A" => 0,
        "B" => 1,
        "C" => 2,
        _ => return None,
    };
    let first = words.next()?.parse().ok()?;
    let rate = words.next()?.parse().ok()?;
    words.next().is_none().then_some(Block { set, first, rate })
}
