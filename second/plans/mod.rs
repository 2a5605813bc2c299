//! Document 02's R-14 once more, from its text alone: what a plan is, tried slot by slot. There is
//! no planner here.

pub mod generate;
pub mod text;

const SLOTS: u32 = 98_304;
const SETS: u32 = 3;
const MOST_RATES: usize = 64;
const TOP_RATE: u8 = 15;

/// A set 0, 1 or 2 for A, B or C, a first index and a rate.
#[derive(Clone, Copy, Debug, PartialEq, Eq)]
pub struct Block {
    pub set: u8,
    pub first: u16,
    pub rate: u8,
}

impl Block {
    /// "the 2^r slots of that set whose index leaves the same remainder modulo 2^(15−r)"
    fn has(self, slot: u32) -> bool {
        slot % SETS == u32::from(self.set)
            && (slot / SETS) % (1 << (TOP_RATE - self.rate)) == u32::from(self.first)
    }
}

/// What the check says of rates and blocks.
#[derive(Clone, Copy, Debug, PartialEq, Eq)]
pub enum Verdict {
    Accepted,
    Refused(u8),
    NotAPlan,
}

/// 61 or 62, where the rates do not pass.
pub fn rates_refused(rates: &[u8]) -> Option<u8> {
    if rates.len() > MOST_RATES {
        Some(61)
    } else if rates.iter().any(|&rate| rate > TOP_RATE) {
        Some(62)
    } else {
        None
    }
}

/// Whether rates that pass want more slots than there are.
pub fn wants_too_many(rates: &[u8]) -> bool {
    let wanted: u32 = rates.iter().map(|&rate| 1 << rate).sum();
    wanted > SLOTS
}

/// The check, by every slot.
pub fn check(rates: &[u8], blocks: &[Block]) -> Verdict {
    if let Some(number) = rates_refused(rates) {
        return Verdict::Refused(number);
    }
    let right = blocks.len() == rates.len()
        && rates.iter().zip(blocks).all(|(&rate, block)| {
            block.rate == rate
                && u32::from(block.set) < SETS
                && u32::from(block.first) < 1 << (TOP_RATE - rate)
        });
    if right && (0..SLOTS).all(|slot| holders(blocks, slot) <= 1) {
        Verdict::Accepted
    } else {
        Verdict::NotAPlan
    }
}

fn holders(blocks: &[Block], slot: u32) -> usize {
    blocks.iter().filter(|block| block.has(slot)).count()
}
