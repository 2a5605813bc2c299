//! Rates for plans, plans of another source, and damaged plans.

use super::{Block, MOST_RATES, SETS, SLOTS, TOP_RATE};
use crate::random::Random;

/// Rates of every kind: few and many, those that take all slots exactly, one slot more, and such as
/// are refused.
pub fn rates(random: &mut Random) -> Vec<u8> {
    let count = random.within(0, MOST_RATES as u64);
    let mut rates = match random.below(8) {
        0 => exactly(random, SLOTS),
        1 => exactly(random, SLOTS + 1),
        2 => many(random, MOST_RATES as u64 + 1, 15),
        3 => many(random, count, 255),
        4 => many(random, MOST_RATES as u64, 10),
        5 => vec![TOP_RATE; random.below(5) as usize],
        _ => many(random, count, 14),
    };
    shuffle(random, &mut rates);
    rates
}

fn many(random: &mut Random, count: u64, top: u64) -> Vec<u8> {
    (0..count).map(|_| random.below(top + 1) as u8).collect()
}

/// At most 64 rates that want so many slots together: those of the number in binary, some of them
/// split in halves.
fn exactly(random: &mut Random, slots: u32) -> Vec<u8> {
    let mut rates = vec![TOP_RATE; (slots >> TOP_RATE) as usize];
    rates.extend((0..TOP_RATE).filter(|rate| slots >> rate & 1 == 1));
    let count = random.within(rates.len() as u64, MOST_RATES as u64);
    while (rates.len() as u64) < count {
        let at = random.below(rates.len() as u64) as usize;
        if rates[at] > 0 {
            rates[at] -= 1;
            rates.push(rates[at]);
        }
    }
    rates
}

fn shuffle(random: &mut Random, rates: &mut [u8]) {
    for last in (1..rates.len()).rev() {
        rates.swap(last, random.below(last as u64 + 1) as usize);
    }
}

/// The same plan as another planner might give it: the sets go round, and each set's indices move
/// on by one number.
pub fn moved(random: &mut Random, blocks: &[Block]) -> Vec<Block> {
    let turn = random.below(u64::from(SETS)) as u8;
    let step = random.next() as u16;
    let moved = |block: &Block| Block {
        set: (block.set + turn) % SETS as u8,
        first: block.first.wrapping_add(step) % (1 << (TOP_RATE - block.rate)),
        rate: block.rate,
    };
    blocks.iter().map(moved).collect()
}

/// A plan with one thing done to it, which may still be a plan.
pub fn damaged(random: &mut Random, blocks: &[Block]) -> Vec<Block> {
    let mut blocks = blocks.to_vec();
    if blocks.is_empty() {
        blocks.push(Block {
            set: 0,
            first: 0,
            rate: 0,
        });
        return blocks;
    }
    let at = random.below(blocks.len() as u64) as usize;
    let other = random.below(blocks.len() as u64) as usize;
    match random.below(8) {
        0 => blocks[at].set = (blocks[at].set + 1) % SETS as u8,
        1 => blocks[at].first = blocks[at].first.wrapping_add(1),
        2 => blocks[at].first = 1 << (TOP_RATE - blocks[at].rate.min(TOP_RATE)),
        3 => blocks[at].rate = random.within(0, 16) as u8,
        4 => blocks[at] = blocks[other],
        5 => blocks.swap(at, other),
        6 => drop(blocks.remove(at)),
        _ => blocks.push(blocks[at]),
    }
    blocks
}
