//! Streams for the lister: trunk records end to end.

use super::records::RecordGenerator;
use crate::random::Random;

/// Mixed into the seed, so that choices here do not follow those of the records.
const OTHER_SEED: u64 = 0x57EA;
/// Records of a stream that is not long, at most.
const RECORDS_MAX: u64 = 60;
/// Bytes of a long stream, at least.
pub const LONG_MIN: usize = 100_000;

pub struct StreamGenerator {
    random: Random,
    records: RecordGenerator,
}

impl StreamGenerator {
    pub fn new(seed: u64) -> Self {
        StreamGenerator {
            random: Random::new(seed ^ OTHER_SEED),
            records: RecordGenerator::new(seed),
        }
    }

    /// A stream of any sort.
    pub fn stream(&mut self) -> Vec<u8> {
        let mut stream = match self.random.below(16) {
            0 => return Vec::new(),
            1 => self.long(RecordGenerator::valid),
            2 => self.long(RecordGenerator::reply),
            _ => self.short(),
        };
        match self.random.below(6) {
            0 | 1 => {}
            2 => self.cut(&mut stream),
            3 => stream.extend(self.records.record()),
            _ => {
                stream.extend(self.records.damaged());
                stream.extend(self.short());
            }
        }
        stream
    }

    fn short(&mut self) -> Vec<u8> {
        let count = self.random.below(RECORDS_MAX);
        (0..count).flat_map(|_| self.records.valid()).collect()
    }

    fn long(&mut self, record: fn(&mut RecordGenerator) -> Vec<u8>) -> Vec<u8> {
        let length = LONG_MIN + self.random.below(LONG_MIN as u64) as usize;
        let mut stream = Vec::new();
        while stream.len() < length {
            stream.extend(record(&mut self.records));
        }
        stream
    }

    /// Takes some bytes off the end.
    fn cut(&mut self, stream: &mut Vec<u8>) {
        let taken = self.random.within(1, 64) as usize;
        stream.truncate(stream.len().saturating_sub(taken));
    }
}
