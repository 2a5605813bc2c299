//! What may stand behind PDUs in a datagram and is no PDU itself (document 02, R-5).

use crate::pdu::START_SIZE;
use crate::random::Random;

/// Random bytes that are no start of a PDU are at most so many.
const NOISE_MAX: u64 = 200;

/// A few bytes, too few for a start; the beginning of this PDU; or random bytes.
pub fn tail(random: &mut Random, pdu: &[u8]) -> Vec<u8> {
    let few = START_SIZE as u64 - 1;
    match random.below(4) {
        0 | 1 => {
            let count = random.within(1, few);
            random.bytes(count as usize)
        }
        2 => {
            let count = random.within(1, pdu.len() as u64 - 1);
            pdu[..count as usize].to_vec()
        }
        _ => {
            let count = random.within(1, NOISE_MAX);
            random.bytes(count as usize)
        }
    }
}
