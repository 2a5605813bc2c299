//! The far end of the trunk (document 01, "The trunk"): puts out each PDU once and in order, lets
//! its station hear it, and replies.

use super::record::{self, Kind, Record, PDU_SIZE_MAX, REPLY_SIZE};
use super::station::{self, Station};
use crate::numbers::{require, Refusal};
use std::cmp::Ordering;

#[derive(Clone, Debug, PartialEq, Eq)]
pub struct FarEnd {
    /// How many PDUs were put out: the number of the next.
    pub delivered: u32,
    pub station: Station,
}

/// What became of a record that was not refused.
#[derive(Clone, Copy, Debug, PartialEq, Eq)]
pub enum Arrival {
    Delivered { size: usize, answer: u32 },
    Repeat,
    Early,
}

impl FarEnd {
    pub fn new(station: Station) -> Self {
        FarEnd {
            delivered: 0,
            station,
        }
    }

    /// Takes a record: refusals 20, 21, 29, 25, 22 and 16. All else writes a reply.
    pub fn arrive(
        &mut self,
        bytes: &[u8],
        output: &mut [u8],
        reply: &mut [u8],
    ) -> Result<Arrival, Refusal> {
        let record = Record::split(bytes)?;
        require(record.kind != Kind::Reply, Refusal::WrongEnd)?;
        record.check_pdu()?;
        let room = reply.len() >= REPLY_SIZE && output.len() >= PDU_SIZE_MAX;
        require(room, Refusal::Output)?;
        let arrival = match record.number.cmp(&self.delivered) {
            Ordering::Less => Arrival::Repeat,
            Ordering::Equal => self.deliver(record.pdu, output),
            Ordering::Greater => Arrival::Early,
        };
        let head = record::head(Kind::Reply, self.delivered);
        reply[..REPLY_SIZE].copy_from_slice(&head);
        Ok(arrival)
    }

    /// The station's own answer is handed up; it does not stop the delivery.
    fn deliver(&mut self, pdu: &[u8], output: &mut [u8]) -> Arrival {
        output[..pdu.len()].copy_from_slice(pdu);
        self.delivered += 1;
        Arrival::Delivered {
            size: pdu.len(),
            answer: station::number(self.station.hear(pdu)),
        }
    }
}
