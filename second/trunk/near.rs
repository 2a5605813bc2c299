//! The near end of the trunk (document 01, "The trunk"; document 02, R-5): takes PDUs, one or several
//! in a datagram, holds their records in a lent store until a reply comes, and sends them.

use super::record::{self, Kind, Record, ACCEPTED_MAX};
use crate::numbers::{require, Refusal};
use crate::pdu::read::read;
use crate::pdu::Pdu;
use std::ops::Range;

/// So many PDUs may be unacknowledged; the store has a row for each.
pub const ROWS: u32 = 8;
const ROW_SIZE: usize = 192;
pub const STORE_SIZE: usize = ROWS as usize * ROW_SIZE;

#[derive(Clone, Copy, Debug, Default, PartialEq, Eq)]
pub struct NearEnd {
    pub accepted: u32,
    pub acknowledged: u32,
}

impl NearEnd {
    /// Takes all PDUs of a datagram, in order, or none, and answers the first one's number: refusals
    /// 28, those of a bundle, 51, and 25 and 24 where not all fit.
    pub fn offer(&mut self, store: &mut [u8], datagram: &[u8]) -> Result<u32, Refusal> {
        check_store(store)?;
        let bundle = Bundle::read(datagram)?;
        require(bundle.count <= ROWS as usize, Refusal::BundleSize)?;
        let numbers_left = ACCEPTED_MAX - self.accepted;
        require(bundle.count <= numbers_left as usize, Refusal::LastNumber)?;
        let rows_left = ROWS as usize - self.held().len();
        require(bundle.count <= rows_left, Refusal::WindowFull)?;
        let first = self.accepted;
        for (kind, pdu) in bundle.pdus.iter().flatten() {
            let row = row(self.accepted);
            record::put(*kind, self.accepted, pdu, &mut store[row]);
            self.accepted += 1;
        }
        Ok(first)
    }

    /// Writes the record of a number that is held and answers its size: refusals 28, 26, 20 or
    /// 29, and 16.
    pub fn send(&self, store: &[u8], number: u32, output: &mut [u8]) -> Result<usize, Refusal> {
        check_store(store)?;
        require(self.held().contains(&number), Refusal::NotHeld)?;
        let row = &store[row(number)];
        let kind = Kind::from_byte(row[0]).ok_or(Refusal::RecordKind)?;
        require(kind != Kind::Reply, Refusal::WrongEnd)?;
        let size = kind.size();
        let output = output.get_mut(..size).ok_or(Refusal::Output)?;
        output.copy_from_slice(&row[..size]);
        Ok(size)
    }

    /// Takes a reply and answers the acknowledged count: refusals 20, 21, 29 and 27.
    pub fn reply(&mut self, bytes: &[u8]) -> Result<u32, Refusal> {
        let record = Record::split(bytes)?;
        require(record.kind == Kind::Reply, Refusal::WrongEnd)?;
        require(record.number <= self.accepted, Refusal::NotAccepted)?;
        self.acknowledged = self.acknowledged.max(record.number);
        Ok(self.acknowledged)
    }

    /// The numbers that are held.
    pub fn held(&self) -> Range<u32> {
        self.acknowledged..self.accepted
    }
}

/// The PDUs of a datagram, one behind the other.
struct Bundle<'a> {
    /// How many there are.
    count: usize,
    /// The first of them, with the kinds that carry them.
    pdus: [Option<(Kind, Pdu<'a>)>; ROWS as usize],
}

impl<'a> Bundle<'a> {
    /// From the front over the whole slice, the number of the first PDU that cannot be taken: the
    /// reader's (1 for no bytes, 50 for message types 3 to 5), or 23 (types 6 and 7).
    fn read(datagram: &'a [u8]) -> Result<Self, Refusal> {
        let mut bundle = Bundle {
            count: 0,
            pdus: [None; ROWS as usize],
        };
        let mut rest = datagram;
        while bundle.count == 0 || !rest.is_empty() {
            let pdu = read(rest)?;
            let kind = Kind::carrying(&pdu).ok_or(Refusal::NotCarried)?;
            if let Some(place) = bundle.pdus.get_mut(bundle.count) {
                *place = Some((kind, pdu));
            }
            bundle.count += 1;
            rest = &rest[pdu.size()..];
        }
        Ok(bundle)
    }
}

fn check_store(store: &[u8]) -> Result<(), Refusal> {
    require(store.len() == STORE_SIZE, Refusal::StoreSize)
}

/// Where the row of a number lies in the store.
pub fn row(number: u32) -> Range<usize> {
    let start = (number % ROWS) as usize * ROW_SIZE;
    start..start + ROW_SIZE
}
