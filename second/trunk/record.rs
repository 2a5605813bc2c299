//! Trunk records (document 01, "The trunk"; document 02, R-1 and R-5): one byte of kind, a 4-byte
//! number, then one PDU as the writer gives it. A reply has the number alone.

use crate::bytes::{Sink, Source};
use crate::numbers::{require, Refusal};
use crate::pdu::read::{read, Answer};
use crate::pdu::write::write;
use crate::pdu::*;

const TRANSMITTER_KIND: u8 = 16;
const RTT_KIND: u8 = 17;
const RTT_REPLY_KIND: u8 = 18;
const REPLY_KIND: u8 = 32;
/// The kind and the number.
pub const HEAD_SIZE: usize = 5;
pub const REPLY_SIZE: usize = HEAD_SIZE;
/// The largest PDU that is carried: a Signal of 12 words.
pub const PDU_SIZE_MAX: usize = 180;
/// So many PDUs are accepted at most; as their numbers start from 0, none has this one.
pub const ACCEPTED_MAX: u32 = u32::MAX;

#[derive(Clone, Copy, Debug, PartialEq, Eq)]
pub enum Kind {
    /// A Signal of message type 0 with so many words.
    Signal(usize),
    Transmitter,
    /// A Signal of message type 1, and one of type 2.
    Rtt,
    RttReply,
    Reply,
}

impl Kind {
    pub fn all() -> impl Iterator<Item = Kind> {
        let others = [Kind::Transmitter, Kind::Rtt, Kind::RttReply, Kind::Reply];
        (0..=WORDS_MAX).map(Kind::Signal).chain(others)
    }

    pub fn from_byte(byte: u8) -> Option<Self> {
        Kind::all().find(|kind| kind.byte() == byte)
    }

    pub fn byte(self) -> u8 {
        match self {
            Kind::Signal(words) => words as u8,
            Kind::Transmitter => TRANSMITTER_KIND,
            Kind::Rtt => RTT_KIND,
            Kind::RttReply => RTT_REPLY_KIND,
            Kind::Reply => REPLY_KIND,
        }
    }

    /// The size of the whole record.
    pub fn size(self) -> usize {
        let pdu_size = match self {
            Kind::Signal(words) => signal_size(NETWORK_HEADER_SIZE + words_size(words)),
            Kind::Transmitter => TRANSMITTER_SIZE,
            Kind::Rtt | Kind::RttReply => signal_size(NETWORK_HEADER_SIZE + TIMING_SIZE),
            Kind::Reply => 0,
        };
        HEAD_SIZE + pdu_size
    }

    /// The kind that carries a PDU; message types 3 to 7 have none.
    pub fn carrying(pdu: &Pdu) -> Option<Self> {
        let Pdu::Signal(signal, body) = pdu else {
            return Some(Kind::Transmitter);
        };
        match signal.network.message_type {
            0 => Some(Kind::Signal((body.len() - WORDS_HEADER_SIZE) / WORD_SIZE)),
            RTT => Some(Kind::Rtt),
            RTT_REPLY => Some(Kind::RttReply),
            _ => None,
        }
    }
}

/// A record taken apart. That its number and its PDU are right is tested apart.
#[derive(Clone, Copy, Debug, PartialEq, Eq)]
pub struct Record<'a> {
    pub kind: Kind,
    pub number: u32,
    pub pdu: &'a [u8],
}

impl<'a> Record<'a> {
    /// Refusals 20 and 21.
    pub fn split(bytes: &'a [u8]) -> Result<Self, Refusal> {
        let &byte = bytes.first().ok_or(Refusal::RecordLength)?;
        let kind = Kind::from_byte(byte).ok_or(Refusal::RecordKind)?;
        require(bytes.len() == kind.size(), Refusal::RecordLength)?;
        let (head, pdu) = bytes.split_at(HEAD_SIZE);
        let number = Source::new(head).skip(1).u32();
        Ok(Record { kind, number, pdu })
    }

    /// Refusals 25 and 22; a reply has neither.
    pub fn check_pdu(&self) -> Result<(), Refusal> {
        if self.kind == Kind::Reply {
            return Ok(());
        }
        require(self.number != ACCEPTED_MAX, Refusal::LastNumber)?;
        let pdu = read(self.pdu).map_err(|_| Refusal::CarriedBytes)?;
        let holds = Kind::carrying(&pdu) == Some(self.kind) && is_written_form(&pdu, self.pdu);
        require(holds, Refusal::CarriedBytes)
    }
}

/// The bytes are what the writer gives, with nothing behind it.
fn is_written_form(pdu: &Pdu, bytes: &[u8]) -> bool {
    let mut output = [0; PDU_SIZE_MAX];
    write(pdu, &mut output).is_ok_and(|size| output[..size] == *bytes)
}

/// The lister's and the host's check of a record: refusals 20, 21, 25 and 22.
pub fn check(bytes: &[u8]) -> Result<Record<'_>, Refusal> {
    let record = Record::split(bytes)?;
    record.check_pdu()?;
    Ok(record)
}

pub fn answer(bytes: &[u8]) -> Answer {
    Answer::of(check(bytes).map(|_| bytes.len()))
}

/// The kind and the number, as every record starts.
pub fn head(kind: Kind, number: u32) -> [u8; HEAD_SIZE] {
    let mut head = [0; HEAD_SIZE];
    Sink::new(&mut head).u8(kind.byte()).u32(number);
    head
}

/// Writes the record of a PDU that can be read, at the start of an output that has room.
pub fn put(kind: Kind, number: u32, pdu: &Pdu, output: &mut [u8]) {
    let (start, rest) = output.split_at_mut(HEAD_SIZE);
    start.copy_from_slice(&head(kind, number));
    write(pdu, rest).expect("a PDU that was read, and room for it");
}
