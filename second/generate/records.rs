//! Trunk records for the comparison: valid ones, damaged ones and noise, chosen so that every
//! answer of the check occurs often for every kind.

use super::datagrams::Generator;
use crate::pdu::{layout, RTT, RTT_REPLY};
use crate::random::Random;
use crate::trunk::record::{self, Kind, ACCEPTED_MAX, HEAD_SIZE};

/// Mixed into the seed, so that choices here do not follow those of the datagrams.
const OTHER_SEED: u64 = 0x5EED;
/// Noise and resized records are shorter than this; the longest kind is too.
const LENGTH_MAX: u64 = 200;

pub struct RecordGenerator {
    random: Random,
    datagrams: Generator,
    kinds: Vec<Kind>,
}

impl RecordGenerator {
    pub fn new(seed: u64) -> Self {
        RecordGenerator {
            random: Random::new(seed ^ OTHER_SEED),
            datagrams: Generator::new(seed),
            kinds: Kind::all().collect(),
        }
    }

    /// A record of any sort.
    pub fn record(&mut self) -> Vec<u8> {
        match self.random.below(16) {
            0..=5 => self.valid(),
            6 => self.padded(),
            7..=14 => self.damaged(),
            _ => self.noise(),
        }
    }

    pub fn valid(&mut self) -> Vec<u8> {
        let kind = self.random.pick(&self.kinds);
        let number = self.number();
        self.of(kind, number)
    }

    pub fn reply(&mut self) -> Vec<u8> {
        let number = self.number();
        self.of(Kind::Reply, number)
    }

    /// Any number, the first and the last more often.
    fn number(&mut self) -> u32 {
        let last = u64::from(ACCEPTED_MAX) - 1;
        self.random.within(0, last) as u32
    }

    /// A record of this kind and number with any PDU.
    pub fn of(&mut self, kind: Kind, number: u32) -> Vec<u8> {
        let pdu = match kind {
            Kind::Reply => Vec::new(),
            _ => layout::written_form(&self.pdu(kind)),
        };
        [&record::head(kind, number)[..], &pdu].concat()
    }

    /// A record whose PDU has random padding.
    fn padded(&mut self) -> Vec<u8> {
        let kind = self.random.pick(&self.kinds);
        let number = self.number();
        [&record::head(kind, number)[..], &self.pdu(kind)].concat()
    }

    /// A PDU that the kind carries, its padding random; no bytes for a reply.
    fn pdu(&mut self, kind: Kind) -> Vec<u8> {
        match kind {
            Kind::Signal(words) => self.datagrams.signal_of_words(words),
            Kind::Rtt => self.datagrams.signal_of_timing(RTT),
            Kind::RttReply => self.datagrams.signal_of_timing(RTT_REPLY),
            Kind::Transmitter => self.datagrams.transmitter(),
            Kind::Reply => Vec::new(),
        }
    }

    /// A valid record with one damage, or with several.
    pub fn damaged(&mut self) -> Vec<u8> {
        let mut bytes = self.valid();
        for _ in 0..self.random.pick(&[1, 1, 1, 2, 3]) {
            self.damage(&mut bytes);
        }
        bytes
    }

    pub fn damage(&mut self, bytes: &mut Vec<u8>) {
        let choice = self.random.below(15);
        if bytes.len() < HEAD_SIZE || choice < 2 {
            return self.resize(bytes);
        }
        match choice {
            2 => bytes[0] = self.random.next() as u8,
            3 => bytes[0] = self.random.pick(&self.kinds).byte(),
            4 => bytes[0] = bytes[0].wrapping_add(self.random.pick(&[1, u8::MAX])),
            5 => bytes[1..HEAD_SIZE].fill(u8::MAX),
            6 => self.put_other_signal(&mut bytes[HEAD_SIZE..]),
            7 | 8 => self.flip_bit(bytes),
            9 | 10 => self.put_by_version(&mut bytes[HEAD_SIZE..]),
            11 => self.put_shorter(&mut bytes[HEAD_SIZE..]),
            _ => self.datagrams.damage(&mut bytes[HEAD_SIZE..]),
        }
    }

    /// Puts a Signal of any message type in the place of the PDU.
    fn put_other_signal(&mut self, pdu: &mut [u8]) {
        if let Some(signal) = self.datagrams.signal_of_size(pdu.len()) {
            pdu.copy_from_slice(&layout::written_form(&signal));
        }
    }

    /// Puts a shorter PDU in the place of the PDU, if there is one: behind it stands the old one's end, a
    /// PDU, or zeros.
    fn put_shorter(&mut self, pdu: &mut [u8]) {
        let kind = self.random.pick(&self.kinds);
        if kind == Kind::Reply || kind.size() >= HEAD_SIZE + pdu.len() {
            return;
        }
        let shorter = layout::written_form(&self.pdu(kind));
        let (start, behind) = pdu.split_at_mut(shorter.len());
        start.copy_from_slice(&shorter);
        match self.random.below(3) {
            0 => {}
            1 => behind.fill(0),
            _ => {
                let count = behind.len().min(shorter.len());
                behind[..count].copy_from_slice(&shorter[..count]);
            }
        }
    }

    /// Puts any number where the version tells what is padding, or into the padding behind the status.
    fn put_by_version(&mut self, pdu: &mut [u8]) {
        let field = self.random.pick(&[
            layout::STATUS,
            layout::START_PADDING,
            layout::PARAMETER_RECORDS,
        ]);
        if field.get(pdu).is_some() {
            field.put(pdu, self.random.next());
        }
    }

    fn flip_bit(&mut self, bytes: &mut [u8]) {
        let at = self.random.below(bytes.len() as u64) as usize;
        bytes[at] ^= 1 << self.random.below(8);
    }

    /// Cuts or lengthens a record, most often by one byte, or to the length of another kind.
    fn resize(&mut self, bytes: &mut Vec<u8>) {
        let length = bytes.len();
        let length = match self.random.below(6) {
            0 => length.saturating_sub(1),
            1 => length + 1,
            2 => self.random.pick(&self.kinds).size(),
            3 => 0,
            _ => self.random.below(LENGTH_MAX) as usize,
        };
        let tail = self.random.bytes(length.saturating_sub(bytes.len()));
        bytes.truncate(length);
        bytes.extend(tail);
    }

    /// Random bytes, in most cases with a known kind and often of its length.
    fn noise(&mut self) -> Vec<u8> {
        let length = self.random.below(LENGTH_MAX) as usize;
        let kind = self.random.pick(&self.kinds);
        match self.random.below(4) {
            0 => self.random.bytes(length),
            1 => [&[kind.byte()], &self.random.bytes(length)[..]].concat(),
            _ => [&[kind.byte()], &self.random.bytes(kind.size() - 1)[..]].concat(),
        }
    }
}
