//! The traffic of a few units, as a station hears it: chosen so that each of the station's answers
//! occurs often. Its PDUs come alone, and several in a datagram.

use super::datagrams::Generator;
use super::tails;
use crate::pdu::{self, layout, RTT, RTT_REPLY, WORDS_MAX};
use crate::random::Random;
use crate::trunk::station::{COARSE_ENTRY_LEVEL, NETWORK_TIME, NO_ID, PLACES, PPLI_LABEL};
use crate::trunk::word::Word;

/// Where the first word of a Signal begins.
const FIRST_WORD: usize =
    pdu::SIGNAL_FIXED_SIZE + pdu::NETWORK_HEADER_SIZE + pdu::WORDS_HEADER_SIZE;

/// Of every so many Signals one is of round-trip timing.
const TIMING_SHARE: u64 = 3;

/// Of every so many Transmitters one has any number in bytes 30 and 31, which version 7 refuses.
const RECORDS_SHARE: u64 = 32;

/// A bundle has at most so many PDUs, two more than a near end takes at once; a long one, which is rare,
/// at most so many.
const BUNDLE_MAX: u64 = 10;
const LONG_BUNDLE_MAX: u64 = 20;

pub struct Traffic {
    random: Random,
    datagrams: Generator,
    /// The net of most Signals.
    net: u8,
    keys: Vec<u64>,
    ids: [u32; 3],
    /// The level of most units, if they have one in common; the others' is one below.
    level: Option<u8>,
}

impl Traffic {
    /// What a station of this level and net hears.
    pub fn new(seed: u64, level: u8, net: u8) -> Self {
        let mut random = Random::new(seed);
        let is_timed = level == COARSE_ENTRY_LEVEL && !random.one_in(4) || random.one_in(4);
        let units = random.pick(&[1, 2, 4, PLACES + 4]);
        let keys = std::iter::repeat_with(|| random.next()).take(units);
        let keys = keys.collect();
        Traffic {
            datagrams: Generator::new(random.next()),
            net,
            keys,
            ids: [NO_ID, random.next() as u32, 1],
            level: Some(COARSE_ENTRY_LEVEL).filter(|_| is_timed),
            random,
        }
    }

    /// There are more units than a station has places.
    pub fn is_crowded(&self) -> bool {
        self.keys.len() > PLACES
    }

    /// A datagram of any sort; most are PDUs of the units.
    pub fn datagram(&mut self) -> Vec<u8> {
        match self.random.below(16) {
            0 | 1 => self.datagrams.datagram(),
            2 => self.datagrams.signal_or_voice(),
            _ => self.pdu(),
        }
    }

    /// A bundle for a near end with so many free rows: one to ten PDUs of the units, rarely more. In some
    /// one of them is damaged, or is another datagram, and behind some stands a tail that is no PDU.
    pub fn bundle(&mut self, free: usize) -> Vec<u8> {
        let count = self.bundle_count(free as u64);
        let mut pdus: Vec<Vec<u8>> = (0..count).map(|_| self.pdu()).collect();
        match self.random.below(8) {
            0 | 1 => {
                let at = self.random.below(count) as usize;
                self.spoil(&mut pdus[at]);
            }
            2 => {
                let pdu = self.pdu();
                pdus.push(tails::tail(&mut self.random, &pdu));
            }
            _ => {}
        }
        pdus.concat()
    }

    /// Often as many as fit, or one more; and any number.
    fn bundle_count(&mut self, free: u64) -> u64 {
        match self.random.below(8) {
            0..=3 => self.random.within(1, free.max(1)),
            4 => free.max(1),
            5 => free + 1,
            6 if self.random.one_in(8) => self.random.within(BUNDLE_MAX + 1, LONG_BUNDLE_MAX),
            _ => self.random.within(1, BUNDLE_MAX),
        }
    }

    /// Damages a PDU, or puts something in its place that is most often not carried.
    fn spoil(&mut self, pdu: &mut Vec<u8>) {
        match self.random.below(4) {
            0 => *pdu = self.datagrams.datagram(),
            1 => *pdu = self.datagrams.signal_or_voice(),
            _ => self.datagrams.damage(pdu),
        }
    }

    fn pdu(&mut self) -> Vec<u8> {
        let transmitters = if self.is_crowded() { 6 } else { 3 };
        let mut bytes = if self.random.below(10) < transmitters {
            self.transmitter()
        } else {
            self.signal()
        };
        if !self.random.one_in(16) {
            layout::KEY.put(&mut bytes, self.random.pick(&self.keys));
        }
        bytes
    }

    /// Of any unit; most are fine.
    fn transmitter(&mut self) -> Vec<u8> {
        let mut bytes = self.datagrams.transmitter();
        if let Some(level) = self.level {
            let below = u8::from(self.random.one_in(6));
            layout::TSA_LEVEL.put(&mut bytes, (level - below).into());
        }
        let last_without = u64::from(pdu::LAST_LEVEL_WITHOUT_ID);
        if layout::TSA_LEVEL.get(&bytes) > Some(last_without) {
            layout::SYNC_ID.put(&mut bytes, self.random.pick(&self.ids).into());
        }
        if !self.random.one_in(4) {
            layout::SYNC_STATE.put(&mut bytes, pdu::FINE.into());
        }
        if self.random.one_in(RECORDS_SHARE) {
            layout::PARAMETER_RECORDS.put(&mut bytes, self.random.next());
        }
        bytes
    }

    /// Of any unit; most are on the station's net.
    fn signal(&mut self) -> Vec<u8> {
        let mut bytes = if self.random.one_in(TIMING_SHARE) {
            self.timing()
        } else {
            self.words()
        };
        if !self.random.one_in(12) {
            layout::NET.put(&mut bytes, self.net.into());
        }
        bytes
    }

    /// Most are of type 2, which may count.
    fn timing(&mut self) -> Vec<u8> {
        let message_type = self.random.pick(&[RTT, RTT_REPLY, RTT_REPLY]);
        self.datagrams.signal_of_timing(message_type)
    }

    fn words(&mut self) -> Vec<u8> {
        let words = self.random.within(0, WORDS_MAX as u64);
        let mut bytes = self.datagrams.signal_of_words(words as usize);
        if let Some(word) = bytes[FIRST_WORD..].first_chunk_mut() {
            self.first_word().put(word);
        }
        bytes
    }

    fn first_word(&mut self) -> Word {
        let (label, sublabel) = NETWORK_TIME;
        let any = self.random.next() as u8;
        match self.random.below(12) {
            0..=2 => Word::initial(label, sublabel),
            3..=6 => Word::initial(PPLI_LABEL, any % 8),
            7 => Word::initial(label, 1 + any % 7),
            8 => Word {
                format: 1 + any % 3,
                ..Word::initial(label, sublabel)
            },
            9 => Word {
                format: 1 + any % 3,
                ..Word::initial(PPLI_LABEL, sublabel)
            },
            _ => Word::initial(any % 32, any / 32),
        }
    }
}
