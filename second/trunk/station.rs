//! The station (document 01, "The station"; document 02, R-1, R-5 and R-12): the net-entry state of one
//! station, which hears datagrams, of each its first PDU, and the clock.

use super::word::Word;
use crate::numbers::{require, Refusal};
use crate::pdu::read::read;
use crate::pdu::{Modulation, Pdu, Signal, Transmitter};
use crate::pdu::{FINE, LAST_NET, LAST_TSA_LEVEL, RTT, RTT_REPLY};

pub const PLACES: usize = 16;
/// A unit is removed after so many seconds without a PPLI: a station is made with a limit from the
/// first to the last of these, or with the usual one.
pub const FIRST_LIMIT: u16 = 24;
pub const LAST_LIMIT: u16 = 600;
pub const USUAL_LIMIT: u16 = 96;
/// A station and a sender of this level leave the station Coarse, and count timing messages.
pub const COARSE_ENTRY_LEVEL: u8 = 4;
/// A station is made with a number of exchanges from the first to the last of these.
pub const FIRST_EXCHANGES: u8 = 1;
pub const LAST_EXCHANGES: u8 = 16;
/// A synchronization ID that matches all.
pub const NO_ID: u32 = 0;

/// J0.0, by label and sublabel; a PPLI, by its label.
pub const NETWORK_TIME: (u8, u8) = (0, 0);
pub const PPLI_LABEL: u8 = 2;

#[derive(Clone, Copy, Debug, PartialEq, Eq)]
pub enum State {
    Waiting,
    Coarse,
    Fine,
}

/// What is known of a unit.
#[derive(Clone, Copy, Debug, PartialEq, Eq)]
pub struct Unit {
    pub key: u64,
    pub level: u8,
    pub sync_state: u8,
    pub id: u32,
    pub is_in: bool,
    /// The second when it was last heard.
    pub last: u64,
}

impl Unit {
    fn is_fine(&self) -> bool {
        self.sync_state == FINE
    }
}

#[derive(Clone, Debug, PartialEq, Eq)]
pub struct Station {
    pub level: u8,
    pub net: u8,
    /// So many timing messages make a Coarse station Fine; so many were counted.
    pub exchanges: u8,
    pub count: u8,
    /// So many seconds without a PPLI remove a unit.
    pub limit: u16,
    pub id: u32,
    pub state: State,
    pub clock: u64,
    pub places: [Option<Unit>; PLACES],
}

/// What a call that is not refused did, with its answer number.
#[derive(Clone, Copy, Debug, PartialEq, Eq)]
#[repr(u32)]
pub enum Event {
    NewUnit = 40,
    KnownUnit = 41,
    NetworkTime = 42,
    Position = 43,
    Passed = 44,
    Clock = 46,
    Counted = 47,
}

/// A call's answer. A refusal, the reader's or 30 to 36, changes nothing.
pub type Answer = Result<Event, Refusal>;

pub fn number(answer: Answer) -> u32 {
    match answer {
        Ok(event) => event as u32,
        Err(refusal) => refusal.number(),
    }
}

/// What a Signal is to the station, by its message type, and by the first word of type 0 if it is
/// initial.
enum Message {
    NetworkTime,
    Position,
    Rtt,
    RttReply,
    Other,
}

impl Message {
    fn of(signal: &Signal, body: &[u8]) -> Self {
        match signal.network.message_type {
            0 => Message::of_words(body),
            RTT => Message::Rtt,
            RTT_REPLY => Message::RttReply,
            _ => Message::Other,
        }
    }

    fn of_words(body: &[u8]) -> Self {
        match Word::first(body).filter(|word| word.is_initial()) {
            Some(word) if (word.label, word.sublabel) == NETWORK_TIME => Message::NetworkTime,
            Some(word) if word.label == PPLI_LABEL => Message::Position,
            _ => Message::Other,
        }
    }
}

impl Station {
    /// A fresh station of the usual limit.
    pub fn new(level: u8, net: u8, exchanges: u8) -> (Self, Result<(), Refusal>) {
        Station::with_limit(level, net, exchanges, USUAL_LIMIT)
    }

    /// A fresh station. After refusal 37 it is one of level 0, net 0, one exchange and the usual
    /// limit.
    pub fn with_limit(
        level: u8,
        net: u8,
        exchanges: u8,
        limit: u16,
    ) -> (Self, Result<(), Refusal>) {
        let holds = level <= LAST_TSA_LEVEL
            && net <= LAST_NET
            && (FIRST_EXCHANGES..=LAST_EXCHANGES).contains(&exchanges)
            && (FIRST_LIMIT..=LAST_LIMIT).contains(&limit);
        let settings = (level, net, exchanges, limit);
        let least = (0, 0, 1, USUAL_LIMIT);
        let (level, net, exchanges, limit) = if holds { settings } else { least };
        let station = Station {
            level,
            net,
            exchanges,
            count: 0,
            limit,
            id: NO_ID,
            state: State::Waiting,
            clock: 0,
            places: [None; PLACES],
        };
        (station, require(holds, Refusal::Settings))
    }

    pub fn hear(&mut self, datagram: &[u8]) -> Answer {
        match read(datagram)? {
            Pdu::Transmitter(transmitter) => self.hear_transmitter(&transmitter),
            Pdu::Signal(signal, body) => self.hear_signal(&signal, body),
        }
    }

    fn hear_transmitter(&mut self, transmitter: &Transmitter) -> Answer {
        let key = transmitter.header.key();
        let heard = &transmitter.modulation;
        if let Some(unit) = find(&mut self.places, key) {
            refresh(unit, heard);
            return Ok(Event::KnownUnit);
        }
        let free = self.places.iter_mut().find(|place| place.is_none());
        *free.ok_or(Refusal::NoPlace)? = Some(Unit {
            key,
            level: heard.tsa_level,
            sync_state: heard.sync_state,
            id: heard.sync_id,
            is_in: false,
            last: self.clock,
        });
        Ok(Event::NewUnit)
    }

    fn hear_signal(&mut self, signal: &Signal, body: &[u8]) -> Answer {
        let unit = find(&mut self.places, signal.header.key()).ok_or(Refusal::UnknownUnit)?;
        require(signal.network.net == self.net, Refusal::OtherNet)?;
        let matches = self.id == unit.id || self.id == NO_ID || unit.id == NO_ID;
        require(matches, Refusal::OtherId)?;
        match Message::of(signal, body) {
            Message::NetworkTime => {
                require(unit.is_fine(), Refusal::NotFine)?;
                let (level, id) = (unit.level, unit.id);
                self.enter(level, id);
                Ok(Event::NetworkTime)
            }
            Message::Position => {
                require(unit.is_fine(), Refusal::NotFine)?;
                unit.is_in = true;
                unit.last = self.clock;
                Ok(Event::Position)
            }
            Message::Rtt => Ok(Event::Passed),
            Message::RttReply => {
                require(unit.is_fine(), Refusal::NotFine)?;
                let level = unit.level;
                Ok(self.count_from(level))
            }
            Message::Other => {
                let passes = unit.is_in && self.state == State::Fine;
                require(passes, Refusal::NotIn)?;
                Ok(Event::Passed)
            }
        }
    }

    /// A J0.0 from a fine sender of this level and ID.
    fn enter(&mut self, level: u8, id: u32) {
        if self.id == NO_ID {
            self.id = id;
        }
        match self.state {
            _ if !self.has_coarse_entry(level) => self.state = State::Fine,
            State::Waiting => {
                self.state = State::Coarse;
                self.count = 0;
            }
            State::Coarse | State::Fine => {}
        }
    }

    /// A message of type 2 from a fine sender of this level: it counts, or is passed.
    fn count_from(&mut self, level: u8) -> Event {
        if self.state != State::Coarse || !self.has_coarse_entry(level) {
            return Event::Passed;
        }
        self.count += 1;
        if self.count == self.exchanges {
            self.state = State::Fine;
        }
        Event::Counted
    }

    /// The station's level and a sender's are both 4.
    fn has_coarse_entry(&self, level: u8) -> bool {
        self.level == COARSE_ENTRY_LEVEL && level == COARSE_ENTRY_LEVEL
    }

    pub fn set_clock(&mut self, second: u64) -> Answer {
        require(second >= self.clock, Refusal::ClockBack)?;
        self.clock = second;
        let limit = u64::from(self.limit);
        for place in &mut self.places {
            place.take_if(|unit| second - unit.last >= limit);
        }
        Ok(Event::Clock)
    }
}

fn find(places: &mut [Option<Unit>], key: u64) -> Option<&mut Unit> {
    places.iter_mut().flatten().find(|unit| unit.key == key)
}

/// A known unit's Transmitter; the second when it was last heard stays.
fn refresh(unit: &mut Unit, heard: &Modulation) {
    let same_id = heard.sync_id == unit.id;
    unit.level = heard.tsa_level;
    unit.sync_state = heard.sync_state;
    unit.id = heard.sync_id;
    unit.is_in &= unit.is_fine() && same_id;
}
