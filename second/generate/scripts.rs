//! Scripts for the replay program: calls on both ends over a line that loses, repeats and
//! reorders, chosen so that every answer of the ends and of the station occurs often.

use super::records::RecordGenerator;
use super::traffic::Traffic;
use crate::pdu::{LAST_NET, LAST_TSA_LEVEL, WORDS_MAX};
use crate::random::Random;
use crate::trunk::near::{self, ROWS, STORE_SIZE};
use crate::trunk::record::{self, Kind, ACCEPTED_MAX, HEAD_SIZE, PDU_SIZE_MAX, REPLY_SIZE};
use crate::trunk::replay::Replay;
use crate::trunk::script::{Line, Outcome, Settings, BYTES_MAX};
use crate::trunk::station::{FIRST_EXCHANGES, LAST_EXCHANGES};
use crate::trunk::station::{FIRST_LIMIT, LAST_LIMIT, USUAL_LIMIT};

/// How many calls a script may have.
const LENGTHS: [u64; 5] = [10, 50, 200, 500, 1_500];
/// Rarely does anything happen with a store of a wrong length.
const LENGTH_WITHOUT_STORE: u64 = 40;
/// Of every so many scripts one is not fair; of every so many of these one is poked, and the others
/// have invented arrivals.
const UNFAIR_SHARE: u64 = 3;
const POKED_SHARE: u64 = 3;
/// Of every so many calls of a poked script one is a poke.
const POKE_SHARE: u64 = 16;
/// Of every so many offers one is of a bundle, for which the free rows are counted.
const BUNDLE_SHARE: u64 = 2;
/// Bytes next to the known kinds, and the last.
const UNKNOWN_KINDS: [u8; 6] = [13, 15, 19, 31, 33, 255];
/// One lacks the end of its last line.
const NO_END_SHARE: u64 = 8;
/// One names a store of a wrong length, and one a store of the right length.
const WRONG_STORE_SHARE: u64 = 24;
const RIGHT_STORE_SHARE: u64 = 8;

/// A script of any sort; the same seed gives the same one.
pub fn script(seed: u64) -> Vec<u8> {
    let mut draft = Draft::new(Random::new(seed));
    draft.write();
    draft.finish()
}

/// What a script keeps to of the list of calls in demand 3.
#[derive(Clone, Copy, PartialEq, Eq)]
enum Sort {
    /// Only records arrive that calls wrote.
    Fair,
    /// Other records arrive too.
    Invented,
    /// Only records arrive that calls wrote, but somebody else writes the store.
    Poked,
}

impl Sort {
    fn any(random: &mut Random) -> Self {
        if !random.one_in(UNFAIR_SHARE) {
            Sort::Fair
        } else if random.one_in(POKED_SHARE) {
            Sort::Poked
        } else {
            Sort::Invented
        }
    }
}

/// A script in the making, with the ends as its calls leave them.
struct Draft {
    random: Random,
    traffic: Traffic,
    records: RecordGenerator,
    replay: Replay,
    lines: Vec<String>,
    /// What calls wrote up to here: records with PDUs, and replies.
    sent: Vec<Vec<u8>>,
    replies: Vec<Vec<u8>>,
    sort: Sort,
    /// The store has its right length.
    has_store: bool,
    /// Puts back what the last poke wrote over.
    undo: Option<Line>,
}

impl Draft {
    /// The first lines.
    fn new(mut random: Random) -> Self {
        let settings = settings(&mut random);
        let (station, _) = settings.station();
        let mut draft = Draft {
            traffic: Traffic::new(random.next(), station.level, station.net),
            records: RecordGenerator::new(random.next()),
            replay: Replay::new(),
            lines: Vec::new(),
            sent: Vec::new(),
            replies: Vec::new(),
            sort: Sort::any(&mut random),
            has_store: !random.one_in(WRONG_STORE_SHARE),
            undo: None,
            random,
        };
        draft.add(Line::Station(settings));
        if !draft.has_store {
            let wrong = [0, 1, 192, STORE_SIZE - 1, STORE_SIZE + 1, BYTES_MAX];
            let bytes = draft.random.pick(&wrong);
            draft.add(Line::Store(bytes));
        } else if draft.random.one_in(RIGHT_STORE_SHARE) {
            draft.add(Line::Store(STORE_SIZE));
        }
        draft
    }

    fn write(&mut self) {
        let mut length = self.random.pick(&LENGTHS);
        if !self.has_store {
            length = length.min(LENGTH_WITHOUT_STORE);
        }
        for _ in 0..length {
            let line = self.call();
            self.add(line);
        }
    }

    /// Adds a line, and makes the call.
    fn add(&mut self, line: Line) {
        self.lines.push(line.to_string());
        match self.replay.call(&line) {
            Outcome::Sent(record) => self.sent.push(record),
            Outcome::Delivered { reply, .. } | Outcome::Repeat(reply) | Outcome::Early(reply) => {
                self.replies.push(reply);
            }
            _ => {}
        }
    }

    /// The script's text.
    fn finish(mut self) -> Vec<u8> {
        let mut text = self.lines.join("\n").into_bytes();
        if !self.random.one_in(NO_END_SHARE) {
            text.push(b'\n');
        }
        text
    }

    /// Any call; rarely one for which there is nothing yet.
    fn call(&mut self) -> Line {
        if self.sort == Sort::Poked && self.random.one_in(POKE_SHARE) {
            return self.poke();
        }
        let can_send = !self.replay.near.held().is_empty() || !self.has_store;
        let can_arrive = self.invents() || !self.sent.is_empty();
        let can_reply = self.invents() || !self.replies.is_empty();
        match self.random.below(32) {
            0..=9 if can_send => self.send(),
            10..=20 if can_arrive => self.far(),
            21..=25 if can_reply => self.near(),
            26 => self.clock(),
            27 if self.random.one_in(8) => self.send(),
            _ => self.offer(),
        }
    }

    fn invents(&self) -> bool {
        self.sort == Sort::Invented
    }

    fn offer(&mut self) -> Line {
        let free = ROWS as usize - self.replay.near.held().len();
        let mut datagram = if self.random.one_in(BUNDLE_SHARE) {
            self.traffic.bundle(free)
        } else {
            self.traffic.datagram()
        };
        datagram.truncate(BYTES_MAX);
        Line::Offer(datagram)
    }

    fn send(&mut self) -> Line {
        let number = self.number_to_send();
        let whole = Line::Send {
            number,
            room: BYTES_MAX,
        };
        let size = match self.replay.call(&whole) {
            Outcome::Sent(record) => record.len(),
            _ => 1,
        };
        Line::Send {
            number,
            room: self.room(size),
        }
    }

    /// Most often one that is held, and the one that the far end waits for.
    fn number_to_send(&mut self) -> u32 {
        let near = self.replay.near;
        let wanted = self.replay.far.delivered;
        let near_held = near.acknowledged.wrapping_sub(1);
        match self.random.below(16) {
            0 => self.random.pick(&[near_held, near.accepted, ACCEPTED_MAX]),
            1..=11 if near.held().contains(&wanted) => wanted,
            _ if near.held().is_empty() => wanted,
            _ => near.acknowledged + self.random.below(near.held().len() as u64) as u32,
        }
    }

    /// Most often just enough; sometimes too little, sometimes more.
    fn room(&mut self, enough: usize) -> usize {
        match self.random.below(24) {
            0 => enough - 1,
            1 => self.random.below(enough as u64) as usize,
            2..=6 => self.random.within(enough as u64, BYTES_MAX as u64) as usize,
            _ => enough,
        }
    }

    fn far(&mut self) -> Line {
        let record = if self.invents() && (self.random.one_in(3) || self.sent.is_empty()) {
            self.invent_for_far()
        } else if self.random.one_in(32) && !self.replies.is_empty() {
            pick_recent(&mut self.random, &self.replies)
        } else {
            pick_recent(&mut self.random, &self.sent)
        };
        Line::Far {
            record,
            room: self.room(PDU_SIZE_MAX),
            reply_room: self.room(REPLY_SIZE),
        }
    }

    fn near(&mut self) -> Line {
        let record = if self.invents() && (self.random.one_in(3) || self.replies.is_empty()) {
            self.invent_for_near()
        } else if self.random.one_in(16) && !self.sent.is_empty() {
            pick_recent(&mut self.random, &self.sent)
        } else {
            pick_recent(&mut self.random, &self.replies)
        };
        Line::Near(record)
    }

    /// A record that the far end may take for the next, or nearly so, or any at all.
    fn invent_for_far(&mut self) -> Vec<u8> {
        let next = self.replay.far.delivered;
        let number = self
            .random
            .pick(&[next, next, next.wrapping_sub(1), next + 1]);
        let words = self.random.within(0, WORDS_MAX as u64) as usize;
        let timing = self.random.pick(&[Kind::Rtt, Kind::RttReply]);
        let kinds = [Kind::Transmitter, Kind::Signal(words), timing];
        let kind = self.random.pick(&kinds);
        match self.random.below(8) {
            0 | 1 => self.records.of(kind, number),
            2 => self.records.of(kind, ACCEPTED_MAX),
            3 => record::head(Kind::Reply, number).to_vec(),
            4 => Vec::new(),
            5 if !self.sent.is_empty() => {
                let mut record = pick_recent(&mut self.random, &self.sent);
                self.records.damage(&mut record);
                record
            }
            _ => self.records.record(),
        }
    }

    /// A reply that the near end may take, or nearly so, or any record at all.
    fn invent_for_near(&mut self) -> Vec<u8> {
        let near = self.replay.near;
        let last = near.accepted;
        let numbers = [near.acknowledged, last, last + 1, last + 9, ACCEPTED_MAX];
        let number = self.random.pick(&numbers);
        match self.random.below(8) {
            0..=3 => record::head(Kind::Reply, number).to_vec(),
            4 => Vec::new(),
            5 => {
                let mut reply = record::head(Kind::Reply, number).to_vec();
                self.records.damage(&mut reply);
                reply
            }
            _ => self.records.record(),
        }
    }

    /// Somebody else writes the store. The next poke most often undoes it, so that PDUs pass.
    fn poke(&mut self) -> Line {
        let undo = self.undo.take();
        if let Some(undo) = undo.filter(|_| !self.random.one_in(4)) {
            return undo;
        }
        let (offset, bytes) = if self.has_store && !self.random.one_in(8) {
            self.poke_row()
        } else {
            self.poke_within(0, self.replay.store.len())
        };
        let before = self.replay.store[offset..][..bytes.len()].to_vec();
        self.undo = Some(Line::Poke {
            offset,
            bytes: before,
        });
        Line::Poke { offset, bytes }
    }

    /// Most often the kind of a row that is held: unknown, that of a reply, or any that is known.
    fn poke_row(&mut self) -> (usize, Vec<u8>) {
        let row = near::row(self.number_to_send());
        let kinds: Vec<u8> = Kind::all().map(Kind::byte).collect();
        let kind = match self.random.below(8) {
            0 | 1 => self.random.pick(&UNKNOWN_KINDS),
            2 | 3 => Kind::Reply.byte(),
            4 | 5 => self.random.pick(&kinds),
            6 => self.random.next() as u8,
            _ => return self.poke_within(row.start, row.end),
        };
        (row.start, vec![kind])
    }

    /// A few bytes, or none, from a place on.
    fn poke_within(&mut self, start: usize, end: usize) -> (usize, Vec<u8>) {
        let offset = self.random.within(start as u64, end as u64) as usize;
        let most = (end - offset).min(HEAD_SIZE);
        let count = self.random.within(0, most as u64) as usize;
        (offset, self.random.bytes(count))
    }

    /// Steps of the clock; small ones where the units are many, so that they fill the places.
    fn clock(&mut self) -> Line {
        let station = &self.replay.far.station;
        let now = station.clock;
        let limit = u64::from(station.limit);
        let units: Vec<u64> = station
            .places
            .iter()
            .flatten()
            .map(|unit| unit.last)
            .collect();
        let step = match self.random.below(16) {
            0..=2 => return Line::Clock(now.saturating_sub(self.random.within(1, 100))),
            _ if self.traffic.is_crowded() && !self.random.one_in(8) => self.random.below(3),
            3 | 4 if !units.is_empty() => {
                let edge = self.random.pick(&[limit - 1, limit]);
                return Line::Clock(self.random.pick(&units).saturating_add(edge));
            }
            5 => self.random.within(limit - 10, limit + 10),
            6 if self.random.one_in(16) => self.random.next(),
            _ => self.random.within(0, 8),
        };
        Line::Clock(now.saturating_add(step))
    }
}

/// A station's settings, level 4 more often than the others; rarely one that it cannot have.
fn settings(random: &mut Random) -> Settings {
    let any_level = random.within(0, LAST_TSA_LEVEL.into()) as u8;
    let mut settings = Settings {
        level: random.pick(&[LAST_TSA_LEVEL, any_level]),
        net: random.within(0, LAST_NET.into()) as u8,
        exchanges: exchanges(random),
        limit: None,
    };
    if settings.exchanges.is_some() {
        settings.limit = limit(random);
    }
    match random.below(32) {
        0 => settings.level = LAST_TSA_LEVEL + 1,
        1 => settings.net = LAST_NET + 1,
        2 => settings.exchanges = Some(random.pick(&[FIRST_EXCHANGES - 1, LAST_EXCHANGES + 1])),
        3 => {
            settings.level = random.next() as u8;
            settings.net = random.next() as u8;
            settings.exchanges = Some(random.next() as u8);
        }
        4 if settings.exchanges.is_some() => {
            let outside = [0, FIRST_LIMIT - 1, LAST_LIMIT + 1, u16::MAX];
            settings.limit = Some(random.pick(&outside));
        }
        _ => {}
    }
    settings
}

/// A number of exchanges, small ones more often; now and then it is left out.
fn exchanges(random: &mut Random) -> Option<u8> {
    match random.below(8) {
        0 => None,
        1..=4 => Some(random.within(FIRST_EXCHANGES.into(), 3) as u8),
        _ => Some(random.within(FIRST_EXCHANGES.into(), LAST_EXCHANGES.into()) as u8),
    }
}

/// An absence limit, the ends of the range, 60 and the usual one more often; now and then it is left
/// out.
fn limit(random: &mut Random) -> Option<u16> {
    match random.below(8) {
        0 => None,
        1 | 2 => Some(random.within(FIRST_LIMIT.into(), LAST_LIMIT.into()) as u16),
        _ => Some(random.pick(&[FIRST_LIMIT, 60, USUAL_LIMIT, LAST_LIMIT])),
    }
}

/// One of the records, most often the last, or one of the last few.
fn pick_recent(random: &mut Random, records: &[Vec<u8>]) -> Vec<u8> {
    let back = match random.below(8) {
        0..=4 => 0,
        5 | 6 => random.below(8) as usize,
        _ => random.below(records.len() as u64) as usize,
    };
    let back = back.min(records.len() - 1);
    records[records.len() - 1 - back].clone()
}
