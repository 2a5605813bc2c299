//! The second program's station and ends on cases that documents 01 and 02 tell in words: 01's
//! "Sizes and edges" and "Wrong by one rule", and each sentence of the rules that a slip could turn
//! round. The numbers are the documents' own.

use super::bundle_cases;
use super::self_check::MARK;
use super::timing_cases;
use super::version_cases;
use super::voice_cases;
use crate::check::{Claim, Report};
use crate::numbers::{self, Refusal};
use crate::pdu::{Modulation, COARSE, TRANSMITTER_SIZE};
use crate::sample::units::{signal, transmitter, FINE_MODULATION};
use crate::trunk::far::{Arrival, FarEnd};
use crate::trunk::near::{NearEnd, STORE_SIZE};
use crate::trunk::record::{Kind, ACCEPTED_MAX, HEAD_SIZE, PDU_SIZE_MAX, REPLY_SIZE};
use crate::trunk::station::{self, State, Station};
use crate::trunk::word::Word;

pub const NET: u8 = 5;
pub const NETWORK_TIME: (u8, u8) = (0, 0);
pub const POSITION: (u8, u8) = (2, 2);
pub const TRACK: (u8, u8) = (3, 2);

/// What is claimed, and what tries it.
pub type Case = (&'static str, fn(&mut Trial));

/// Counts a check for each case.
pub fn run(report: &mut Report) {
    let cases: [Case; 12] = [
        ("last heard at 40: in at 99, removed at 100, by 60", absence),
        ("the limits 24, 60, 96 and 600, and the usual one", limits),
        (
            "a Transmitter again: what it keeps and what it replaces",
            refreshing,
        ),
        ("which IDs match, and which the station takes", ids),
        ("how the levels let the station in", levels),
        ("the seventeenth unit, and the lowest free place", places),
        ("what a first word must be", first_words),
        ("refusals in their order", order),
        ("a station that cannot be", settings),
        ("repeats, early ones and buffers too short", arrivals),
        ("eight unacknowledged, replies and sends", window),
        ("the last number", last_number),
    ];
    let later = timing_cases::CASES.into_iter().chain(voice_cases::CASES);
    let later = later.chain(version_cases::CASES).chain(bundle_cases::CASES);
    for (what, case) in cases.into_iter().chain(later) {
        let mut trial = Trial::new(what);
        case(&mut trial);
        report.count_own(&trial.claim);
    }
}

/// A station with what is claimed of it; its limit is 60 seconds where a case makes no other.
pub struct Trial {
    claim: Claim,
    pub station: Station,
}

impl Trial {
    fn new(what: &str) -> Self {
        Trial {
            claim: Claim::new(what),
            station: Station::with_limit(0, NET, 1, 60).0,
        }
    }

    pub fn equal<T: PartialEq + std::fmt::Debug>(&mut self, found: T, expected: T) {
        let describe = || format!("{found:?}, not {expected:?}, at {:?}", self.station);
        self.claim.sample(found == expected, describe);
    }

    fn clock(&mut self, second: u64, expected: u32) {
        let answer = self.station.set_clock(second);
        self.equal(station::number(answer), expected);
    }

    pub fn transmitter(&mut self, unit: u16, modulation: Modulation, expected: u32) {
        let answer = self.station.hear(&transmitter(unit, modulation));
        self.equal(station::number(answer), expected);
    }

    pub fn signal(&mut self, unit: u16, (label, sublabel): (u8, u8), expected: u32) {
        self.words(unit, &[Word::initial(label, sublabel)], expected);
    }

    fn words(&mut self, unit: u16, words: &[Word], expected: u32) {
        let answer = self.station.hear(&signal(unit, NET, words));
        self.equal(station::number(answer), expected);
    }

    /// The places that are held.
    fn held(&mut self, expected: &[usize]) {
        let places = self.station.places.iter().enumerate();
        let held: Vec<usize> = places.filter_map(|(at, unit)| unit.map(|_| at)).collect();
        self.equal(&held[..], expected);
    }
}

pub fn with_id(id: u32) -> Modulation {
    Modulation {
        tsa_level: 3,
        sync_id: id,
        ..FINE_MODULATION
    }
}

pub fn of_level(level: u8) -> Modulation {
    Modulation {
        tsa_level: level,
        ..FINE_MODULATION
    }
}

pub const NOT_FINE: Modulation = Modulation {
    sync_state: COARSE,
    ..FINE_MODULATION
};

fn absence(trial: &mut Trial) {
    trial.transmitter(1, FINE_MODULATION, 40);
    trial.clock(40, 46);
    trial.signal(1, POSITION, 43);
    trial.clock(99, 46);
    trial.held(&[0]);
    trial.clock(98, 36);
    trial.clock(100, 46);
    trial.held(&[]);
}

/// A unit is in one second before the limit, and removed at it.
fn limits(trial: &mut Trial) {
    let usual = (Station::new(0, NET, 1).0, 96);
    let made = [24, 60, 96, 600].map(|limit| {
        let (station, _) = Station::with_limit(0, NET, 1, limit);
        (station, u64::from(limit))
    });
    for (station, limit) in made.into_iter().chain([usual]) {
        trial.station = station;
        trial.clock(40, 46);
        trial.transmitter(1, FINE_MODULATION, 40);
        trial.clock(40 + limit - 1, 46);
        trial.held(&[0]);
        trial.clock(40 + limit, 46);
        trial.held(&[]);
    }
}

fn refreshing(trial: &mut Trial) {
    trial.transmitter(1, with_id(7), 40);
    trial.signal(1, NETWORK_TIME, 42);
    trial.signal(1, POSITION, 43);
    trial.signal(1, TRACK, 44);
    trial.clock(59, 46);
    trial.transmitter(
        1,
        Modulation {
            tsa_level: 4,
            ..with_id(7)
        },
        41,
    );
    trial.signal(1, TRACK, 44);
    trial.transmitter(1, with_id(0), 41);
    trial.signal(1, TRACK, 35);
    trial.signal(1, POSITION, 43);
    trial.transmitter(1, NOT_FINE, 41);
    trial.transmitter(1, FINE_MODULATION, 41);
    trial.signal(1, TRACK, 35);
    trial.transmitter(2, FINE_MODULATION, 40);
    trial.clock(118, 46);
    trial.transmitter(1, FINE_MODULATION, 41);
    trial.transmitter(2, FINE_MODULATION, 41);
    trial.clock(119, 46);
    trial.held(&[]);
}

fn ids(trial: &mut Trial) {
    trial.transmitter(1, with_id(0), 40);
    trial.transmitter(2, with_id(7), 40);
    trial.transmitter(3, with_id(8), 40);
    trial.signal(1, NETWORK_TIME, 42);
    trial.equal(trial.station.id, 0);
    trial.signal(2, NETWORK_TIME, 42);
    trial.equal(trial.station.id, 7);
    trial.signal(3, NETWORK_TIME, 33);
    trial.signal(1, NETWORK_TIME, 42);
    trial.equal(trial.station.id, 7);
}

fn levels(trial: &mut Trial) {
    trial.station = Station::new(4, NET, 1).0;
    trial.transmitter(1, of_level(4), 40);
    trial.transmitter(2, of_level(3), 40);
    trial.signal(1, NETWORK_TIME, 42);
    trial.equal(trial.station.state, State::Coarse);
    trial.signal(1, NETWORK_TIME, 42);
    trial.equal(trial.station.state, State::Coarse);
    trial.signal(2, NETWORK_TIME, 42);
    trial.equal(trial.station.state, State::Fine);
    trial.signal(1, NETWORK_TIME, 42);
    trial.equal(trial.station.state, State::Fine);
    trial.station = Station::new(3, NET, 1).0;
    trial.transmitter(1, of_level(4), 40);
    trial.signal(1, NETWORK_TIME, 42);
    trial.equal(trial.station.state, State::Fine);
}

fn places(trial: &mut Trial) {
    for unit in 0..16 {
        trial.transmitter(unit, FINE_MODULATION, 40);
    }
    trial.transmitter(16, FINE_MODULATION, 30);
    trial.transmitter(15, FINE_MODULATION, 41);
    trial.clock(1, 46);
    for unit in (0..16).filter(|unit| ![3, 9].contains(unit)) {
        trial.signal(unit, POSITION, 43);
    }
    trial.clock(60, 46);
    trial.transmitter(16, FINE_MODULATION, 40);
    let key = trial.station.places[3].map(|unit| unit.key);
    trial.equal(key, Some(0x0001_0001_0010_0001));
    trial.held(&[0, 1, 2, 3, 4, 5, 6, 7, 8, 10, 11, 12, 13, 14, 15]);
}

fn first_words(trial: &mut Trial) {
    let initial = Word::initial;
    let extension = |label| Word {
        format: 2,
        ..initial(label, 0)
    };
    trial.transmitter(1, FINE_MODULATION, 40);
    trial.words(1, &[], 35);
    trial.words(1, &[initial(0, 1)], 35);
    trial.words(1, &[extension(0)], 35);
    trial.words(1, &[initial(1, 0), initial(0, 0)], 35);
    trial.words(1, &[initial(0, 0), initial(2, 0)], 42);
    trial.words(1, &[extension(2)], 35);
    trial.words(1, &[initial(2, 7)], 43);
    trial.words(1, &[], 44);
    trial.words(1, &[initial(31, 7)], 44);
}

fn order(trial: &mut Trial) {
    let wrong_net = signal(1, NET + 1, &[Word::initial(0, 0)]);
    let on_wrong_net = trial.station.hear(&wrong_net);
    trial.equal(station::number(on_wrong_net), 31);
    trial.transmitter(2, with_id(8), 40);
    trial.signal(2, NETWORK_TIME, 42);
    let of_id_7 = Modulation {
        sync_state: COARSE,
        ..with_id(7)
    };
    trial.transmitter(1, of_id_7, 40);
    let on_wrong_net = trial.station.hear(&wrong_net);
    trial.equal(station::number(on_wrong_net), 32);
    trial.signal(1, NETWORK_TIME, 33);
    trial.transmitter(1, NOT_FINE, 41);
    trial.signal(1, NETWORK_TIME, 34);
    trial.signal(1, POSITION, 34);
    trial.signal(1, TRACK, 35);
    let cut = trial.station.hear(&wrong_net[1..]);
    trial.equal(station::number(cut), 2);
}

fn settings(trial: &mut Trial) {
    let (fresh, _) = Station::new(0, 0, 1);
    trial.equal((fresh.exchanges, fresh.limit), (1, 96));
    for (level, net, exchanges, limit) in [(4, 127, 1, 24), (4, 127, 16, 600)] {
        let (station, answer) = Station::with_limit(level, net, exchanges, limit);
        trial.equal(numbers::number(answer), 0);
        trial.equal((station.level, station.net), (level, net));
        trial.equal((station.exchanges, station.limit), (exchanges, limit));
    }
    for (level, net, exchanges, limit) in [
        (5, 0, 1, 60),
        (0, 128, 1, 60),
        (4, 127, 0, 60),
        (4, 127, 17, 60),
        (4, 127, 16, 0),
        (4, 127, 16, 23),
        (4, 127, 16, 601),
        (4, 127, 16, u16::MAX),
    ] {
        let (station, answer) = Station::with_limit(level, net, exchanges, limit);
        trial.equal(numbers::number(answer), 37);
        trial.equal(&station, &fresh);
    }
}

/// Both ends, with a store and with buffers just long enough.
pub struct Ends {
    pub near: NearEnd,
    pub store: [u8; STORE_SIZE],
    far: FarEnd,
    pub output: [u8; PDU_SIZE_MAX],
    reply: [u8; REPLY_SIZE],
}

impl Ends {
    pub fn new(station: &Station) -> Self {
        Ends {
            near: NearEnd::default(),
            store: [MARK; STORE_SIZE],
            far: FarEnd::new(station.clone()),
            output: [MARK; PDU_SIZE_MAX],
            reply: [MARK; REPLY_SIZE],
        }
    }

    pub fn offer(&mut self) -> Result<u32, Refusal> {
        let datagram = transmitter(1, FINE_MODULATION);
        self.near.offer(&mut self.store, &datagram)
    }

    pub fn send(&self, number: u32) -> Result<Vec<u8>, Refusal> {
        let mut output = vec![0; Kind::Transmitter.size()];
        self.near.send(&self.store, number, &mut output)?;
        Ok(output)
    }

    pub fn arrive(&mut self, record: &[u8]) -> Result<Arrival, Refusal> {
        self.far.arrive(record, &mut self.output, &mut self.reply)
    }
}

fn arrivals(trial: &mut Trial) {
    let mut ends = Ends::new(&trial.station);
    let delivered = |answer| {
        Ok(Arrival::Delivered {
            size: TRANSMITTER_SIZE,
            answer,
        })
    };
    trial.equal((ends.offer(), ends.offer()), (Ok(0), Ok(1)));
    let (Ok(first), Ok(second)) = (ends.send(0), ends.send(1)) else {
        return trial.equal("no records", "two records");
    };
    trial.equal(ends.arrive(&second), Ok(Arrival::Early));
    trial.equal(ends.reply, [32, 0, 0, 0, 0]);
    let short = ends
        .far
        .arrive(&first, &mut ends.output[1..], &mut ends.reply);
    trial.equal(short, Err(Refusal::Output));
    let short = ends
        .far
        .arrive(&first, &mut ends.output, &mut ends.reply[1..]);
    trial.equal(short, Err(Refusal::Output));
    trial.equal(ends.output, [MARK; PDU_SIZE_MAX]);
    trial.equal(ends.arrive(&first), delivered(40));
    trial.equal(ends.reply, [32, 0, 0, 0, 1]);
    trial.equal(ends.arrive(&second), delivered(41));
    trial.equal(&ends.output[..TRANSMITTER_SIZE], &second[HEAD_SIZE..]);
    trial.equal(&ends.output[TRANSMITTER_SIZE..], &[MARK; 68][..]);
    trial.equal(ends.arrive(&first), Ok(Arrival::Repeat));
    trial.equal(ends.reply, [32, 0, 0, 0, 2]);
}

fn window(trial: &mut Trial) {
    let mut ends = Ends::new(&trial.station);
    for number in 0..8 {
        trial.equal(ends.offer(), Ok(number));
    }
    trial.equal(ends.offer(), Err(Refusal::WindowFull));
    trial.equal(
        ends.near.reply(&[32, 0, 0, 0, 9]),
        Err(Refusal::NotAccepted),
    );
    trial.equal(ends.near.reply(&[32, 0, 0, 0, 3]), Ok(3));
    trial.equal(ends.near.reply(&[32, 0, 0, 0, 2]), Ok(3));
    trial.equal(ends.send(2), Err(Refusal::NotHeld));
    trial.equal(ends.send(8), Err(Refusal::NotHeld));
    trial.equal(
        ends.send(3).map(|record| record[..5].to_vec()),
        Ok(vec![16, 0, 0, 0, 3]),
    );
    trial.equal(ends.offer(), Ok(8));
    trial.equal(ends.store[..5].to_vec(), vec![16, 0, 0, 0, 8]);
    let whole = ends.send(8).unwrap_or_default();
    trial.equal(ends.near.reply(&whole), Err(Refusal::WrongEnd));
    trial.equal(ends.offer(), Ok(9));
    ends.store[192] = 13;
    trial.equal(ends.send(9).err(), Some(Refusal::RecordKind));
    ends.store[192] = 32;
    trial.equal(ends.send(9).err(), Some(Refusal::WrongEnd));
    let short = ends.near.send(&ends.store[1..], 9, &mut []);
    trial.equal(short, Err(Refusal::StoreSize));
}

/// 4,294,967,295 PDUs are accepted, and no more.
fn last_number(trial: &mut Trial) {
    let mut ends = Ends::new(&trial.station);
    let last = ACCEPTED_MAX - 1;
    ends.near = NearEnd {
        accepted: last,
        acknowledged: last,
    };
    trial.equal(ends.offer(), Ok(last));
    trial.equal(ends.offer(), Err(Refusal::LastNumber));
    let mut record = ends.send(last).unwrap_or_default();
    ends.far.delivered = last;
    trial.equal(ends.arrive(&record).is_ok(), true);
    trial.equal(ends.far.delivered, ACCEPTED_MAX);
    trial.equal(ends.near.reply(&ends.reply), Ok(ACCEPTED_MAX));
    trial.equal(ends.offer(), Err(Refusal::LastNumber));
    record[HEAD_SIZE - 1] = u8::MAX;
    trial.equal(ends.arrive(&record), Err(Refusal::LastNumber));
}
