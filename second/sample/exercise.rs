//! A sample exercise as a script for the replay program: a few units' traffic, offered in bundles at the
//! near end and repeated over a line that loses and repeats records, until all is acknowledged. The far
//! station is of level 4: it becomes Coarse by network time, and Fine by timing messages.

use super::units;
use crate::pdu::{Modulation, RTT, RTT_REPLY, TIMING_SIZE};
use crate::random::Random;
use crate::trunk::near::ROWS;
use crate::trunk::record::{HEAD_SIZE, PDU_SIZE_MAX, REPLY_SIZE};
use crate::trunk::replay::Replay;
use crate::trunk::script::{Line, Outcome, Settings};
use crate::trunk::station::{NETWORK_TIME, PPLI_LABEL};
use crate::trunk::word::Word;

const SEED: u64 = 7;
/// Of every so many records on the line one is lost, and one arrives twice.
const LOST_SHARE: u64 = 3;
const TWICE_SHARE: u64 = 4;
/// So many PDUs are offered in a second, in one datagram.
const BUNDLE: usize = 2;

/// The far end's station.
const LEVEL: u8 = 4;
const NET: u8 = 5;
const EXCHANGES: u8 = 2;
/// The synchronization ID of the station's net, and of another.
const ID: u32 = 70;
const OTHER_ID: u32 = 71;
/// A surveillance message, and a unit's own position.
const AIR_TRACK: (u8, u8) = (3, 2);
const AIR_POSITION: (u8, u8) = (PPLI_LABEL, 2);

/// The script, line by line.
pub fn script() -> String {
    let mut exercise = Exercise {
        random: Random::new(SEED),
        replay: Replay::new(),
        script: String::new(),
    };
    let station = Settings {
        level: LEVEL,
        net: NET,
        exchanges: Some(EXCHANGES),
        limit: None,
    };
    exercise.call(&Line::Station(station));
    exercise.run(&traffic());
    exercise.script
}

/// What the units send, in order.
fn traffic() -> Vec<Vec<u8>> {
    let transmitter = |unit, id| {
        units::transmitter(
            unit,
            Modulation {
                tsa_level: LEVEL,
                sync_id: id,
                ..units::FINE_MODULATION
            },
        )
    };
    let signal =
        |unit, (label, sublabel)| units::signal(unit, NET, &[Word::initial(label, sublabel)]);
    let timing = |unit, message_type| units::signal_of(unit, NET, message_type, &[0; TIMING_SIZE]);
    vec![
        transmitter(1, ID),
        signal(1, NETWORK_TIME),
        timing(1, RTT),
        timing(1, RTT_REPLY),
        timing(1, RTT_REPLY),
        signal(1, AIR_POSITION),
        signal(1, AIR_TRACK),
        signal(2, AIR_POSITION),
        transmitter(2, ID),
        signal(2, AIR_TRACK),
        transmitter(3, OTHER_ID),
        signal(3, AIR_TRACK),
    ]
}

struct Exercise {
    random: Random,
    replay: Replay,
    script: String,
}

impl Exercise {
    /// Adds a line, and makes the call.
    fn call(&mut self, line: &Line) -> Outcome {
        self.script += &format!("{line}\n");
        self.replay.call(line)
    }

    /// Second by second a bundle of PDUs is offered, as long as there are rows for them, and all that
    /// are held are sent.
    fn run(&mut self, traffic: &[Vec<u8>]) {
        let mut second = 0;
        while (self.replay.near.acknowledged as usize) < traffic.len() {
            second += 1;
            self.call(&Line::Clock(second));
            let held = self.replay.near.held();
            let room = ROWS as usize - held.len();
            let rest = &traffic[held.end as usize..];
            let bundle = &rest[..rest.len().min(BUNDLE).min(room)];
            if !bundle.is_empty() {
                self.call(&Line::Offer(bundle.concat()));
            }
            for number in self.replay.near.held() {
                self.send(number);
            }
        }
    }

    fn send(&mut self, number: u32) {
        let send = Line::Send {
            number,
            room: HEAD_SIZE + PDU_SIZE_MAX,
        };
        let Outcome::Sent(record) = self.call(&send) else {
            return;
        };
        for _ in 0..self.arrivals() {
            self.arrive(&record);
        }
    }

    /// How often a record arrives that goes down the line once.
    fn arrivals(&mut self) -> u64 {
        let arrives = !self.random.one_in(LOST_SHARE);
        let twice = self.random.one_in(TWICE_SHARE);
        u64::from(arrives) + u64::from(arrives && twice)
    }

    fn arrive(&mut self, record: &[u8]) {
        let far = Line::Far {
            record: record.to_vec(),
            room: PDU_SIZE_MAX,
            reply_room: REPLY_SIZE,
        };
        let outcome = self.call(&far);
        if let Outcome::Delivered { reply, .. } | Outcome::Repeat(reply) | Outcome::Early(reply) =
            outcome
        {
            for _ in 0..self.arrivals() {
                self.call(&Line::Near(reply.clone()));
            }
        }
    }
}
