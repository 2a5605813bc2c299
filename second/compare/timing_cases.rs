//! The second program's station and near end on cases of round-trip timing, each sentence of document
//! 02, R-1. The numbers are the document's own.

use super::known_cases::{of_level, with_id, Case, Ends, Trial};
use super::known_cases::{NET, NETWORK_TIME, NOT_FINE, POSITION, TRACK};
use crate::numbers::Refusal;
use crate::pdu::{Modulation, COARSE};
use crate::sample::units::signal_of;
use crate::trunk::station::{self, State, Station};

pub const CASES: [Case; 4] = [
    ("which timing messages count, and when", counting),
    ("both ways from Coarse to Fine", exchanges),
    ("refusals of timing messages in their order", order),
    ("message types 1, 2, 6 and 7 offered", offers),
];

/// A Signal of this message type with a body of 6 bytes, the padding of types 1 and 2 zero.
fn timing_message(unit: u16, net: u8, message_type: u8) -> Vec<u8> {
    signal_of(unit, net, message_type, &[0, 7, 255, 255, 255, 255])
}

fn hear(trial: &mut Trial, unit: u16, message_type: u8, expected: u32) {
    let answer = trial.station.hear(&timing_message(unit, NET, message_type));
    trial.equal(station::number(answer), expected);
}

/// How the station stands after the messages so far.
fn stands(trial: &mut Trial, state: State, count: u8) {
    trial.equal((trial.station.state, trial.station.count), (state, count));
}

/// While Coarse and of level 4, from a fine sender of level 4; type 1 never.
fn counting(trial: &mut Trial) {
    trial.station = Station::new(4, NET, 2).0;
    trial.transmitter(1, of_level(4), 40);
    trial.transmitter(2, of_level(3), 40);
    let coarse_sender = Modulation {
        sync_state: COARSE,
        ..of_level(4)
    };
    trial.transmitter(3, coarse_sender, 40);
    hear(trial, 1, 2, 44);
    hear(trial, 1, 1, 44);
    stands(trial, State::Waiting, 0);
    trial.signal(1, NETWORK_TIME, 42);
    stands(trial, State::Coarse, 0);
    for (unit, message_type, answer) in [(1, 1, 44), (2, 2, 44), (3, 2, 34), (3, 1, 44)] {
        hear(trial, unit, message_type, answer);
        stands(trial, State::Coarse, 0);
    }
    hear(trial, 1, 2, 47);
    stands(trial, State::Coarse, 1);
    trial.signal(1, NETWORK_TIME, 42);
    stands(trial, State::Coarse, 1);
    hear(trial, 1, 2, 47);
    stands(trial, State::Fine, 2);
    hear(trial, 1, 2, 44);
    trial.signal(1, NETWORK_TIME, 42);
    stands(trial, State::Fine, 2);
    // Nobody was In.
    trial.signal(1, TRACK, 35);
}

/// Each number of exchanges that a station may have; and a J0.0 that meets not both levels 4.
fn exchanges(trial: &mut Trial) {
    for exchanges in 1..=16 {
        trial.station = Station::new(4, NET, exchanges).0;
        trial.transmitter(1, of_level(4), 40);
        trial.transmitter(2, of_level(4), 40);
        trial.signal(1, NETWORK_TIME, 42);
        for count in 1..exchanges {
            hear(trial, 1 + u16::from(count % 2), 2, 47);
            stands(trial, State::Coarse, count);
        }
        hear(trial, 1, 2, 47);
        stands(trial, State::Fine, exchanges);
        hear(trial, 2, 2, 44);
        stands(trial, State::Fine, exchanges);
    }
    trial.station = Station::new(4, NET, 2).0;
    trial.transmitter(1, of_level(4), 40);
    trial.transmitter(2, of_level(3), 40);
    trial.signal(1, NETWORK_TIME, 42);
    hear(trial, 1, 2, 47);
    trial.signal(2, NETWORK_TIME, 42);
    stands(trial, State::Fine, 1);
    trial.station = Station::new(3, NET, 1).0;
    trial.transmitter(1, of_level(4), 40);
    trial.signal(1, NETWORK_TIME, 42);
    hear(trial, 1, 2, 44);
    stands(trial, State::Fine, 0);
}

fn order(trial: &mut Trial) {
    trial.transmitter(2, with_id(8), 40);
    trial.signal(2, NETWORK_TIME, 42);
    for message_type in [1, 2] {
        hear(trial, 1, message_type, 31);
    }
    let of_id_7 = Modulation {
        sync_state: COARSE,
        ..with_id(7)
    };
    trial.transmitter(1, of_id_7, 40);
    for message_type in [1, 2] {
        let other_net = timing_message(1, NET + 1, message_type);
        let answer = trial.station.hear(&other_net);
        trial.equal(station::number(answer), 32);
        hear(trial, 1, message_type, 33);
        let cut = trial.station.hear(&other_net[..56]);
        trial.equal(station::number(cut), 4);
    }
    trial.transmitter(1, NOT_FINE, 41);
    hear(trial, 1, 2, 34);
    hear(trial, 1, 1, 44);
    // The other types need In, as before.
    for message_type in [6, 7] {
        hear(trial, 2, message_type, 35);
    }
    trial.signal(2, POSITION, 43);
    for message_type in [6, 7] {
        hear(trial, 2, message_type, 44);
    }
}

/// Types 1 and 2 are carried, with a body of 6 bytes; types 6 and 7 are not.
fn offers(trial: &mut Trial) {
    let mut ends = Ends::new(&trial.station);
    for (message_type, kind) in [(1, 17), (2, 18)] {
        let datagram = timing_message(1, NET, message_type);
        let mut padded = datagram.clone();
        padded[52..54].copy_from_slice(&[0xFF, 0xFF]);
        let number = u32::from(message_type) - 1;
        trial.equal(ends.near.offer(&mut ends.store, &padded), Ok(number));
        let mut record = [0; 65];
        let sent = ends.near.send(&ends.store, number, &mut record);
        trial.equal(sent, Ok(65));
        let expected = [&[kind, 0, 0, 0, number as u8], &datagram[..]].concat();
        trial.equal(&record[..], &expected[..]);
        let mut other_size = datagram.clone();
        // 25 data bytes.
        other_size[28..30].copy_from_slice(&[0, 200]);
        let refused = ends.near.offer(&mut ends.store, &other_size);
        trial.equal(refused, Err(Refusal::BodySize));
    }
    for message_type in [6, 7] {
        let datagram = timing_message(1, NET, message_type);
        let refused = ends.near.offer(&mut ends.store, &datagram);
        trial.equal(refused, Err(Refusal::NotCarried));
    }
    trial.equal(ends.near.accepted, 2);
}
