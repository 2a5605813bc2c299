//! The second program's station and ends on voice, message types 3 to 5 (document 02, R-4). The numbers
//! are the documents' own.

use super::known_cases::{of_level, Case, Ends, Trial, NET, NETWORK_TIME, POSITION};
use crate::numbers::Refusal;
use crate::pdu::layout;
use crate::sample::units::signal_of;
use crate::trunk::near::NearEnd;
use crate::trunk::record::{self, ACCEPTED_MAX};
use crate::trunk::station::{self, State};

pub const CASES: [Case; 3] = [
    ("voice at a station gets 50, whoever sends it", heard),
    ("voice offered gets 50, and types 6 and 7 get 23", offered),
    ("no record carries voice", carried),
];

/// A Signal of this message type with a body of 6 bytes.
fn message(message_type: u8) -> Vec<u8> {
    let mut bytes = signal_of(1, NET, 6, &[0; 6]);
    layout::MESSAGE_TYPE.put(&mut bytes, message_type.into());
    bytes
}

/// The station answers 50 to voice, and stays as it is.
fn hear_voice(trial: &mut Trial) {
    let before = trial.station.clone();
    for message_type in 3..=5 {
        let answer = trial.station.hear(&message(message_type));
        trial.equal(station::number(answer), 50);
    }
    trial.equal(trial.station == before, true);
}

/// The reader's number comes before 31 and 35, and instead of 44.
fn heard(trial: &mut Trial) {
    hear_voice(trial);
    trial.transmitter(1, of_level(0), 40);
    hear_voice(trial);
    trial.signal(1, NETWORK_TIME, 42);
    trial.signal(1, POSITION, 43);
    trial.equal(trial.station.state, State::Fine);
    hear_voice(trial);
    for message_type in [1, 2, 6, 7] {
        let answer = trial.station.hear(&message(message_type));
        trial.equal(station::number(answer), 44);
    }
}

/// Each message type is refused with its number, and nothing changes.
fn refused(trial: &mut Trial, ends: &mut Ends, numbers: &[(u8, u32)]) {
    let before = (ends.near, ends.store);
    for &(message_type, number) in numbers {
        let answer = ends.near.offer(&mut ends.store, &message(message_type));
        trial.equal(answer.map_err(Refusal::number), Err(number));
    }
    trial.equal((ends.near, ends.store) == before, true);
}

/// The reader's number comes after 28 and before 23, 25 and 24.
fn offered(trial: &mut Trial) {
    const NUMBERS: [(u8, u32); 5] = [(3, 50), (4, 50), (5, 50), (6, 23), (7, 23)];
    let mut ends = Ends::new(&trial.station);
    let short_store = ends.near.offer(&mut ends.store[1..], &message(3));
    trial.equal(short_store, Err(Refusal::StoreSize));
    refused(trial, &mut ends, &NUMBERS);
    for number in 0..8 {
        trial.equal(ends.offer(), Ok(number));
    }
    refused(trial, &mut ends, &NUMBERS);
    refused(trial, &mut ends, &[(1, 24), (2, 24)]);
    ends.near = NearEnd {
        accepted: ACCEPTED_MAX,
        acknowledged: ACCEPTED_MAX,
    };
    refused(trial, &mut ends, &NUMBERS);
    refused(trial, &mut ends, &[(1, 25), (2, 25)]);
}

/// In a record of its length voice is 22, as each type is in a record of another's kind.
fn carried(trial: &mut Trial) {
    let mut ends = Ends::new(&trial.station);
    for kind in [0, 17, 18] {
        for message_type in 3..=5 {
            let record = [&[kind, 0, 0, 0, 0], &message(message_type)[..]].concat();
            trial.equal(record::answer(&record).number, 22);
            trial.equal(ends.arrive(&record), Err(Refusal::CarriedBytes));
        }
    }
}
