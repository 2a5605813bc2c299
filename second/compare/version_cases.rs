//! The second program's station and ends on protocol versions 5, 6 and 7 (document 02, R-9). The numbers
//! are the documents' own.

use super::known_cases::{Case, Ends, Trial, NET};
use crate::numbers::Refusal;
use crate::pdu::layout;
use crate::sample::units::{signal, transmitter, FINE_MODULATION};
use crate::trunk::far::Arrival;
use crate::trunk::near::NearEnd;
use crate::trunk::record::{self, ACCEPTED_MAX, HEAD_SIZE};
use crate::trunk::station;
use crate::trunk::word::Word;

pub const CASES: [Case; 4] = [
    ("a station hears versions 5, 6 and 7 alike", heard),
    ("parameter records in version 7 get 64", refused),
    ("a status of version 7 goes down the line", carried),
    ("bytes 10, 11, 30 and 31 of a PDU in a record", records),
];

/// The same PDU in another version, with these bytes 10 and 11.
fn changed(pdu: Vec<u8>, version: u8, start: [u8; 2]) -> Vec<u8> {
    let mut pdu = pdu;
    pdu[0] = version;
    pdu[10..12].copy_from_slice(&start);
    pdu
}

fn fine_transmitter(version: u8, start: [u8; 2]) -> Vec<u8> {
    changed(transmitter(1, FINE_MODULATION), version, start)
}

fn with_records(version: u8) -> Vec<u8> {
    let mut bytes = fine_transmitter(version, [0, 0]);
    layout::PARAMETER_RECORDS.put(&mut bytes, 1);
    bytes
}

fn hear(trial: &mut Trial, datagram: &[u8], expected: u32) {
    let answer = trial.station.hear(datagram);
    trial.equal(station::number(answer), expected);
}

/// A unit is the same one in each version, and its status is no matter of the station.
fn heard(trial: &mut Trial) {
    let words = |label, sublabel| signal(1, NET, &[Word::initial(label, sublabel)]);
    hear(trial, &fine_transmitter(7, [1, 0]), 40);
    hear(trial, &fine_transmitter(5, [2, 2]), 41);
    hear(trial, &fine_transmitter(6, [255, 0]), 41);
    hear(trial, &fine_transmitter(7, [0, 255]), 41);
    hear(trial, &changed(words(0, 0), 7, [3, 0]), 42);
    hear(trial, &changed(words(2, 2), 5, [0, 0]), 43);
    hear(trial, &changed(words(3, 2), 7, [255, 255]), 44);
    let before = trial.station.clone();
    for version in [4, 8] {
        hear(trial, &fine_transmitter(version, [0, 0]), 2);
        hear(trial, &changed(words(2, 2), version, [0, 0]), 2);
    }
    hear(trial, &with_records(7), 64);
    trial.equal(trial.station == before, true);
    hear(trial, &with_records(6), 41);
}

/// The near end answers this number, and nothing changes.
fn refuses(trial: &mut Trial, ends: &mut Ends, datagram: &[u8], number: u32) {
    let before = (ends.near, ends.store);
    let answer = ends.near.offer(&mut ends.store, datagram);
    trial.equal(answer.map_err(Refusal::number), Err(number));
    trial.equal((ends.near, ends.store) == before, true);
}

/// After 28 and before 25 and 24, as the reader's number; versions 5 and 6 have padding there.
fn refused(trial: &mut Trial) {
    let mut ends = Ends::new(&trial.station);
    let short_store = ends.near.offer(&mut ends.store[1..], &with_records(7));
    trial.equal(short_store, Err(Refusal::StoreSize));
    refuses(trial, &mut ends, &with_records(7), 64);
    for (version, number) in [(5, 0), (6, 1)] {
        let offered = ends.near.offer(&mut ends.store, &with_records(version));
        trial.equal(offered, Ok(number));
        let sent = ends.send(number).unwrap_or_default();
        trial.equal(&sent[HEAD_SIZE + 30..HEAD_SIZE + 32], &[0, 0][..]);
    }
    for number in 2..8 {
        trial.equal(ends.offer(), Ok(number));
    }
    refuses(trial, &mut ends, &with_records(7), 64);
    refuses(trial, &mut ends, &with_records(6), 24);
    ends.near = NearEnd {
        accepted: ACCEPTED_MAX,
        acknowledged: ACCEPTED_MAX,
    };
    refuses(trial, &mut ends, &with_records(7), 64);
    refuses(trial, &mut ends, &with_records(6), 25);
}

/// What is offered with bytes 10 and 11 as these is put out with them as those.
fn carried(trial: &mut Trial) {
    let mut ends = Ends::new(&trial.station);
    let starts = [
        (5, [0x8C, 0x0B], [0, 0]),
        (6, [0x8C, 0], [0, 0]),
        (7, [0x8C, 0x0B], [0x8C, 0]),
        (7, [0xFF, 0], [0xFF, 0]),
        (7, [0, 0x0B], [0, 0]),
    ];
    for (number, (version, offered, put_out)) in (0..).zip(starts) {
        let datagram = fine_transmitter(version, offered);
        let expected = fine_transmitter(version, put_out);
        let answer = ends.near.offer(&mut ends.store, &datagram);
        trial.equal(answer, Ok(number));
        let record = ends.send(number).unwrap_or_default();
        trial.equal(&record[HEAD_SIZE..], &expected[..]);
        let delivered = matches!(ends.arrive(&record), Ok(Arrival::Delivered { .. }));
        trial.equal(delivered, true);
        trial.equal(&ends.output[..expected.len()], &expected[..]);
    }
}

/// A version, and bytes 10, 11, 30 and 31; the number of a record with a Transmitter, and of one with
/// a Signal, whose bytes 30 and 31 are its samples.
const RECORDS: [(u8, [u8; 4], [u32; 2]); 16] = [
    (4, [0, 0, 0, 0], [22, 22]),
    (5, [0, 0, 0, 0], [0, 0]),
    (5, [1, 0, 0, 0], [22, 22]),
    (5, [0, 1, 0, 0], [22, 22]),
    (5, [0, 0, 0, 1], [22, 0]),
    (6, [0, 0, 0, 0], [0, 0]),
    (6, [1, 0, 0, 0], [22, 22]),
    (6, [0, 1, 0, 0], [22, 22]),
    (6, [0, 0, 1, 0], [22, 0]),
    (7, [0, 0, 0, 0], [0, 0]),
    (7, [1, 0, 0, 0], [0, 0]),
    (7, [255, 0, 0, 0], [0, 0]),
    (7, [1, 1, 0, 0], [22, 22]),
    (7, [0, 0, 1, 0], [22, 0]),
    (7, [0, 0, 0, 1], [22, 0]),
    (8, [0, 0, 0, 0], [22, 22]),
];

fn records(trial: &mut Trial) {
    for (version, [status, padding, high, low], numbers) in RECORDS {
        let pdus = [transmitter(1, FINE_MODULATION), signal(1, NET, &[])];
        for ((kind, pdu), number) in [16, 0].into_iter().zip(pdus).zip(numbers) {
            let mut pdu = changed(pdu, version, [status, padding]);
            pdu[30..32].copy_from_slice(&[high, low]);
            let record = [&[kind, 0, 0, 0, 0], &pdu[..]].concat();
            trial.equal(record::answer(&record).number, number);
            let arrived = Ends::new(&trial.station).arrive(&record);
            trial.equal(arrived.map_or_else(Refusal::number, |_| 0), number);
        }
    }
}
