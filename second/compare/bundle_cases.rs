//! The second program's station and ends on datagrams of several PDUs (document 02, R-5). The numbers are
//! the document's own.

use super::known_cases::{Case, Ends, Trial, NET, NETWORK_TIME};
use crate::numbers::Refusal;
use crate::pdu::layout;
use crate::sample::units::{signal, signal_of, transmitter, FINE_MODULATION};
use crate::trunk::near::NearEnd;
use crate::trunk::record;
use crate::trunk::station;
use crate::trunk::word::Word;

pub const CASES: [Case; 6] = [
    ("a bundle is taken whole and in order", taken),
    ("what stops a bundle, from the front", stopped),
    (
        "more than eight PDUs get 51, after what stops them",
        too_many,
    ),
    (
        "a bundle that does not fit gets 25 or 24, and no part of it is taken",
        not_fitting,
    ),
    ("a station hears the first PDU", heard),
    ("a record carries one PDU", records),
];

/// Transmitters of units 1 and on.
fn transmitters(count: u16) -> Vec<u8> {
    let pdus = (1..=count).map(|unit| transmitter(unit, FINE_MODULATION));
    pdus.flatten().collect()
}

/// A Signal of this message type with a body of 6 bytes.
fn message(message_type: u8) -> Vec<u8> {
    let mut bytes = signal_of(1, NET, 6, &[0; 6]);
    layout::MESSAGE_TYPE.put(&mut bytes, message_type.into());
    bytes
}

fn offer(trial: &mut Trial, ends: &mut Ends, bundle: &[u8], first: u32) {
    let answer = ends.near.offer(&mut ends.store, bundle);
    trial.equal(answer, Ok(first));
}

/// The near end answers this number, and nothing changes.
fn refuse(trial: &mut Trial, ends: &mut Ends, bundle: &[u8], number: u32) {
    let before = (ends.near, ends.store);
    let answer = ends.near.offer(&mut ends.store, bundle);
    trial.equal(answer.map_err(Refusal::number), Err(number));
    trial.equal((ends.near, ends.store) == before, true);
}

/// Three PDUs with padding in them, of three kinds: their records lie in rows 0, 1 and 2, and are sent.
fn taken(trial: &mut Trial) {
    let mut ends = Ends::new(&trial.station);
    let written = [transmitter(1, FINE_MODULATION), message(2), message(0)];
    let padded = written.clone().map(|mut pdu| {
        pdu[10..12].fill(0xFF);
        pdu
    });
    offer(trial, &mut ends, &padded.concat(), 0);
    trial.equal((ends.near.accepted, ends.near.acknowledged), (3, 0));
    for (number, (kind, pdu)) in (0..).zip([16, 18, 0].into_iter().zip(&written)) {
        let record = [&[kind, 0, 0, 0, number], &pdu[..]].concat();
        let row = &ends.store[192 * usize::from(number)..];
        trial.equal(&row[..record.len()], &record[..]);
        let mut output = vec![0; record.len()];
        let sent = ends.near.send(&ends.store, number.into(), &mut output);
        trial.equal((sent, output), (Ok(record.len()), record));
    }
    offer(trial, &mut ends, &transmitters(1), 3);
    offer(trial, &mut ends, &transmitters(4), 4);
    trial.equal(ends.near.reply(&[32, 0, 0, 0, 8]), Ok(8));
    // The eight rows of a bundle may begin anywhere.
    offer(trial, &mut ends, &transmitters(3), 8);
    trial.equal(ends.near.reply(&[32, 0, 0, 0, 11]), Ok(11));
    offer(trial, &mut ends, &transmitters(8), 11);
    trial.equal(&ends.store[192 * 2..][..5], &[16, 0, 0, 0, 18][..]);
    trial.equal(&ends.store[192 * 3..][..5], &[16, 0, 0, 0, 11][..]);
}

/// An empty slice is 1, and so is a tail of 1 to 11 bytes; of two PDUs that stop a bundle the first counts.
fn stopped(trial: &mut Trial) {
    let mut ends = Ends::new(&trial.station);
    let one = transmitters(1);
    let mut other_version = one.clone();
    layout::VERSION.put(&mut other_version, 8);
    let with = |behind: &[u8]| [&one[..], behind].concat();
    refuse(trial, &mut ends, &[], 1);
    for length in 1..12 {
        refuse(trial, &mut ends, &with(&one[..length]), 1);
        refuse(trial, &mut ends, &with(&vec![0; length]), 1);
    }
    for length in [12, 111] {
        refuse(trial, &mut ends, &with(&one[..length]), 4);
        refuse(trial, &mut ends, &with(&vec![0; length]), 2);
    }
    for (message_type, number) in [(3, 50), (5, 50), (6, 23), (7, 23)] {
        let message = message(message_type);
        refuse(
            trial,
            &mut ends,
            &[&one[..], &message, &one].concat(),
            number,
        );
        refuse(
            trial,
            &mut ends,
            &[&message[..], &other_version].concat(),
            number,
        );
        refuse(
            trial,
            &mut ends,
            &[&other_version[..], &message].concat(),
            2,
        );
    }
    refuse(
        trial,
        &mut ends,
        &[&message(6)[..], &message(3)].concat(),
        23,
    );
    refuse(
        trial,
        &mut ends,
        &[&message(3)[..], &message(6)].concat(),
        50,
    );
    let short_store = ends.near.offer(&mut ends.store[1..], &[]);
    trial.equal(short_store, Err(Refusal::StoreSize));
    offer(trial, &mut ends, &with(&one), 0);
}

/// Eight PDUs are taken. A PDU that stops a bundle of more comes before 51, wherever it stands; 51 comes
/// before 25 and 24.
fn too_many(trial: &mut Trial) {
    let mut ends = Ends::new(&trial.station);
    for count in [9, 10, 36] {
        refuse(trial, &mut ends, &transmitters(count), 51);
        for place in 0..usize::from(count) {
            let mut damaged = transmitters(count);
            layout::FAMILY.put(&mut damaged[112 * place..], 5);
            refuse(trial, &mut ends, &damaged, 3);
        }
        let with_tail = [&transmitters(count)[..], &[6]].concat();
        refuse(trial, &mut ends, &with_tail, 1);
        let with_type_6 = [&transmitters(count)[..], &message(6)].concat();
        refuse(trial, &mut ends, &with_type_6, 23);
    }
    offer(trial, &mut ends, &transmitters(8), 0);
    refuse(trial, &mut ends, &transmitters(9), 51);
    refuse(trial, &mut ends, &transmitters(8), 24);
    for left in 0..9 {
        ends.near = NearEnd {
            accepted: u32::MAX - left,
            acknowledged: u32::MAX - left,
        };
        refuse(trial, &mut ends, &transmitters(9), 51);
    }
}

/// Bundles of each size for each number of free rows, and of numbers left.
fn not_fitting(trial: &mut Trial) {
    for free in 0..8u16 {
        let mut ends = Ends::new(&trial.station);
        offer(trial, &mut ends, &transmitters(8 - free), 0);
        for count in free + 1..9 {
            refuse(trial, &mut ends, &transmitters(count), 24);
        }
        if free > 0 {
            offer(trial, &mut ends, &transmitters(free), (8 - free).into());
        }
    }
    for left in 0..8u16 {
        let mut ends = Ends::new(&trial.station);
        let accepted = u32::MAX - u32::from(left);
        // Eight are held: 25 comes before 24.
        for acknowledged in [accepted, accepted - 8] {
            ends.near = NearEnd {
                accepted,
                acknowledged,
            };
            for count in left + 1..9 {
                refuse(trial, &mut ends, &transmitters(count), 25);
            }
        }
        ends.near.acknowledged = accepted;
        if left > 0 {
            offer(trial, &mut ends, &transmitters(left), accepted);
            trial.equal(ends.near.accepted, u32::MAX);
        }
    }
}

/// What stands behind it changes neither the answer nor the station.
fn heard(trial: &mut Trial) {
    let position = signal(1, NET, &[Word::initial(2, 2)]);
    let mut hear = |pdus: &[&[u8]], expected| {
        let answer = trial.station.hear(&pdus.concat());
        trial.equal(station::number(answer), expected);
    };
    hear(&[&transmitters(3)], 40);
    hear(&[&transmitters(1), &[0xFF; 7]], 41);
    hear(&[&position, &transmitters(2)], 43);
    hear(&[&transmitters(1)[..111]], 4);
    let network_time = signal(1, NET, &[Word::initial(0, 0)]);
    hear(&[&message(1), &network_time], 44);
    hear(&[&message(3), &network_time], 50);
    let units = trial.station.places.iter().flatten().count();
    trial.equal(units, 1);
    trial.signal(1, NETWORK_TIME, 42);
}

/// In a record of another kind's length something stands behind a shorter PDU: 22, whatever it is.
fn records(trial: &mut Trial) {
    let no_words = message(0);
    let zeros = [0; 120];
    let cases: [(u8, Vec<u8>); 5] = [
        // 180 bytes: three Signals of no words, or one and zeros.
        (12, no_words.repeat(3)),
        (12, [&no_words[..], &zeros].concat()),
        // 120 bytes: two of type 1.
        (6, message(1).repeat(2)),
        // 112 and 68 bytes: a Transmitter and a Signal of one word, as a record of 12 words.
        (
            12,
            [transmitters(1), signal(1, NET, &[Word::initial(0, 0)])].concat(),
        ),
        // 112 bytes: a Signal of no words in a record of a Transmitter.
        (16, [&no_words[..], &zeros[..52]].concat()),
    ];
    for (kind, carried) in cases {
        let mut ends = Ends::new(&trial.station);
        let record = [&[kind, 0, 0, 0, 0], &carried[..]].concat();
        trial.equal(record::answer(&record).number, 22);
        trial.equal(ends.arrive(&record), Err(Refusal::CarriedBytes));
    }
    let exact = [&[0, 0, 0, 0, 0], &no_words[..]].concat();
    trial.equal(record::answer(&exact).size, 65);
    let longer = [&exact[..], &[0]].concat();
    trial.equal(record::answer(&longer).number, 21);
}
