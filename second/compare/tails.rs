//! Bytes behind the first PDU (document 02, R-5): holds the archive's answers to datagrams against those
//! to their first PDU alone, walks what they hold PDU by PDU, and counts what is taken so. A record has
//! no such bytes.

use super::versions::is_transmitter;
use crate::archive;
use crate::check::{Claim, Report};
use crate::hex;
use crate::pdu::layout;
use crate::pdu::read::{self, Answer};
use crate::trunk::record::{Kind, Record};

/// A reading: its name, the archive's call, and the second program's own.
type Reading = (&'static str, fn(&[u8]) -> Answer, fn(&[u8]) -> Answer);

const READINGS: [Reading; 2] = [
    ("altuvrin_datagram", archive::datagram, read::answer),
    (
        "altuvrin_archive",
        archive::archive_reading,
        read::archive_answer,
    ),
];

/// The archive's answers to datagrams, by both readings.
pub struct DatagramTails {
    behind: Claim,
    used: Claim,
    walked: Claim,
    /// So many Transmitters and Signals were taken with bytes behind them, by each reading.
    taken: [[u64; 2]; 2],
    /// So many datagrams were refused with bytes behind the first PDU's end, but not for its length.
    refused: u64,
    /// So many datagrams are one PDU, two PDUs and so on to ten, with nothing else behind them.
    bundles: [u64; 10],
}

impl DatagramTails {
    pub fn new() -> Self {
        DatagramTails {
            behind: Claim::new("bytes behind the first PDU change no answer, taken or refused"),
            used: Claim::new("the bytes used are those of the length field, and one less is 4"),
            walked: Claim::new("what stands behind a PDU is read alike, PDU by PDU"),
            taken: [[0; 2]; 2],
            refused: 0,
            bundles: [0; 10],
        }
    }

    pub fn datagram(&mut self, datagram: &[u8]) {
        for (at, (name, call, own)) in READINGS.into_iter().enumerate() {
            let describe = || format!("{name}: {}", hex::encode(datagram));
            let answer = call(datagram);
            let others = with_others_behind(datagram);
            let same = others.iter().all(|other| call(other) == answer);
            self.behind.sample(same, describe);
            if answer.number == 0 {
                self.used
                    .sample(uses_its_length(datagram, answer, call), describe);
                let is_longer = datagram.len() > answer.size as usize;
                let form = usize::from(!is_transmitter(datagram));
                self.taken[at][form] += u64::from(is_longer);
            }
            self.walked
                .sample(walks_alike(datagram, call, own), describe);
        }
        self.count(datagram);
    }

    fn count(&mut self, datagram: &[u8]) {
        let has_more = first_end(datagram).is_some_and(|end| datagram.len() > end);
        let number = archive::datagram(datagram).number;
        self.refused += u64::from(has_more && ![0, 4].contains(&number));
        let (pdus, rest) = walk(datagram, archive::datagram);
        if let Some(count) = self.bundles.get_mut(pdus.wrapping_sub(1)) {
            *count += u64::from(rest.is_empty());
        }
    }

    /// Counts the claims, and that each sort of datagram occurs.
    pub fn report(&self, least: u64, report: &mut Report) {
        report.count(&self.behind);
        report.count(&self.used);
        report.count(&self.walked);
        for ((name, ..), [transmitters, signals]) in READINGS.iter().zip(self.taken) {
            let mut claim = Claim::new(format!(
                "{name} takes with bytes behind them: {transmitters} Transmitters, {signals} Signals"
            ));
            claim.sample(transmitters.min(signals) >= least, || {
                format!("not {least} of each")
            });
            report.count(&claim);
        }
        let refused = self.refused;
        let mut claim = Claim::new(format!("{refused} are refused with bytes behind them"));
        claim.sample(refused >= least, || format!("not {least}"));
        report.count_own(&claim);
        let counts = self.bundles.map(|count| count.to_string()).join(", ");
        let mut claim = Claim::new(format!("datagrams of one to ten PDUs: {counts}"));
        claim.sample(self.bundles.iter().all(|&count| count >= least), || {
            format!("not {least} of each")
        });
        report.count_own(&claim);
    }
}

/// Where the first PDU ends by its length field, in a datagram that has a start and reaches so far. No
/// PDU ends before its start does.
fn first_end(datagram: &[u8]) -> Option<usize> {
    let length = layout::LENGTH.get(datagram)? as usize;
    let end = length.max(12);
    Some(end).filter(|&end| end <= datagram.len())
}

/// The same first PDU with nothing behind it, with a byte, and with the whole datagram once more; no
/// datagrams where the first PDU is cut.
fn with_others_behind(datagram: &[u8]) -> Vec<Vec<u8>> {
    let Some(end) = first_end(datagram) else {
        return Vec::new();
    };
    let (first, _) = datagram.split_at(end);
    let others: [&[u8]; 3] = [&[], &[0xFF], datagram];
    others.map(|other| [first, other].concat()).to_vec()
}

/// Of a datagram that is taken.
fn uses_its_length(datagram: &[u8], answer: Answer, call: fn(&[u8]) -> Answer) -> bool {
    let length = layout::LENGTH.get(datagram).unwrap_or(0) as usize;
    let cut = Answer { number: 4, size: 0 };
    answer.size as usize == length && call(&datagram[..length - 1]) == cut
}

/// How many PDUs are taken from the front, and what is left then.
fn walk(datagram: &[u8], call: fn(&[u8]) -> Answer) -> (usize, &[u8]) {
    let mut rest = datagram;
    let mut pdus = 0;
    while !rest.is_empty() && call(rest).number == 0 {
        rest = &rest[call(rest).size as usize..];
        pdus += 1;
    }
    (pdus, rest)
}

fn walks_alike(datagram: &[u8], call: fn(&[u8]) -> Answer, own: fn(&[u8]) -> Answer) -> bool {
    let (_, rest) = walk(datagram, call);
    walk(datagram, call) == walk(datagram, own) && call(rest) == own(rest)
}

/// The archive's answers to records that carry a PDU with something behind it.
pub struct RecordTails {
    refused: Claim,
    count: u64,
}

impl RecordTails {
    pub fn new() -> Self {
        RecordTails {
            refused: Claim::new("a record that carries more than its PDU is 22"),
            count: 0,
        }
    }

    pub fn record(&mut self, bytes: &[u8]) {
        let Ok(record) = Record::split(bytes) else {
            return;
        };
        let carried = read::answer(record.pdu);
        let is_longer = record.pdu.len() > carried.size as usize;
        if record.kind == Kind::Reply || carried.number != 0 || !is_longer {
            return;
        }
        let number = archive::record(bytes).number;
        let expected = if record.number == u32::MAX { 25 } else { 22 };
        self.refused.sample(number == expected, || {
            format!("{number}: {}", hex::encode(bytes))
        });
        self.count += 1;
    }

    pub fn report(&self, least: u64, report: &mut Report) {
        report.count(&self.refused);
        let count = self.count;
        let mut claim = Claim::new(format!("{count} records carry more than their PDU"));
        claim.sample(count >= least, || format!("not {least}"));
        report.count_own(&claim);
    }
}
