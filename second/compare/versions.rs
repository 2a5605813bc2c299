//! Protocol versions 5, 6 and 7 (document 02, R-9): holds the archive's answers to the same bytes in
//! each version against each other, and counts the versions of what is taken.

use crate::archive;
use crate::check::{Claim, Report};
use crate::hex;
use crate::pdu::layout::{self, Field};
use crate::pdu::read::Answer;
use crate::pdu::{TRANSMITTER_TYPE, VERSIONS};
use crate::trunk::record::HEAD_SIZE;

pub fn is_transmitter(pdu: &[u8]) -> bool {
    layout::PDU_TYPE.get(pdu) == Some(u64::from(TRANSMITTER_TYPE))
}

/// The same bytes, of which there is one at least, in another version.
pub fn in_version(datagram: &[u8], version: u8) -> Vec<u8> {
    with(datagram, layout::VERSION, version.into())
}

fn with(bytes: &[u8], field: Field, value: u64) -> Vec<u8> {
    let mut bytes = bytes.to_vec();
    field.put(&mut bytes, value);
    bytes
}

/// How many PDUs were of each version, and of version 7 with a status that is not 0.
#[derive(Default)]
pub struct VersionCounts {
    transmitters: [u64; 4],
    signals: [u64; 4],
}

impl VersionCounts {
    /// Counts a PDU that is taken.
    pub fn count(&mut self, pdu: &[u8]) {
        let counts = if is_transmitter(pdu) {
            &mut self.transmitters
        } else {
            &mut self.signals
        };
        let has_status = layout::has_status(pdu) && layout::STATUS.get(pdu) != Some(0);
        counts[usize::from(pdu[layout::VERSION.at] - VERSIONS[0])] += 1;
        counts[VERSIONS.len()] += u64::from(has_status);
    }

    /// Counts a check that each occurred often enough, for each form of PDU.
    pub fn report(&self, what: &str, least: u64, report: &mut Report) {
        let forms = [
            ("Transmitters", self.transmitters),
            ("Signals", self.signals),
        ];
        for (form, counts) in forms {
            let [five, six, seven, with_status] = counts;
            let mut claim = Claim::new(format!(
                "{form} {what}: {five} of version 5, {six} of version 6, {seven} of version 7, {with_status} of these with a status"
            ));
            claim.sample(counts.iter().all(|&count| count >= least), || {
                format!("not {least} of each")
            });
            report.count_own(&claim);
        }
    }
}

/// A call of the archive, with its name.
type Call = (&'static str, fn(&[u8]) -> Answer);

const READINGS: [Call; 2] = [
    ("altuvrin_datagram", archive::datagram),
    ("altuvrin_archive", archive::archive_reading),
];

/// The archive's answers to the same datagrams in each version.
pub struct DatagramVersions {
    alike: Claim,
    others: Claim,
    /// How often 64 stands in version 7 where versions 5 and 6 have 0, 8 and 9.
    in_place_of: [u64; 3],
    counts: VersionCounts,
}

impl DatagramVersions {
    pub fn new() -> Self {
        DatagramVersions {
            alike: Claim::new("versions 5, 6 and 7 are answered alike, but for 64 in version 7"),
            others: Claim::new("versions 4 and 8 are answered 2"),
            in_place_of: [0; 3],
            counts: VersionCounts::default(),
        }
    }

    pub fn datagram(&mut self, datagram: &[u8]) {
        if datagram.is_empty() {
            return;
        }
        let [four, five, six, seven, eight] =
            [4, 5, 6, 7, 8].map(|version| in_version(datagram, version));
        for (name, read) in READINGS {
            let before = read(&five);
            let expected = in_version_7(datagram, before);
            let holds = read(&six) == before && read(&seven) == expected;
            self.alike
                .sample(holds, || format!("{name}: {}", hex::encode(datagram)));
            let is_long = datagram.len() >= 12;
            let is_refused = |other: &[u8]| !is_long || read(other).number == 2;
            self.others
                .sample(is_refused(&four) && is_refused(&eight), || {
                    format!("{name}: {}", hex::encode(datagram))
                });
        }
        let before = archive::datagram(&five);
        let at = [0, 8, 9].iter().position(|&number| number == before.number);
        if let Some(at) = at.filter(|_| archive::datagram(&seven).number == 64) {
            self.in_place_of[at] += 1;
        }
        if archive::datagram(datagram).number == 0 {
            self.counts.count(datagram);
        }
    }

    /// Counts the claims, and that 64 occurs in the place of each number.
    pub fn report(&self, least: u64, report: &mut Report) {
        report.count(&self.alike);
        report.count(&self.others);
        let [taken, size, modulation] = self.in_place_of;
        let mut claim = Claim::new(format!(
            "64 in version 7 where versions 5 and 6 are taken: {taken}, have 8: {size}, have 9: {modulation}"
        ));
        claim.sample(taken.min(size).min(modulation) >= least, || {
            format!("not {least} of each")
        });
        report.count(&claim);
        self.counts.report("taken", least, report);
    }
}

/// What a datagram is answered in version 7, by its answer in versions 5 and 6.
fn in_version_7(datagram: &[u8], before: Answer) -> Answer {
    let has_records = layout::PARAMETER_RECORDS.get(datagram) != Some(0);
    if is_transmitter(datagram) && [0, 8, 9].contains(&before.number) && has_records {
        return Answer {
            number: 64,
            size: 0,
        };
    }
    before
}

/// The archive's answers to records that it takes, with what the version decides about changed.
pub struct RecordVersions {
    changed: Claim,
    counts: VersionCounts,
}

impl RecordVersions {
    pub fn new() -> Self {
        RecordVersions {
            changed: Claim::new(
                "records with another version, or other bytes 10, 11, 30 and 31 in their PDU",
            ),
            counts: VersionCounts::default(),
        }
    }

    pub fn record(&mut self, record: &[u8]) {
        if archive::record(record).number != 0 || record.len() == HEAD_SIZE {
            return;
        }
        let (head, pdu) = record.split_at(HEAD_SIZE);
        for (field, value, number) in changes(pdu) {
            let changed = [head, &with(pdu, field, value)].concat();
            let found = archive::record(&changed).number;
            self.changed.sample(found == number, || {
                format!("{found}, not {number}: {}", hex::encode(&changed))
            });
        }
        self.counts.count(pdu);
    }

    pub fn report(&self, least: u64, report: &mut Report) {
        report.count(&self.changed);
        self.counts.report("carried", least, report);
    }
}

/// Changes of a PDU that a record carries, and the record's number with each: byte 10 is kept in
/// version 7 and zero before, byte 11 is zero, and so are bytes 30 and 31 of a Transmitter.
fn changes(pdu: &[u8]) -> Vec<(Field, u64, u32)> {
    let number = |taken| if taken { 0 } else { 22 };
    let of_status = number(layout::has_status(pdu));
    let without_status = number(layout::STATUS.get(pdu) == Some(0));
    let of_records = number(!is_transmitter(pdu));
    vec![
        (layout::STATUS, 0, 0),
        (layout::STATUS, 1, of_status),
        (layout::STATUS, 128, of_status),
        (layout::STATUS, 255, of_status),
        (layout::START_PADDING, 1, 22),
        (layout::START_PADDING, 128, 22),
        (layout::PARAMETER_RECORDS, 1, of_records),
        (layout::PARAMETER_RECORDS, 256, of_records),
        (layout::VERSION, 4, 22),
        (layout::VERSION, 5, without_status),
        (layout::VERSION, 6, without_status),
        (layout::VERSION, 7, 0),
        (layout::VERSION, 8, 22),
    ]
}
