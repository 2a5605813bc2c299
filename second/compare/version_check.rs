//! Checks of the second program's reader and writer on protocol versions 5, 6 and 7 (document 02, R-9):
//! version 7 keeps a status and refuses parameter records, and reads all else as the others do.

use super::self_check::MARK;
use super::versions::{in_version, is_transmitter};
use crate::check::{Claim, Report};
use crate::hex;
use crate::numbers::Refusal;
use crate::pdu::layout::{self, Field};
use crate::pdu::read::{answer, archive_answer, read};
use crate::pdu::write::write;
use crate::pdu::{Header, Modulation, Pdu, Signal, Transmitter};
use crate::sample::units::{signal, transmitter, FINE_MODULATION};

/// Claims about every datagram, in each version.
pub struct VersionChecks {
    alike: Claim,
    with_status: Claim,
    written: Claim,
    not_written: Claim,
    /// So many datagrams that are taken have byte 10, byte 11 and bytes 30 and 31 of a Transmitter not
    /// zero, by their version.
    not_zero: [[u64; 3]; 3],
}

impl VersionChecks {
    pub fn new() -> Self {
        VersionChecks {
            alike: Claim::new("versions 5 and 6 are read alike, their status 0"),
            with_status: Claim::new(
                "version 7 is read as version 6, with byte 10 as its status, but for 64",
            ),
            written: Claim::new("bytes 10, 11, 30 and 31 as each version writes them"),
            not_written: Claim::new("a status other than 0 is not written in versions 5 and 6"),
            not_zero: [[0; 3]; 3],
        }
    }

    pub fn datagram(&mut self, datagram: &[u8]) {
        if datagram.is_empty() {
            return;
        }
        let describe = || hex::encode(datagram);
        let [five, six, seven] = [5, 6, 7].map(|version| in_version(datagram, version));
        let before = read(&six);
        let alike = read(&five) == before.map(|pdu| with(pdu, 5, 0));
        self.alike.sample(alike, describe);
        let with_status = read(&seven) == read_in_version_7(datagram, before);
        self.with_status.sample(with_status, describe);
        for of_version in [&five, &six, &seven] {
            self.written.sample(writes_by_version(of_version), describe);
        }
        if let Ok(pdu) = read(&seven) {
            self.not_written.sample(keeps_to_version_7(&pdu), describe);
        }
        if read(datagram).is_ok() {
            self.count_not_zero(datagram);
        }
    }

    fn count_not_zero(&mut self, datagram: &[u8]) {
        let version = usize::from(datagram[0] - 5);
        let has_records = is_transmitter(datagram) && datagram[30..32] != [0, 0];
        let not_zero = [datagram[10] != 0, datagram[11] != 0, has_records];
        for (at, is_not_zero) in not_zero.into_iter().enumerate() {
            self.not_zero[at][version] += u64::from(is_not_zero);
        }
    }

    /// Counts these claims and those that need no datagram.
    pub fn finish(self, report: &mut Report) {
        report.count_own(&self.alike);
        report.count_own(&self.with_status);
        report.count_own(&self.written);
        report.count_own(&self.not_written);
        let mut occur = Claim::new("bytes 10, 11, 30 and 31 that are not zero occur by version");
        let [byte_10, byte_11, [five, six, seven]] = self.not_zero;
        let least = byte_10.into_iter().chain(byte_11).chain([five, six]).min();
        occur.sample(least > Some(0) && seven == 0, || {
            format!("{:?}", self.not_zero)
        });
        report.count_own(&occur);
        report.count_own(&known_readings());
        report.count_own(&known_writings());
    }
}

/// The PDU with another version and status.
fn with(pdu: Pdu, version: u8, status: u8) -> Pdu {
    let header = Header {
        version,
        status,
        ..*pdu.header()
    };
    match pdu {
        Pdu::Transmitter(record) => Pdu::Transmitter(Transmitter { header, ..record }),
        Pdu::Signal(record, body) => Pdu::Signal(Signal { header, ..record }, body),
    }
}

/// What is read in version 7, by what is read in version 6.
fn read_in_version_7<'a>(
    datagram: &[u8],
    before: Result<Pdu<'a>, Refusal>,
) -> Result<Pdu<'a>, Refusal> {
    let is_after_64 = matches!(before, Ok(_) | Err(Refusal::PduSize | Refusal::Modulation));
    if is_transmitter(datagram) && is_after_64 && datagram[30..32] != [0, 0] {
        return Err(Refusal::ParameterRecords);
    }
    before.map(|pdu| with(pdu, 7, datagram[10]))
}

/// Where the datagram is taken: what is written of it at the places that R-9 names.
fn writes_by_version(datagram: &[u8]) -> bool {
    let Ok(pdu) = read(datagram) else {
        return true;
    };
    let mut output = vec![MARK; pdu.size()];
    let status = if datagram[0] == 7 { datagram[10] } else { 0 };
    write(&pdu, &mut output).is_ok()
        && output[0] == datagram[0]
        && output[10..12] == [status, 0]
        && (!is_transmitter(datagram) || output[30..32] == [0, 0])
}

/// With its status a PDU of version 7 is written in versions 5 and 6 just where the status is 0, and
/// otherwise leaves the output alone.
fn keeps_to_version_7(pdu: &Pdu) -> bool {
    let status = pdu.header().status;
    [5, 6].into_iter().all(|version| {
        let mut output = vec![MARK; pdu.size()];
        let written = write(&with(*pdu, version, status), &mut output);
        let untouched = output.iter().all(|&byte| byte == MARK);
        match status {
            0 => written.is_ok(),
            _ => written == Err(Refusal::Status) && untouched,
        }
    })
}

/// Changes of a Transmitter, and the number of both readings in versions 4 to 8.
type Known = (&'static [(Field, u64)], [u32; 5]);

const RECORDS: (Field, u64) = (layout::PARAMETER_RECORDS, 1);

const KNOWN: [Known; 13] = [
    (&[], [2, 0, 0, 0, 2]),
    (&[(layout::STATUS, 1)], [2, 0, 0, 0, 2]),
    (&[(layout::STATUS, 255)], [2, 0, 0, 0, 2]),
    (&[(layout::START_PADDING, 255)], [2, 0, 0, 0, 2]),
    (&[RECORDS], [2, 0, 0, 64, 2]),
    (&[(layout::PARAMETER_RECORDS, 256)], [2, 0, 0, 64, 2]),
    (&[(layout::PARAMETER_RECORDS, 65_535)], [2, 0, 0, 64, 2]),
    // 64 is given after 5, 6 and 7.
    (&[RECORDS, (layout::CATEGORY, 22)], [2, 5, 5, 5, 2]),
    (&[RECORDS, (layout::MODULATION_LENGTH, 9)], [2, 6, 6, 6, 2]),
    (&[RECORDS, (layout::PATTERN_LENGTH, 1)], [2, 7, 7, 7, 2]),
    // And before 9; without records 9 is given.
    (&[RECORDS, (layout::TSA_LEVEL, 5)], [2, 9, 9, 64, 2]),
    (&[(layout::TSA_LEVEL, 5)], [2, 9, 9, 9, 2]),
    (&[RECORDS, (layout::FAMILY, 5)], [2, 3, 3, 3, 2]),
];

fn known_readings() -> Claim {
    let mut claim = Claim::new("versions 4 to 8 by both readings, and 64 in its order");
    for (changes, numbers) in KNOWN {
        let mut datagram = transmitter(1, FINE_MODULATION);
        for (field, value) in changes {
            field.put(&mut datagram, *value);
        }
        sample_versions(&mut claim, &datagram, numbers);
    }
    // Before 8, too: 116 bytes.
    let mut longer = transmitter(1, FINE_MODULATION);
    longer.resize(116, 0);
    layout::LENGTH.put(&mut longer, 116);
    sample_versions(&mut claim, &longer, [2, 8, 8, 8, 2]);
    layout::PARAMETER_RECORDS.put(&mut longer, 1);
    sample_versions(&mut claim, &longer, [2, 8, 8, 64, 2]);
    // Bytes 30 and 31 of a Signal are its samples.
    let mut signal = signal(1, 0, &[]);
    sample_versions(&mut claim, &signal, [2, 0, 0, 0, 2]);
    signal[10..12].fill(255);
    signal[30..32].fill(255);
    sample_versions(&mut claim, &signal, [2, 0, 0, 0, 2]);
    claim
}

/// The numbers of the bytes in versions 4 to 8.
fn sample_versions(claim: &mut Claim, datagram: &[u8], numbers: [u32; 5]) {
    for (version, number) in (4..=8).zip(numbers) {
        let datagram = in_version(datagram, version);
        let found = [answer(&datagram), archive_answer(&datagram)].map(|answer| answer.number);
        claim.sample(found == [number; 2], || {
            format!("{found:?}, not {number}: {}", hex::encode(&datagram))
        });
    }
}

/// A version and a status; the number of writing them, alone and where 9 or 10 is broken too.
const WRITTEN: [(u8, u8, u32, [u32; 2]); 12] = [
    (4, 0, 2, [2, 2]),
    (4, 1, 2, [2, 2]),
    (5, 0, 0, [9, 10]),
    (5, 1, 52, [52, 52]),
    (5, 255, 52, [52, 52]),
    (6, 0, 0, [9, 10]),
    (6, 1, 52, [52, 52]),
    (6, 255, 52, [52, 52]),
    (7, 0, 0, [9, 10]),
    (7, 1, 0, [9, 10]),
    (7, 255, 0, [9, 10]),
    (8, 1, 2, [2, 2]),
];

fn known_writings() -> Claim {
    let mut claim = Claim::new("versions 4 to 8 in writing, and 52 in its order");
    for (version, status, number, [modulation, encoding]) in WRITTEN {
        let header = Header {
            version,
            status,
            ..Header::default()
        };
        let found = [
            write_transmitter(header, 0),
            write_signal(header, 0),
            write_transmitter(header, 5),
            write_signal(header, 16_384),
        ];
        claim.sample(found == [number, number, modulation, encoding], || {
            format!("version {version}, status {status}: {found:?}")
        });
    }
    claim
}

/// What the writer answers to a Transmitter of this level: 0 where it writes.
fn write_transmitter(header: Header, tsa_level: u8) -> u32 {
    number_of_writing(&Pdu::Transmitter(Transmitter {
        header,
        modulation: Modulation {
            tsa_level,
            ..FINE_MODULATION
        },
        ..Transmitter::default()
    }))
}

/// The same of a Signal with this encoding.
fn write_signal(header: Header, encoding: u16) -> u32 {
    let signal = Signal {
        header,
        encoding,
        ..Signal::default()
    };
    number_of_writing(&Pdu::Signal(signal, &[0; 6]))
}

fn number_of_writing(pdu: &Pdu) -> u32 {
    write(pdu, &mut [0; 112]).map_or_else(Refusal::number, |_| 0)
}
