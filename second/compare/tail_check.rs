//! Checks of the second program's reader on datagrams that hold more than one PDU (document 02, R-5): the
//! first is read as if it stood alone, and 4 and 8 go by its length field.

use crate::check::{Claim, Report};
use crate::hex;
use crate::pdu::layout;
use crate::pdu::read::{answer, archive_answer, read, read_archive};
use crate::sample::units::{signal, signal_of, transmitter, FINE_MODULATION};

/// Claims about every datagram that is taken.
pub struct TailChecks {
    alone: Claim,
    form: Claim,
    cut: Claim,
    /// So many of them had bytes behind the first PDU.
    longer: u64,
}

impl TailChecks {
    pub fn new() -> Self {
        TailChecks {
            alone: Claim::new(
                "the first PDU of a datagram reads as it does alone, by both readings",
            ),
            form: Claim::new("bytes behind the first PDU do not change its written form"),
            cut: Claim::new("a first PDU that is cut is not taken"),
            longer: 0,
        }
    }

    pub fn datagram(&mut self, datagram: &[u8]) {
        let Ok(pdu) = read_archive(datagram) else {
            return;
        };
        let describe = || hex::encode(datagram);
        let (first, behind) = datagram.split_at(pdu.size());
        let with_zeros = [first, &[0; 4]].concat();
        for other in [first, &with_zeros] {
            let same = read_archive(other) == Ok(pdu) && read(other) == read(datagram);
            self.alone.sample(same, describe);
            let form = layout::written_form(other);
            self.form
                .sample(form == layout::written_form(datagram), describe);
        }
        let cut = &first[..first.len() - 1];
        self.cut
            .sample(read(cut).is_err() && read_archive(cut).is_err(), describe);
        self.longer += u64::from(!behind.is_empty());
    }

    /// Counts these claims and those that need no datagram.
    pub fn finish(self, report: &mut Report) {
        report.count_own(&self.alone);
        report.count_own(&self.form);
        report.count_own(&self.cut);
        let mut occur = Claim::new("bytes behind a first PDU occur");
        occur.sample(self.longer > 0, || "they do not".to_string());
        report.count_own(&occur);
        report.count_own(&known_lengths());
        report.count_own(&known_bundles());
    }
}

/// A length field and a slice's length, and the number; the PDU's own length is 112 or 60.
type Known = (u64, usize, u32);

const TRANSMITTERS: [Known; 16] = [
    (112, 112, 0),
    (112, 113, 0),
    (112, 172, 0),
    (112, 65_648, 0),
    // Above the slice's length.
    (112, 111, 4),
    (113, 112, 4),
    (65_535, 65_534, 4),
    // Below the fixed part, whatever the slice's length.
    (0, 112, 4),
    (103, 112, 4),
    (103, 103, 4),
    // 8 goes by the length field: in a slice of 112 bytes too, and of as many as the field says.
    (104, 112, 8),
    (104, 104, 8),
    (111, 112, 8),
    (113, 113, 8),
    (224, 224, 8),
    (65_535, 65_535, 8),
];

const SIGNALS: [Known; 14] = [
    (60, 60, 0),
    (60, 61, 0),
    (60, 120, 0),
    (60, 65_596, 0),
    (60, 59, 4),
    (61, 60, 4),
    (65_535, 65_534, 4),
    (31, 60, 4),
    (31, 31, 4),
    (32, 60, 8),
    (32, 32, 8),
    (59, 60, 8),
    (64, 64, 8),
    (120, 120, 8),
];

fn known_lengths() -> Claim {
    let mut claim = Claim::new("4 and 8 by the length field, in slices of other lengths");
    let transmitter = transmitter(1, FINE_MODULATION);
    let signal = signal(1, 0, &[]);
    let transmitters = TRANSMITTERS.map(|known| (&transmitter, known));
    let signals = SIGNALS.map(|known| (&signal, known));
    for (pdu, (field, length, number)) in transmitters.into_iter().chain(signals) {
        let mut datagram = pdu.clone();
        datagram.resize(length, 0xA5);
        layout::LENGTH.put(&mut datagram, field);
        let found = [answer(&datagram), archive_answer(&datagram)];
        let size = if number == 0 { field as u32 } else { 0 };
        let holds = found
            .iter()
            .all(|found| (found.number, found.size) == (number, size));
        claim.sample(holds, || {
            format!("length field {field}, {length} bytes: {found:?}")
        });
    }
    claim
}

/// A Transmitter of 112 bytes, a Signal of 60, voice of 56 and a Signal of 68, one behind the other:
/// the answers from each place on.
fn known_bundles() -> Claim {
    let mut claim = Claim::new("four PDUs in one datagram, read one after the other");
    let pdus = [
        transmitter(1, FINE_MODULATION),
        signal(1, 0, &[]),
        voice(),
        signal_of(1, 0, 6, &[1; 13]),
    ];
    let bundle = pdus.concat();
    let known = [
        (0, (0, 112), (0, 112)),
        (112, (0, 60), (0, 60)),
        (172, (50, 0), (0, 56)),
        (228, (0, 68), (0, 68)),
        (296, (1, 0), (1, 0)),
        (1, (2, 0), (2, 0)),
        (285, (1, 0), (1, 0)),
    ];
    for (at, live, archived) in known {
        let found = [answer(&bundle[at..]), archive_answer(&bundle[at..])];
        let found = found.map(|found| (found.number, found.size));
        claim.sample(found == [live, archived], || {
            format!("from byte {at} on: {found:?}")
        });
    }
    claim
}

/// Voice of two bytes, and two of fill.
fn voice() -> Vec<u8> {
    let mut bytes = signal_of(1, 0, 6, &[1; 2]);
    layout::MESSAGE_TYPE.put(&mut bytes, 3);
    bytes
}
