//! Checks of the second program on itself: its reader, its writer and the written form agree.

use super::tail_check::TailChecks;
use super::version_check::VersionChecks;
use super::voice_check::VoiceChecks;
use super::writer_check;
use crate::check::{Claim, Report};
use crate::generate::datagrams::Generator;
use crate::hex;
use crate::numbers::Refusal;
use crate::pdu::layout::{self, Field};
use crate::pdu::read::{read, read_archive};
use crate::pdu::write::write;
use crate::pdu::{self, Header, Modulation, NetworkHeader, Pdu, Signal, Transmitter};

/// What an output holds before a write, and room past the PDU that a write leaves alone.
pub const MARK: u8 = 0xA5;
const SPARE: usize = 8;

/// Claims about the first PDU of every datagram that is taken, and about both readings and all versions
/// of every datagram.
pub struct SelfChecks {
    /// So many bodies had padding inside that was not zero.
    padded_bodies: u64,
    written: Claim,
    same_record: Claim,
    own_form: Claim,
    only_named: Claim,
    short_output: Claim,
    voice: VoiceChecks,
    versions: VersionChecks,
    tails: TailChecks,
}

impl SelfChecks {
    pub fn new() -> Self {
        SelfChecks {
            padded_bodies: 0,
            written: Claim::new("reading, then writing, gives the written form"),
            same_record: Claim::new("the written form reads as the same record"),
            own_form: Claim::new("the written form is its own written form"),
            only_named: Claim::new("a write changes only the bytes of the PDU"),
            short_output: Claim::new("an output too short is refused and left alone"),
            voice: VoiceChecks::new(),
            versions: VersionChecks::new(),
            tails: TailChecks::new(),
        }
    }

    /// Tries the claims on one datagram; one that is refused has no part in most of them.
    pub fn datagram(&mut self, datagram: &[u8]) {
        self.voice.datagram(datagram);
        self.versions.datagram(datagram);
        self.tails.datagram(datagram);
        let Ok(pdu) = read(datagram) else {
            return;
        };
        let describe = || hex::encode(datagram);
        let form = layout::written_form(datagram);
        let size = form.len();
        let mut output = vec![MARK; size + SPARE];
        let written = write(&pdu, &mut output);
        let (start, spare) = output.split_at(size);
        self.written
            .sample(written == Ok(size) && start == form, describe);
        self.only_named.sample(spare == [MARK; SPARE], describe);
        let read_again = read(&form);
        let same = read_again.is_ok_and(|form| has_same_content(&form, &pdu));
        self.same_record.sample(same, describe);
        self.padded_bodies += u64::from(has_padded_body(datagram));
        self.own_form
            .sample(layout::written_form(&form) == form, describe);
        let mut output = vec![MARK; size - 1];
        let refused = write(&pdu, &mut output) == Err(Refusal::Output);
        let untouched = output.iter().all(|&byte| byte == MARK);
        self.short_output.sample(refused && untouched, describe);
    }

    /// Counts these claims and those that need no datagram.
    pub fn finish(self, generator: &mut Generator, report: &mut Report) {
        report.count_own(&self.written);
        report.count_own(&self.same_record);
        report.count_own(&self.own_form);
        report.count_own(&self.only_named);
        report.count_own(&self.short_output);
        let mut padded = Claim::new("padding inside a body occurs, and is not zero");
        padded.sample(self.padded_bodies > 0, || "it does not".to_string());
        report.count_own(&padded);
        let (datagram, transmitter) = known_transmitter();
        check_known(
            "a known Transmitter",
            &datagram,
            &Pdu::Transmitter(transmitter),
            report,
        );
        let (datagram, signal) = known_signal();
        let body = &datagram[KNOWN_BODY_START..KNOWN_BODY_END];
        check_known(
            "a known Signal",
            &datagram,
            &Pdu::Signal(signal, body),
            report,
        );
        check_known_version_7(report);
        for message_type in [1, 2] {
            check_known_timing(message_type, report);
        }
        for message_type in [3, 4, 5] {
            check_known_voice(message_type, report);
        }
        self.voice.finish(report);
        self.versions.finish(report);
        self.tails.finish(report);
        writer_check::run(generator, report);
    }
}

/// The same fields; bodies are the same but for the padding inside them.
fn has_same_content(one: &Pdu, other: &Pdu) -> bool {
    match (one, other) {
        (Pdu::Signal(one, body), Pdu::Signal(other, other_body))
            if [1, 2].contains(&one.network.message_type) =>
        {
            one == other && pdu::timing(body) == pdu::timing(other_body)
        }
        _ => one == other,
    }
}

/// A datagram that is taken, with padding inside its body that is not zero.
fn has_padded_body(datagram: &[u8]) -> bool {
    let start = layout::BODY_START.get(datagram).unwrap_or(0);
    let is_signal = layout::PDU_TYPE.get(datagram) == Some(u64::from(pdu::SIGNAL_TYPE));
    is_signal && layout::is_timing(datagram) && start & layout::TIMING_PADDING != 0
}

/// The datagram reads as this record, and the record writes as the datagram's written form.
fn check_known(what: &str, datagram: &[u8], pdu: &Pdu, report: &mut Report) {
    let mut claim = Claim::new(format!("{what}, field by field"));
    let mut output = vec![MARK; datagram.len()];
    let written = write(pdu, &mut output);
    claim.sample(read(datagram) == Ok(*pdu), || {
        format!("reads as {:?}", read(datagram))
    });
    claim.sample(written == Ok(datagram.len()), || format!("{written:?}"));
    claim.sample(output == layout::written_form(datagram), || {
        hex::encode(&output)
    });
    report.count_own(&claim);
}

/// Each byte is its own number, but for the fields named. So a record shows where the reader
/// found each of its fields.
fn numbered_bytes(size: usize, fields: &[(Field, u64)]) -> Vec<u8> {
    let mut bytes: Vec<u8> = (0..size).map(|at| at as u8).collect();
    for &(field, value) in fields {
        field.put(&mut bytes, value);
    }
    bytes
}

/// The header of numbered bytes, as both known datagrams have it.
const KNOWN_HEADER: Header = Header {
    version: 6,
    exercise: 1,
    timestamp: 0x0405_0607,
    status: 0,
    site: 0x0C0D,
    application: 0x0E0F,
    entity: 0x1011,
    radio: 0x1213,
};

fn known_transmitter() -> (Vec<u8>, Transmitter) {
    let fields = [
        (layout::VERSION, 6),
        (layout::PDU_TYPE, 25),
        (layout::FAMILY, 4),
        (layout::LENGTH, 112),
        (layout::CATEGORY, 21),
        (layout::INPUT_SOURCE, 8),
        (layout::PATTERN_LENGTH, 0),
        (layout::MAJOR, 7),
        (layout::DETAIL, 0),
        (layout::SYSTEM, 8),
        (layout::MODULATION_LENGTH, 8),
        (layout::TSA_LEVEL, 4),
        (layout::PRIMARY_MODE, 1),
        (layout::SECONDARY_MODE, 2),
        (layout::SYNC_STATE, 3),
    ];
    (numbered_bytes(112, &fields), KNOWN_TRANSMITTER)
}

const KNOWN_TRANSMITTER: Transmitter = Transmitter {
    header: KNOWN_HEADER,
    entity_kind: 0x14,
    domain: 0x15,
    country: 0x1617,
    nomenclature_version: 0x19,
    nomenclature: 0x1A1B,
    transmit_state: 0x1C,
    antenna_location: [
        0x2021_2223_2425_2627,
        0x2829_2A2B_2C2D_2E2F,
        0x3031_3233_3435_3637,
    ],
    relative_location: [0x3839_3A3B, 0x3C3D_3E3F, 0x4041_4243],
    pattern_type: 0x4445,
    frequency: 0x4849_4A4B_4C4D_4E4F,
    bandwidth: 0x5051_5253,
    power: 0x5455_5657,
    spread_spectrum: 0x5859,
    crypto_system: 0x6061,
    key_id: 0x6263,
    modulation: Modulation {
        tsa_level: 4,
        primary_mode: 1,
        secondary_mode: 2,
        sync_state: 3,
        sync_id: 0x6C6D_6E6F,
    },
};

/// The body of the known Signal: 6 bytes and one word.
const KNOWN_BODY_START: usize = 52;
const KNOWN_BODY_END: usize = 68;

fn known_signal() -> (Vec<u8>, Signal) {
    let fields = [
        (layout::VERSION, 6),
        (layout::PDU_TYPE, 26),
        (layout::FAMILY, 4),
        (layout::LENGTH, 68),
        (layout::ENCODING, 0x5415),
        (layout::TDL_TYPE, 100),
        (layout::DATA_LENGTH, 8 * 36),
        (layout::NPG, 0x0121),
        (layout::MESSAGE_TYPE, 0),
    ];
    (numbered_bytes(KNOWN_BODY_END, &fields), KNOWN_SIGNAL)
}

/// The known datagrams in version 7: byte 10 is the status, and of a Transmitter bytes 30 and 31 are 0.
fn check_known_version_7(report: &mut Report) {
    const HEADER: Header = Header {
        version: 7,
        status: 0x0A,
        ..KNOWN_HEADER
    };
    let (mut datagram, mut transmitter) = known_transmitter();
    layout::VERSION.put(&mut datagram, 7);
    layout::PARAMETER_RECORDS.put(&mut datagram, 0);
    transmitter.header = HEADER;
    let pdu = Pdu::Transmitter(transmitter);
    check_known("a known Transmitter of version 7", &datagram, &pdu, report);
    let (mut datagram, mut signal) = known_signal();
    layout::VERSION.put(&mut datagram, 7);
    signal.header = HEADER;
    let pdu = Pdu::Signal(signal, &datagram[KNOWN_BODY_START..KNOWN_BODY_END]);
    check_known("a known Signal of version 7", &datagram, &pdu, report);
}

/// A Signal of round-trip timing. Of its body 34 35 36 37 38 39 (hex) the upper 13 bits are padding.
fn check_known_timing(message_type: u8, report: &mut Report) {
    const BODY: std::ops::Range<usize> = 52..58;
    const WRITTEN: [u8; 8] = [0x00, 0x05, 0x36, 0x37, 0x38, 0x39, 0, 0];
    let (mut datagram, mut signal) = known_signal();
    datagram.truncate(60);
    layout::LENGTH.put(&mut datagram, 60);
    layout::DATA_LENGTH.put(&mut datagram, 8 * 26);
    layout::MESSAGE_TYPE.put(&mut datagram, message_type.into());
    signal.network.message_type = message_type;
    let what = format!("a known Signal of type {message_type}");
    let body = &datagram[BODY];
    check_known(&what, &datagram, &Pdu::Signal(signal, body), report);
    let mut claim = Claim::new(format!("{what}, its number and its padding"));
    claim.sample(pdu::timing(body) == 0x0005_3637_3839, || {
        format!("{:x}", pdu::timing(body))
    });
    let form = layout::written_form(&datagram);
    claim.sample(form[BODY.start..] == WRITTEN, || hex::encode(&form));
    report.count_own(&claim);
}

/// The known Signal as voice: archive reading alone takes it.
fn check_known_voice(message_type: u8, report: &mut Report) {
    let (mut datagram, mut signal) = known_signal();
    layout::MESSAGE_TYPE.put(&mut datagram, message_type.into());
    signal.network.message_type = message_type;
    let pdu = Pdu::Signal(signal, &datagram[KNOWN_BODY_START..KNOWN_BODY_END]);
    let mut claim = Claim::new(format!(
        "a known Signal of type {message_type}, by both readings"
    ));
    let (live, archived) = (read(&datagram), read_archive(&datagram));
    claim.sample(live == Err(Refusal::Retired), || format!("{live:?}"));
    claim.sample(archived == Ok(pdu), || format!("{archived:?}"));
    report.count_own(&claim);
}

const KNOWN_SIGNAL: Signal = Signal {
    header: KNOWN_HEADER,
    encoding: 0x1415,
    sample_rate: 0x1819_1A1B,
    samples: 0x1E1F,
    network: NetworkHeader {
        npg: 0x0121,
        net: 0x22,
        tsec: 0x23,
        msec: 0x24,
        message_type: 0,
        // Of the slot ID 0x28292A2B.
        slot: 0x0001_2A2B,
        epoch: 0x28,
        transmit_time: 0x2C2D_2E2F_3031_3233,
    },
};
