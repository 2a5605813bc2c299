//! The reader, from document 01, with document 02, R-1, R-4, R-5 and R-9. Fields are taken in the order
//! of their bytes, refusals are given in the order of "The numbers".
//!
//! Its functions are inlined by force: where the answer alone is asked for, no record is built,
//! and the bench holds the archive against that.

use super::*;
use crate::bytes::Source;

/// What a host learns: 0 and the size of a datagram's first PDU, or of a record; or the refusal's number
/// and 0.
#[derive(Clone, Copy, Debug, PartialEq, Eq)]
pub struct Answer {
    pub number: u32,
    pub size: u32,
}

impl Answer {
    #[inline(always)]
    pub fn of(size: Result<usize, Refusal>) -> Self {
        match size {
            Ok(size) => Answer {
                number: 0,
                size: size as u32,
            },
            Err(refusal) => Answer {
                number: refusal.number(),
                size: 0,
            },
        }
    }
}

#[inline(always)]
pub fn answer(datagram: &[u8]) -> Answer {
    Answer::of(read(datagram).map(|pdu| pdu.size()))
}

/// The same of archive reading.
pub fn archive_answer(datagram: &[u8]) -> Answer {
    Answer::of(read_archive(datagram).map(|pdu| pdu.size()))
}

/// Archive reading has every rule of live reading but refusal 50 (document 02, R-4).
#[derive(Clone, Copy, PartialEq, Eq)]
enum Rules {
    Live,
    Archive,
}

/// Bytes 0 to 10; the family is tested and not kept.
struct Start {
    version: u8,
    exercise: u8,
    pdu_type: u8,
    timestamp: u32,
    length: u16,
    status: u8,
}

/// Reads the first PDU of a datagram, which may hold more: the PDU's size tells how many bytes it used,
/// and those behind them are not looked at (document 02, R-5).
#[inline(always)]
pub fn read(datagram: &[u8]) -> Result<Pdu<'_>, Refusal> {
    read_by(Rules::Live, datagram)
}

/// The same of a datagram of an old capture, voice included.
pub fn read_archive(datagram: &[u8]) -> Result<Pdu<'_>, Refusal> {
    read_by(Rules::Archive, datagram)
}

#[inline(always)]
fn read_by(rules: Rules, datagram: &[u8]) -> Result<Pdu<'_>, Refusal> {
    let start = read_start(datagram)?;
    match start.pdu_type {
        TRANSMITTER_TYPE => read_transmitter(&start, datagram).map(Pdu::Transmitter),
        SIGNAL_TYPE => read_signal(rules, &start, datagram),
        _ => Err(Refusal::TypeOrFamily),
    }
}

/// Refusals 1, 2 and 3; of 3 the family alone, `read_by` tells the types apart.
#[inline(always)]
fn read_start(datagram: &[u8]) -> Result<Start, Refusal> {
    let bytes: &[u8; START_SIZE] = datagram.first_chunk().ok_or(Refusal::Short)?;
    let mut source = Source::new(bytes);
    let version = source.u8();
    check_version(version)?;
    let exercise = source.u8();
    let pdu_type = source.u8();
    require(source.u8() == FAMILY, Refusal::TypeOrFamily)?;
    Ok(Start {
        version,
        exercise,
        pdu_type,
        timestamp: source.u32(),
        length: source.u16(),
        status: if has_status(version) { source.u8() } else { 0 },
    })
}

/// Refusal 4: the PDU is as long as its length field says, lies in the datagram and has its fixed part;
/// that part, and the rest of the PDU.
#[inline(always)]
fn fixed_part<const N: usize>(length: u16, datagram: &[u8]) -> Result<(&[u8; N], &[u8]), Refusal> {
    let pdu = datagram.get(..usize::from(length)).ok_or(Refusal::Length)?;
    pdu.split_first_chunk().ok_or(Refusal::Length)
}

/// What refusal 8 measures: the length field, whatever stands behind the PDU.
#[inline(always)]
fn size(start: &Start) -> usize {
    start.length.into()
}

/// The header; the source stands at its beginning, and after it at the PDU's own fields.
#[inline(always)]
fn read_header(start: &Start, source: &mut Source) -> Header {
    source.skip(START_SIZE);
    Header {
        version: start.version,
        exercise: start.exercise,
        timestamp: start.timestamp,
        status: start.status,
        site: source.u16(),
        application: source.u16(),
        entity: source.u16(),
        radio: source.u16(),
    }
}

/// Refusals 4, 5, 6, 7, 64, 8 and 9.
#[inline(always)]
fn read_transmitter(start: &Start, datagram: &[u8]) -> Result<Transmitter, Refusal> {
    let (fixed, parameters) = fixed_part::<TRANSMITTER_FIXED_SIZE>(start.length, datagram)?;
    let (mut transmitter, designation) = read_fixed_part(start, fixed);
    check_designation(start.version, &designation)?;
    require(size(start) == TRANSMITTER_SIZE, Refusal::PduSize)?;
    transmitter.modulation = read_modulation(parameters);
    check_modulation(&transmitter.modulation)?;
    Ok(transmitter)
}

/// Bytes 0 to 103, in their order.
#[inline(always)]
fn read_fixed_part(
    start: &Start,
    fixed: &[u8; TRANSMITTER_FIXED_SIZE],
) -> (Transmitter, Designation) {
    let mut source = Source::new(fixed);
    let mut transmitter = Transmitter::default();
    let mut designation = Designation::default();
    transmitter.header = read_header(start, &mut source);
    transmitter.entity_kind = source.u8();
    transmitter.domain = source.u8();
    transmitter.country = source.u16();
    designation.category = source.u8();
    transmitter.nomenclature_version = source.u8();
    transmitter.nomenclature = source.u16();
    transmitter.transmit_state = source.u8();
    designation.input_source = source.u8();
    designation.parameter_records = source.u16();
    transmitter.antenna_location = [source.u64(), source.u64(), source.u64()];
    transmitter.relative_location = [source.u32(), source.u32(), source.u32()];
    transmitter.pattern_type = source.u16();
    designation.pattern_length = source.u16();
    transmitter.frequency = source.u64();
    transmitter.bandwidth = source.u32();
    transmitter.power = source.u32();
    transmitter.spread_spectrum = source.u16();
    designation.major = source.u16();
    designation.detail = source.u16();
    designation.system = source.u16();
    transmitter.crypto_system = source.u16();
    transmitter.key_id = source.u16();
    designation.modulation_length = source.u8();
    (transmitter, designation)
}

/// Refusals 5, 6, 7 and 64.
#[inline(always)]
fn check_designation(version: u8, read: &Designation) -> Result<(), Refusal> {
    let radio = read.category == LINK_16.category
        && read.input_source == LINK_16.input_source
        && read.major == LINK_16.major
        && read.detail == LINK_16.detail
        && read.system == LINK_16.system;
    require(radio, Refusal::Radio)?;
    require(
        read.modulation_length == LINK_16.modulation_length,
        Refusal::ModulationLength,
    )?;
    require(
        read.pattern_length == LINK_16.pattern_length,
        Refusal::PatternLength,
    )?;
    let no_records = read.parameter_records == LINK_16.parameter_records;
    require(
        no_records || !has_status(version),
        Refusal::ParameterRecords,
    )
}

#[inline(always)]
fn read_modulation(bytes: &[u8]) -> Modulation {
    let mut source = Source::new(bytes);
    Modulation {
        tsa_level: source.u8(),
        primary_mode: source.u8(),
        secondary_mode: source.u8(),
        sync_state: source.u8(),
        sync_id: source.u32(),
    }
}

/// Refusals 4, 10, 11, 12, 8, 131 to 138, 50 (not in archive reading), 14 and 15.
#[inline(always)]
fn read_signal<'a>(rules: Rules, start: &Start, datagram: &'a [u8]) -> Result<Pdu<'a>, Refusal> {
    let (fixed, rest) = fixed_part::<SIGNAL_FIXED_SIZE>(start.length, datagram)?;
    let mut source = Source::new(fixed);
    let header = read_header(start, &mut source);
    let encoding = source.u16();
    let class = encoding >> ENCODING_KEPT_BITS;
    require(class == ENCODING_CLASS, Refusal::Encoding)?;
    require(source.u16() == TDL_TYPE, Refusal::TdlType)?;
    let sample_rate = source.u32();
    let data_bytes = data_bytes(source.u16())?;
    require(size(start) == signal_size(data_bytes), Refusal::PduSize)?;
    let (network, body) = rest[..data_bytes].split_at(NETWORK_HEADER_SIZE);
    let signal = Signal {
        header,
        encoding: encoding & LAST_ENCODING,
        sample_rate,
        samples: source.u16(),
        network: read_network_header(network),
    };
    check_network_header(&signal.network)?;
    if rules == Rules::Live {
        check_retired(signal.network.message_type)?;
    }
    check_body(signal.network.message_type, body.len())?;
    Ok(Pdu::Signal(signal, body))
}

/// Refusal 12: the data are whole bytes, and enough for the network header.
#[inline(always)]
fn data_bytes(data_length: u16) -> Result<usize, Refusal> {
    let bits = usize::from(data_length);
    let holds = bits % 8 == 0 && bits >= 8 * NETWORK_HEADER_SIZE;
    require(holds, Refusal::DataLength)?;
    Ok(bits / 8)
}

#[inline(always)]
fn read_network_header(bytes: &[u8]) -> NetworkHeader {
    let mut source = Source::new(bytes);
    let mut network = NetworkHeader {
        npg: source.u16(),
        net: source.u8(),
        tsec: source.u8(),
        msec: source.u8(),
        message_type: source.u8(),
        ..NetworkHeader::default()
    };
    let slot_id = source.skip(MESSAGE_TYPE_PADDING).u32();
    network.slot = slot_id & ((1 << SLOT_BITS) - 1);
    network.epoch = (slot_id >> EPOCH_SHIFT) as u8;
    network.transmit_time = source.u64();
    network
}
