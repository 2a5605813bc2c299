//! Link 16 PDUs as document 01 has them, with round-trip timing by document 02, R-1, voice retired by
//! R-4, several PDUs in one datagram by R-5, and version 7 by R-9: their records, the numbers of its
//! rules, and the rules that reading and writing share (inlined by force as the reader is, see `read`).

pub mod layout;
pub mod read;
pub mod write;

use crate::bytes::Source;
use crate::numbers::{require, Refusal};
use std::ops::RangeInclusive;

// "Bytes 0 to 19, both PDUs", and document 02, R-9.
pub const VERSIONS: [u8; 3] = [5, 6, 7];
pub const LAST_VERSION_WITHOUT_STATUS: u8 = 6;
pub const TRANSMITTER_TYPE: u8 = 25;
pub const SIGNAL_TYPE: u8 = 26;
pub const FAMILY: u8 = 4;
/// What refusal 1 measures: the bytes as far as the length field, the status and the padding after it.
pub const START_SIZE: usize = 12;
pub const START_PADDING: usize = 1;

// "Transmitter, 112 bytes".
pub const TRANSMITTER_FIXED_SIZE: usize = 104;
pub const TRANSMITTER_SIZE: usize = 112;
pub const MODULATION_PADDING: usize = 3;
pub const LAST_TSA_LEVEL: u8 = 4;
pub const LAST_LEVEL_WITHOUT_ID: u8 = 2;
pub const PRIMARY_MODES: [u8; 2] = [1, 2];
pub const LAST_SECONDARY_MODE: u8 = 3;
pub const COARSE: u8 = 2;
pub const FINE: u8 = 3;

// "Signal".
pub const SIGNAL_FIXED_SIZE: usize = 32;
pub const NETWORK_HEADER_SIZE: usize = 20;
pub const ENCODING_CLASS: u16 = 1;
pub const ENCODING_KEPT_BITS: u32 = 14;
pub const LAST_ENCODING: u16 = (1 << ENCODING_KEPT_BITS) - 1;
pub const TDL_TYPE: u16 = 100;
pub const LAST_NPG: u16 = 511;
pub const LAST_NET: u8 = 127;
pub const LAST_SECURITY_SETTING: u8 = 127;
pub const NO_SECURITY_SETTING: u8 = 255;
pub const LAST_MESSAGE_TYPE: u8 = 7;
pub const MESSAGE_TYPE_PADDING: usize = 2;
pub const SLOT_BITS: u32 = 17;
pub const EPOCH_SHIFT: u32 = 24;
pub const LAST_SLOT: u32 = 98_303;
pub const LAST_EPOCH: u8 = 112;
pub const LAST_SLOT_OF_LAST_EPOCH: u32 = 49_151;
pub const WORDS_HEADER_SIZE: usize = 6;
pub const WORD_SIZE: usize = 10;
pub const WORDS_MAX: usize = 12;
pub const BODY_MAX: usize = 256;
const FILL_MULTIPLE: usize = 4;

// Document 02, R-1: the message types of round-trip timing. Their body is one number of 48 bits, of
// which bits 0 to 34 are the field and bits 35 to 47 padding.
pub const RTT: u8 = 1;
pub const RTT_REPLY: u8 = 2;
pub const TIMING_SIZE: usize = 6;
const TIMING_BITS: u32 = 35;

// Document 02, R-4: the message types of voice, which archive reading alone still takes.
pub const VOICE: RangeInclusive<u8> = 3..=5;

/// Bytes 0 to 19 without type, family and length.
#[derive(Clone, Copy, Debug, Default, PartialEq, Eq)]
pub struct Header {
    pub version: u8,
    pub exercise: u8,
    pub timestamp: u32,
    /// Byte 10 in version 7, and 0 in versions 5 and 6.
    pub status: u8,
    pub site: u16,
    pub application: u16,
    pub entity: u16,
    pub radio: u16,
}

impl Header {
    /// The unit's key: site, application, entity and radio as one number.
    pub fn key(&self) -> u64 {
        [self.site, self.application, self.entity, self.radio]
            .iter()
            .fold(0, |key, &part| key << 16 | u64::from(part))
    }
}

/// A Transmitter's fields; floats are kept as their bits.
#[derive(Clone, Copy, Debug, Default, PartialEq, Eq)]
pub struct Transmitter {
    pub header: Header,
    pub entity_kind: u8,
    pub domain: u8,
    pub country: u16,
    pub nomenclature_version: u8,
    pub nomenclature: u16,
    pub transmit_state: u8,
    pub antenna_location: [u64; 3],
    pub relative_location: [u32; 3],
    pub pattern_type: u16,
    pub frequency: u64,
    pub bandwidth: u32,
    pub power: u32,
    pub spread_spectrum: u16,
    pub crypto_system: u16,
    pub key_id: u16,
    pub modulation: Modulation,
}

/// Bytes 104 to 111 of a Transmitter, its modulation parameters.
#[derive(Clone, Copy, Debug, Default, PartialEq, Eq)]
pub struct Modulation {
    pub tsa_level: u8,
    pub primary_mode: u8,
    pub secondary_mode: u8,
    pub sync_state: u8,
    pub sync_id: u32,
}

/// The fields of a Transmitter that may have one value only.
#[derive(Clone, Copy, Default)]
pub struct Designation {
    pub category: u8,
    pub input_source: u8,
    /// How many variable parameter records there are; before version 7 padding.
    pub parameter_records: u16,
    pub pattern_length: u16,
    pub major: u16,
    pub detail: u16,
    pub system: u16,
    pub modulation_length: u8,
}

pub const LINK_16: Designation = Designation {
    category: 21,
    input_source: 8,
    parameter_records: 0,
    pattern_length: 0,
    major: 7,
    detail: 0,
    system: 8,
    modulation_length: 8,
};

/// A Signal's header fields; the body stays in the caller's bytes.
#[derive(Clone, Copy, Debug, Default, PartialEq, Eq)]
pub struct Signal {
    pub header: Header,
    /// The low 14 bits of the encoding.
    pub encoding: u16,
    pub sample_rate: u32,
    pub samples: u16,
    pub network: NetworkHeader,
}

/// Bytes 32 to 51 of a Signal, its network header.
#[derive(Clone, Copy, Debug, Default, PartialEq, Eq)]
pub struct NetworkHeader {
    pub npg: u16,
    pub net: u8,
    pub tsec: u8,
    pub msec: u8,
    pub message_type: u8,
    pub slot: u32,
    pub epoch: u8,
    pub transmit_time: u64,
}

#[derive(Clone, Copy, Debug, PartialEq, Eq)]
pub enum Pdu<'a> {
    Transmitter(Transmitter),
    Signal(Signal, &'a [u8]),
}

impl Pdu<'_> {
    /// The size of the whole PDU, a Signal's fill included.
    pub fn size(&self) -> usize {
        match self {
            Pdu::Transmitter(_) => TRANSMITTER_SIZE,
            Pdu::Signal(_, body) => signal_size(NETWORK_HEADER_SIZE + body.len()),
        }
    }

    pub fn header(&self) -> &Header {
        match self {
            Pdu::Transmitter(transmitter) => &transmitter.header,
            Pdu::Signal(signal, _) => &signal.header,
        }
    }
}

/// The size of a body of message type 0 with this many words.
pub const fn words_size(words: usize) -> usize {
    WORDS_HEADER_SIZE + WORD_SIZE * words
}

/// The field in a body of round-trip timing, which has its right size.
pub fn timing(body: &[u8]) -> u64 {
    let mut source = Source::new(body);
    let number = u64::from(source.u16()) << 32 | u64::from(source.u32());
    number & ((1 << TIMING_BITS) - 1)
}

/// The size of a Signal with this many data bytes.
pub fn signal_size(data_bytes: usize) -> usize {
    (SIGNAL_FIXED_SIZE + data_bytes).next_multiple_of(FILL_MULTIPLE)
}

/// The encoding whose low bits are kept as these.
pub fn encoding(kept: u16) -> u16 {
    ENCODING_CLASS << ENCODING_KEPT_BITS | kept
}

/// A slot ID with its padding zero.
pub fn slot_id(epoch: u8, slot: u32) -> u32 {
    u32::from(epoch) << EPOCH_SHIFT | slot
}

/// Refusal 2.
#[inline(always)]
pub fn check_version(version: u8) -> Result<(), Refusal> {
    require(VERSIONS.contains(&version), Refusal::Version)
}

/// Whether byte 10 is the PDU status, and bytes 30 and 31 of a Transmitter count variable parameter
/// records; in the other versions they are padding (document 02, R-9).
#[inline(always)]
pub fn has_status(version: u8) -> bool {
    version > LAST_VERSION_WITHOUT_STATUS
}

/// Refusal 52 (document 02, R-9).
pub fn check_status(header: &Header) -> Result<(), Refusal> {
    let holds = has_status(header.version) || header.status == 0;
    require(holds, Refusal::Status)
}

/// Refusal 9.
#[inline(always)]
pub fn check_modulation(modulation: &Modulation) -> Result<(), Refusal> {
    let may_have_id = modulation.tsa_level > LAST_LEVEL_WITHOUT_ID;
    let holds = modulation.tsa_level <= LAST_TSA_LEVEL
        && PRIMARY_MODES.contains(&modulation.primary_mode)
        && modulation.secondary_mode <= LAST_SECONDARY_MODE
        && [COARSE, FINE].contains(&modulation.sync_state)
        && (may_have_id || modulation.sync_id == 0);
    require(holds, Refusal::Modulation)
}

/// Refusals 131 to 138, in place of 13 (document 02, R-3).
#[inline(always)]
pub fn check_network_header(network: &NetworkHeader) -> Result<(), Refusal> {
    let security = |setting| setting <= LAST_SECURITY_SETTING || setting == NO_SECURITY_SETTING;
    let is_late = network.epoch == LAST_EPOCH && network.slot > LAST_SLOT_OF_LAST_EPOCH;
    require(network.npg <= LAST_NPG, Refusal::Npg)?;
    require(network.net <= LAST_NET, Refusal::Net)?;
    require(security(network.tsec), Refusal::Tsec)?;
    require(security(network.msec), Refusal::Msec)?;
    require(
        network.message_type <= LAST_MESSAGE_TYPE,
        Refusal::MessageType,
    )?;
    require(network.slot <= LAST_SLOT, Refusal::Slot)?;
    require(network.epoch <= LAST_EPOCH, Refusal::Epoch)?;
    require(!is_late, Refusal::LateSlot)
}

/// Refusal 50 (document 02, R-4).
#[inline(always)]
pub fn check_retired(message_type: u8) -> Result<(), Refusal> {
    require(!VOICE.contains(&message_type), Refusal::Retired)
}

/// Refusals 14 and 15.
#[inline(always)]
pub fn check_body(message_type: u8, size: usize) -> Result<(), Refusal> {
    match message_type {
        0 => check_words(size),
        RTT | RTT_REPLY => require(size == TIMING_SIZE, Refusal::BodySize),
        _ => require(size <= BODY_MAX, Refusal::BodyLimit),
    }
}

#[inline(always)]
fn check_words(size: usize) -> Result<(), Refusal> {
    let words = size
        .checked_sub(WORDS_HEADER_SIZE)
        .filter(|words| words % WORD_SIZE == 0)
        .ok_or(Refusal::BodySize)?;
    require(words / WORD_SIZE <= WORDS_MAX, Refusal::BodyLimit)
}
