//! Places by byte number (document 01, "Bytes 0 to 19, both PDUs", "Transmitter, 112 bytes" and
//! "Signal"; document 02, R-1, R-5 and R-9): the fields that have a rule, the padding, and the written
//! form that comes of it. The reader and the writer do not use them, so that each is a check on the
//! other.

use super::{RTT, RTT_REPLY, SIGNAL_FIXED_SIZE, TRANSMITTER_TYPE};
use std::ops::Range;

/// A field: its first byte, and how many bytes it has.
#[derive(Clone, Copy)]
pub struct Field {
    pub at: usize,
    pub width: usize,
}

const fn field(at: usize, width: usize) -> Field {
    Field { at, width }
}

impl Field {
    fn range(self) -> Range<usize> {
        self.at..self.at + self.width
    }

    /// The number in the field; nothing where the bytes end before it does.
    pub fn get(self, bytes: &[u8]) -> Option<u64> {
        let number = |sum, &byte| sum << 8 | u64::from(byte);
        Some(bytes.get(self.range())?.iter().fold(0, number))
    }

    /// Puts the low bits of a number; the bytes reach to the field's end.
    pub fn put(self, bytes: &mut [u8], value: u64) {
        let value = value.to_be_bytes();
        bytes[self.range()].copy_from_slice(&value[value.len() - self.width..]);
    }
}

pub const VERSION: Field = field(0, 1);
pub const PDU_TYPE: Field = field(2, 1);
pub const FAMILY: Field = field(3, 1);
pub const LENGTH: Field = field(8, 2);
/// In version 7; in versions 5 and 6 it is padding.
pub const STATUS: Field = field(10, 1);
/// Padding in every version.
pub const START_PADDING: Field = field(11, 1);
/// Site, application, entity and radio together.
pub const KEY: Field = field(12, 8);

pub const CATEGORY: Field = field(24, 1);
pub const INPUT_SOURCE: Field = field(29, 1);
/// In version 7; in versions 5 and 6 it is padding.
pub const PARAMETER_RECORDS: Field = field(30, 2);
pub const PATTERN_LENGTH: Field = field(70, 2);
pub const MAJOR: Field = field(90, 2);
pub const DETAIL: Field = field(92, 2);
pub const SYSTEM: Field = field(94, 2);
pub const MODULATION_LENGTH: Field = field(100, 1);
pub const TSA_LEVEL: Field = field(104, 1);
pub const PRIMARY_MODE: Field = field(105, 1);
pub const SECONDARY_MODE: Field = field(106, 1);
pub const SYNC_STATE: Field = field(107, 1);
pub const SYNC_ID: Field = field(108, 4);

pub const ENCODING: Field = field(20, 2);
pub const TDL_TYPE: Field = field(22, 2);
pub const DATA_LENGTH: Field = field(28, 2);
pub const NPG: Field = field(32, 2);
pub const NET: Field = field(34, 1);
pub const TSEC: Field = field(35, 1);
pub const MSEC: Field = field(36, 1);
pub const MESSAGE_TYPE: Field = field(37, 1);
pub const SLOT_ID: Field = field(40, 4);
/// The epoch is the first byte of the slot ID.
pub const EPOCH: Field = field(40, 1);

/// Bits 17 to 23 of the slot ID are padding.
pub const SLOT_ID_PADDING: u64 = 0x00FE_0000;

/// The first two bytes of a body; in one of round-trip timing byte 52 and the upper five bits of
/// byte 53 are padding.
pub const BODY_START: Field = field(52, 2);
pub const TIMING_PADDING: u64 = 0xFFF8;

/// Padding that is whole bytes, but for a fill: of versions 5 and 6, and of version 7.
const TRANSMITTER_PADDING: [&[Field]; 2] = [
    &[field(10, 2), field(30, 2), field(101, 3)],
    &[field(11, 1), field(101, 3)],
];
const SIGNAL_PADDING: [&[Field]; 2] =
    [&[field(10, 2), field(38, 2)], &[field(11, 1), field(38, 2)]];

/// The bytes of a taken datagram's first PDU, by its length field.
pub fn first_pdu(datagram: &[u8]) -> &[u8] {
    let length = LENGTH.get(datagram);
    &datagram[..length.expect("a taken datagram has its fields") as usize]
}

/// The first PDU of a taken datagram as the writer gives it: padding, the fill included, as zero.
pub fn written_form(datagram: &[u8]) -> Vec<u8> {
    let mut form = first_pdu(datagram).to_vec();
    let by_version = usize::from(has_status(datagram));
    if PDU_TYPE.get(datagram) == Some(u64::from(TRANSMITTER_TYPE)) {
        clear(&mut form, TRANSMITTER_PADDING[by_version]);
    } else {
        clear(&mut form, SIGNAL_PADDING[by_version]);
        clear_signal(&mut form);
    }
    form
}

/// The version is the one that has a status.
pub fn has_status(datagram: &[u8]) -> bool {
    VERSION.get(datagram) == Some(7)
}

/// The message type is one of round-trip timing.
pub fn is_timing(signal: &[u8]) -> bool {
    let types = [RTT, RTT_REPLY].map(|message_type| Some(u64::from(message_type)));
    types.contains(&MESSAGE_TYPE.get(signal))
}

fn clear(bytes: &mut [u8], padding: &[Field]) {
    for field in padding {
        field.put(bytes, 0);
    }
}

/// Clears the slot ID's padding, that inside a body, and the fill.
fn clear_signal(bytes: &mut [u8]) {
    let known = "a taken Signal has its fields";
    let slot_id = SLOT_ID.get(bytes).expect(known);
    SLOT_ID.put(bytes, slot_id & !SLOT_ID_PADDING);
    if is_timing(bytes) {
        let body_start = BODY_START.get(bytes).expect(known);
        BODY_START.put(bytes, body_start & !TIMING_PADDING);
    }
    let data_bytes = DATA_LENGTH.get(bytes).expect(known) as usize / 8;
    bytes[SIGNAL_FIXED_SIZE + data_bytes..].fill(0);
}
