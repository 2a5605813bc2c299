//! Datagrams for the comparison: valid ones, voice, damaged ones and noise, alone or with bytes behind
//! them, chosen so that every answer of the reader occurs often, and most often close to where a rule
//! changes its mind.

use super::tails;
use crate::pdu;
use crate::pdu::layout::{self, Field};
use crate::random::Random;

/// A field with what its rule allows: ranges, both ends included.
struct Ruled {
    field: Field,
    allowed: Vec<(u64, u64)>,
}

fn ruled<T: Into<u64> + Copy>(field: Field, allowed: &[(T, T)]) -> Ruled {
    let wide = |&(first, last): &(T, T)| (first.into(), last.into());
    Ruled {
        field,
        allowed: allowed.iter().map(wide).collect(),
    }
}

fn single<T: Into<u64> + Copy>(field: Field, value: T) -> Ruled {
    ruled(field, &[(value, value)])
}

/// The sizes that a rule names.
const SIZES: [usize; 5] = [
    pdu::START_SIZE,
    pdu::SIGNAL_FIXED_SIZE,
    pdu::SIGNAL_FIXED_SIZE + pdu::NETWORK_HEADER_SIZE,
    pdu::TRANSMITTER_FIXED_SIZE,
    pdu::TRANSMITTER_SIZE,
];

/// Type and length depend on the kind of PDU; their ranges serve to damage them.
fn start_fields() -> Vec<Ruled> {
    let [first, last_without_status, last] = pdu::VERSIONS;
    vec![
        // Version 7 as often as the others together.
        ruled(
            layout::VERSION,
            &[(first, last_without_status), (last, last)],
        ),
        ruled(
            layout::PDU_TYPE,
            &[(pdu::TRANSMITTER_TYPE, pdu::SIGNAL_TYPE)],
        ),
        single(layout::FAMILY, pdu::FAMILY),
        ruled(
            layout::LENGTH,
            &SIZES.map(|size| (size as u32, size as u32)),
        ),
    ]
}

fn transmitter_fields() -> Vec<Ruled> {
    let link_16 = pdu::LINK_16;
    let [first_mode, last_mode] = pdu::PRIMARY_MODES;
    vec![
        single(layout::CATEGORY, link_16.category),
        single(layout::INPUT_SOURCE, link_16.input_source),
        single(layout::PARAMETER_RECORDS, link_16.parameter_records),
        single(layout::PATTERN_LENGTH, link_16.pattern_length),
        single(layout::MAJOR, link_16.major),
        single(layout::DETAIL, link_16.detail),
        single(layout::SYSTEM, link_16.system),
        single(layout::MODULATION_LENGTH, link_16.modulation_length),
        ruled(
            layout::TSA_LEVEL,
            &[
                (0, pdu::LAST_LEVEL_WITHOUT_ID),
                (pdu::LAST_LEVEL_WITHOUT_ID + 1, pdu::LAST_TSA_LEVEL),
            ],
        ),
        ruled(layout::PRIMARY_MODE, &[(first_mode, last_mode)]),
        ruled(layout::SECONDARY_MODE, &[(0, pdu::LAST_SECONDARY_MODE)]),
        ruled(layout::SYNC_STATE, &[(pdu::COARSE, pdu::FINE)]),
        single(layout::SYNC_ID, 0u32),
    ]
}

/// Message type and data length depend on the body; their ranges serve to damage them.
fn signal_fields() -> Vec<Ruled> {
    let security = [
        (0, pdu::LAST_SECURITY_SETTING),
        (pdu::NO_SECURITY_SETTING, pdu::NO_SECURITY_SETTING),
    ];
    let epoch = |epoch, last| (pdu::slot_id(epoch, 0), pdu::slot_id(epoch, last));
    vec![
        ruled(
            layout::ENCODING,
            &[(pdu::encoding(0), pdu::encoding(pdu::LAST_ENCODING))],
        ),
        single(layout::TDL_TYPE, pdu::TDL_TYPE),
        single(layout::DATA_LENGTH, 8 * pdu::NETWORK_HEADER_SIZE as u32),
        ruled(layout::NPG, &[(0, pdu::LAST_NPG)]),
        ruled(layout::NET, &[(0, pdu::LAST_NET)]),
        ruled(layout::TSEC, &security),
        ruled(layout::MSEC, &security),
        ruled(
            layout::MESSAGE_TYPE,
            &[
                (0, pdu::VOICE.start() - 1),
                (pdu::VOICE.end() + 1, pdu::LAST_MESSAGE_TYPE),
            ],
        ),
        ruled(layout::EPOCH, &[(0, pdu::LAST_EPOCH)]),
        // The last slot of all by itself, so that damage often makes it one that is too late.
        single(
            layout::SLOT_ID,
            pdu::slot_id(pdu::LAST_EPOCH, pdu::LAST_SLOT_OF_LAST_EPOCH),
        ),
        ruled(
            layout::SLOT_ID,
            &[
                epoch(0, pdu::LAST_SLOT),
                epoch(pdu::LAST_EPOCH - 1, pdu::LAST_SLOT),
                epoch(pdu::LAST_EPOCH, pdu::LAST_SLOT_OF_LAST_EPOCH),
            ],
        ),
    ]
}

/// The longest body that a data length of 16 bits can tell.
const BODY_TOLD_MAX: u64 = u16::MAX as u64 / 8 - pdu::NETWORK_HEADER_SIZE as u64;

/// Behind the first PDU of a datagram there are at most so many others.
const OTHERS_MAX: u64 = 9;

pub struct Generator {
    random: Random,
    start: Vec<Ruled>,
    transmitter: Vec<Ruled>,
    signal: Vec<Ruled>,
}

impl Generator {
    pub fn new(seed: u64) -> Self {
        Generator {
            random: Random::new(seed),
            start: start_fields(),
            transmitter: transmitter_fields(),
            signal: signal_fields(),
        }
    }

    /// A datagram of any sort; in every third something stands behind what it begins with.
    pub fn datagram(&mut self) -> Vec<u8> {
        let mut bytes = self.beginning();
        if self.random.one_in(3) {
            bytes.extend(self.behind());
        }
        bytes
    }

    /// PDUs, or a tail that is none, or both.
    fn behind(&mut self) -> Vec<u8> {
        let pdus = match self.random.below(8) {
            0..=2 => 0,
            3..=5 => 1,
            _ => self.random.within(2, OTHERS_MAX),
        };
        let mut bytes: Vec<u8> = (0..pdus).flat_map(|_| self.archived()).collect();
        if pdus == 0 || self.random.one_in(3) {
            let pdu = self.archived();
            bytes.extend(tails::tail(&mut self.random, &pdu));
        }
        bytes
    }

    /// What is read as a first PDU.
    fn beginning(&mut self) -> Vec<u8> {
        match self.random.below(16) {
            0..=2 => self.archived(),
            3..=8 => self.damaged(),
            9..=10 => self.resized(),
            11..=13 => self.signal_of_any_body(),
            14 => self.noise(),
            _ => self.noise_after_start(),
        }
    }

    /// A PDU that archive reading takes.
    fn archived(&mut self) -> Vec<u8> {
        if self.random.one_in(2) {
            self.transmitter()
        } else {
            self.signal_or_voice()
        }
    }

    /// A valid Transmitter, its padding random.
    pub fn transmitter(&mut self) -> Vec<u8> {
        let mut bytes = self.pdu_of(pdu::TRANSMITTER_TYPE, pdu::TRANSMITTER_SIZE);
        put_allowed(&mut self.random, &self.transmitter, &mut bytes);
        if !layout::has_status(&bytes) {
            layout::PARAMETER_RECORDS.put(&mut bytes, self.random.next());
        }
        let last_without = u64::from(pdu::LAST_LEVEL_WITHOUT_ID);
        if layout::TSA_LEVEL.get(&bytes) > Some(last_without) && !self.random.one_in(4) {
            layout::SYNC_ID.put(&mut bytes, self.random.next());
        }
        bytes
    }

    /// A valid Signal, its padding and fill random.
    pub fn signal(&mut self) -> Vec<u8> {
        let message_type = self.live_message_type();
        self.signal_of_type(message_type)
    }

    /// A Signal that archive reading takes.
    pub fn signal_or_voice(&mut self) -> Vec<u8> {
        let message_type = self.message_type();
        self.signal_of_type(message_type)
    }

    fn signal_of_type(&mut self, message_type: u8) -> Vec<u8> {
        let body = self.body_size(message_type);
        self.signal_of(message_type.into(), body)
    }

    /// A size that a body of this message type may have.
    fn body_size(&mut self, message_type: u8) -> u64 {
        match message_type {
            0 => {
                let words = self.random.within(0, pdu::WORDS_MAX as u64);
                pdu::words_size(words as usize) as u64
            }
            pdu::RTT | pdu::RTT_REPLY => pdu::TIMING_SIZE as u64,
            // Types 3 to 7 may have the size of round-trip timing, and are not carried for that.
            _ if self.random.one_in(8) => pdu::TIMING_SIZE as u64,
            _ => self.random.within(0, pdu::BODY_MAX as u64),
        }
    }

    /// A valid Signal of message type 0.
    pub fn signal_of_words(&mut self, words: usize) -> Vec<u8> {
        self.signal_of(0, pdu::words_size(words) as u64)
    }

    /// A valid Signal of round-trip timing, the padding inside its body random.
    pub fn signal_of_timing(&mut self, message_type: u8) -> Vec<u8> {
        self.signal_of(message_type.into(), pdu::TIMING_SIZE as u64)
    }

    /// A Signal of this size that archive reading takes, if one is found; types 1 and 2 more often.
    pub fn signal_of_size(&mut self, size: usize) -> Option<Vec<u8>> {
        let any = self.random.within(0, pdu::LAST_MESSAGE_TYPE.into()) as u8;
        let message_type = self.random.pick(&[pdu::RTT, pdu::RTT_REPLY, any, any]);
        let fixed = pdu::SIGNAL_FIXED_SIZE + pdu::NETWORK_HEADER_SIZE;
        let room = size.checked_sub(fixed)? as u64;
        let body = match message_type {
            0..=pdu::RTT_REPLY => self.body_size(message_type),
            _ => room.saturating_sub(self.random.below(4)),
        };
        let signal = self.signal_of(message_type.into(), body);
        Some(signal).filter(|signal| signal.len() == size)
    }

    /// Any message type but voice.
    fn live_message_type(&mut self) -> u8 {
        let mut types = std::iter::repeat_with(|| self.message_type());
        let live = types.find(|message_type| !pdu::VOICE.contains(message_type));
        live.expect("endless")
    }

    /// Any message type, 0 as often as the others together.
    fn message_type(&mut self) -> u8 {
        if self.random.one_in(2) {
            0
        } else {
            self.random.within(1, pdu::LAST_MESSAGE_TYPE.into()) as u8
        }
    }

    /// A Signal that archive reading takes but for the size of its body.
    fn signal_of_any_body(&mut self) -> Vec<u8> {
        let message_type = self.message_type();
        let body = match self.random.below(16) {
            0..=4 => self.near_words(),
            5..=7 => self.near(pdu::TIMING_SIZE as u64),
            8..=10 => self.near(pdu::BODY_MAX as u64),
            11..=14 => self.random.below(2 * pdu::BODY_MAX as u64),
            _ => self.random.within(0, BODY_TOLD_MAX),
        };
        self.signal_of(message_type.into(), body)
    }

    /// A body size at or beside that of some words.
    fn near_words(&mut self) -> u64 {
        let words = self.random.below(pdu::WORDS_MAX as u64 + 3);
        self.near(pdu::words_size(words as usize) as u64)
    }

    /// The value itself, or the one below or above it.
    fn near(&mut self, value: u64) -> u64 {
        let step = self.random.below(3);
        value.wrapping_add(step).wrapping_sub(1)
    }

    fn signal_of(&mut self, message_type: u64, body: u64) -> Vec<u8> {
        let data_bytes = pdu::NETWORK_HEADER_SIZE as u64 + body;
        let size = pdu::signal_size(data_bytes as usize);
        let mut bytes = self.pdu_of(pdu::SIGNAL_TYPE, size);
        put_allowed(&mut self.random, &self.signal, &mut bytes);
        layout::MESSAGE_TYPE.put(&mut bytes, message_type);
        layout::DATA_LENGTH.put(&mut bytes, 8 * data_bytes);
        let slot_id = self.slot_id(layout::SLOT_ID.get(&bytes));
        layout::SLOT_ID.put(&mut bytes, slot_id);
        bytes
    }

    /// A valid slot ID with random padding: the one drawn, or one of any epoch before the last.
    fn slot_id(&mut self, drawn: Option<u64>) -> u64 {
        let epoch = self.random.below(u64::from(pdu::LAST_EPOCH));
        let slot = self.random.below(u64::from(pdu::LAST_SLOT) + 1);
        let other = pdu::slot_id(epoch as u8, slot as u32).into();
        let slot_id = drawn.filter(|_| self.random.one_in(2)).unwrap_or(other);
        slot_id | self.random.next() & layout::SLOT_ID_PADDING
    }

    /// Random bytes with a valid start; the status and the padding after it are often zero.
    fn pdu_of(&mut self, pdu_type: u8, size: usize) -> Vec<u8> {
        let mut bytes = self.random.bytes(size);
        put_allowed(&mut self.random, &self.start, &mut bytes);
        for field in [layout::STATUS, layout::START_PADDING] {
            if self.random.one_in(3) {
                field.put(&mut bytes, 0);
            }
        }
        layout::PDU_TYPE.put(&mut bytes, pdu_type.into());
        layout::LENGTH.put(&mut bytes, size as u64);
        bytes
    }

    /// A PDU with one field damaged, or with several.
    fn damaged(&mut self) -> Vec<u8> {
        let mut bytes = self.archived();
        for _ in 0..self.random.pick(&[1, 1, 2, 3]) {
            self.damage(&mut bytes);
        }
        bytes
    }

    /// Damages one ruled field, if the bytes have it.
    pub fn damage(&mut self, bytes: &mut [u8]) {
        let own = if is_signal(bytes) {
            &self.signal
        } else {
            &self.transmitter
        };
        let at = self.random.below((self.start.len() + own.len()) as u64) as usize;
        let ruled = self.start.iter().chain(own).nth(at).expect("counted");
        let field = ruled.field;
        let (first, last) = self.random.pick(&ruled.allowed);
        let Some(before) = field.get(bytes) else {
            return;
        };
        let value = match self.random.below(8) {
            0..=2 => self.near(first),
            3..=5 => self.near(last),
            6 => before ^ 1 << self.random.below(8 * field.width as u64),
            _ => self.random.next(),
        };
        field.put(bytes, value);
    }

    /// A PDU cut or lengthened; the length fields follow or not, and a field may be damaged too.
    fn resized(&mut self) -> Vec<u8> {
        let mut bytes = self.archived();
        let length = self.other_length(bytes.len());
        let tail = self.random.bytes(length.saturating_sub(bytes.len()));
        bytes.truncate(length);
        bytes.extend(tail);
        if length >= pdu::START_SIZE && !self.random.one_in(3) {
            layout::LENGTH.put(&mut bytes, length as u64);
        }
        if self.random.one_in(2) {
            self.fit_data_length(&mut bytes);
        }
        if self.random.one_in(4) {
            self.damage(&mut bytes);
        }
        bytes
    }

    /// Gives a Signal a data length for which its size is right, or nearly.
    fn fit_data_length(&mut self, bytes: &mut [u8]) {
        let room = bytes.len().checked_sub(pdu::SIGNAL_FIXED_SIZE);
        if let (true, Some(room)) = (is_signal(bytes), room) {
            let fill = self.random.below(5);
            layout::DATA_LENGTH.put(bytes, 8 * (room as u64).saturating_sub(fill));
        }
    }

    fn other_length(&mut self, length: usize) -> usize {
        let named = self.random.pick(&SIZES) as u64;
        let own = length as u64;
        let other = match self.random.below(512) {
            // The length field cannot tell this length from the PDU's own.
            0 => own + u64::from(u16::MAX) + 1,
            1..=200 => self.near(named),
            201..=300 => self.near(own),
            301..=400 => self.near(own + 3),
            _ => self.random.below(2 * own),
        };
        other as usize
    }

    fn noise(&mut self) -> Vec<u8> {
        let length = self.random.below(2 * pdu::TRANSMITTER_SIZE as u64);
        self.random.bytes(length as usize)
    }

    /// Noise that gets past the first refusals.
    fn noise_after_start(&mut self) -> Vec<u8> {
        let pdu_type = self.random.pick(&[pdu::TRANSMITTER_TYPE, pdu::SIGNAL_TYPE]);
        let length = self
            .random
            .within(pdu::START_SIZE as u64, 2 * pdu::TRANSMITTER_SIZE as u64);
        self.pdu_of(pdu_type, length as usize)
    }
}

fn is_signal(bytes: &[u8]) -> bool {
    layout::PDU_TYPE.get(bytes) == Some(u64::from(pdu::SIGNAL_TYPE))
}

/// Puts a value that is allowed into each field.
fn put_allowed(random: &mut Random, fields: &[Ruled], bytes: &mut [u8]) {
    for ruled in fields {
        let (first, last) = random.pick(&ruled.allowed);
        ruled.field.put(bytes, random.within(first, last));
    }
}
