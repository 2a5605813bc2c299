//! Plain PDUs of numbered units, in their written form.

use crate::pdu::write::write;
use crate::pdu::*;
use crate::trunk::word::Word;

/// Of a unit that is fine, at a level that has no synchronization ID.
pub const FINE_MODULATION: Modulation = Modulation {
    tsa_level: 0,
    primary_mode: PRIMARY_MODES[0],
    secondary_mode: 0,
    sync_state: FINE,
    sync_id: 0,
};

pub fn transmitter(unit: u16, modulation: Modulation) -> Vec<u8> {
    written(&Pdu::Transmitter(Transmitter {
        header: header(unit),
        modulation,
        ..Transmitter::default()
    }))
}

/// A Signal of message type 0 with these words.
pub fn signal(unit: u16, net: u8, words: &[Word]) -> Vec<u8> {
    let mut body = vec![0; words_size(words.len())];
    let (bodies, _) = body[WORDS_HEADER_SIZE..].as_chunks_mut::<WORD_SIZE>();
    for (word, bytes) in words.iter().zip(bodies) {
        word.put(bytes);
    }
    signal_of(unit, net, 0, &body)
}

/// A Signal of any message type with this body.
pub fn signal_of(unit: u16, net: u8, message_type: u8, body: &[u8]) -> Vec<u8> {
    let signal = Signal {
        header: header(unit),
        network: NetworkHeader {
            net,
            message_type,
            ..NetworkHeader::default()
        },
        ..Signal::default()
    };
    written(&Pdu::Signal(signal, body))
}

/// All units are of one site, and each has one radio.
fn header(unit: u16) -> Header {
    Header {
        version: VERSIONS[1],
        exercise: 1,
        site: 1,
        application: 1,
        entity: unit,
        radio: 1,
        ..Header::default()
    }
}

fn written(pdu: &Pdu) -> Vec<u8> {
    let mut output = vec![0; pdu.size()];
    write(pdu, &mut output).expect("a valid PDU, and room for it");
    output
}
