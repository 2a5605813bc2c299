//! Checks of the second program's reader and writer on voice, message types 3 to 5 (document 02, R-4):
//! live reading and writing refuse them, and archive reading takes them as live reading did before.

use super::self_check::MARK;
use crate::check::{Claim, Report};
use crate::hex;
use crate::numbers::Refusal;
use crate::pdu::layout;
use crate::pdu::read::{answer, archive_answer, read, read_archive};
use crate::pdu::write::write;
use crate::pdu::{Header, NetworkHeader, Pdu, Signal};
use crate::sample::units::signal_of;

/// Claims about every datagram, by both readings.
pub struct VoiceChecks {
    same_reading: Claim,
    as_before: Claim,
    not_written: Claim,
}

impl VoiceChecks {
    pub fn new() -> Self {
        VoiceChecks {
            same_reading: Claim::new(
                "archive reading is live reading where that does not answer 50",
            ),
            as_before: Claim::new("archive reading takes voice as both readings take type 6"),
            not_written: Claim::new("voice that archive reading takes is not written"),
        }
    }

    pub fn datagram(&mut self, datagram: &[u8]) {
        let describe = || hex::encode(datagram);
        let live = read(datagram);
        let archived = read_archive(datagram);
        if live != Err(Refusal::Retired) {
            return self.same_reading.sample(archived == live, describe);
        }
        self.as_before
            .sample(is_as_type_6(datagram, archived), describe);
        if let Ok(pdu) = archived {
            let mut output = vec![MARK; pdu.size()];
            let refused = write(&pdu, &mut output) == Err(Refusal::Retired);
            let untouched = output.iter().all(|&byte| byte == MARK);
            self.not_written.sample(refused && untouched, describe);
        }
    }

    /// Counts these claims and those that need no datagram.
    pub fn finish(self, report: &mut Report) {
        report.count_own(&self.same_reading);
        report.count_own(&self.as_before);
        report.count_own(&self.not_written);
        report.count_own(&known_numbers());
    }
}

/// Types 3 to 7 had one rule: this is what type 6 still gets, but for the type itself.
fn is_as_type_6(datagram: &[u8], archived: Result<Pdu, Refusal>) -> bool {
    let mut other = datagram.to_vec();
    layout::MESSAGE_TYPE.put(&mut other, 6);
    match (read(&other), archived) {
        (Ok(Pdu::Signal(mut signal, body)), Ok(pdu)) => {
            signal.network.message_type = datagram[layout::MESSAGE_TYPE.at];
            pdu == Pdu::Signal(signal, body)
        }
        (other, archived) => other == archived,
    }
}

/// A message type, a body's size and a slot of epoch 112; the number of live reading and of writing,
/// and that of archive reading.
type Known = (u8, usize, u32, u32, u32);

const KNOWN: [Known; 18] = [
    (3, 0, 0, 50, 0),
    (3, 6, 0, 50, 0),
    (3, 256, 0, 50, 0),
    (4, 0, 0, 50, 0),
    (4, 256, 0, 50, 0),
    (5, 0, 0, 50, 0),
    (5, 256, 0, 50, 0),
    // 50 is given before 15.
    (3, 257, 0, 50, 15),
    (4, 257, 0, 50, 15),
    (5, 257, 0, 50, 15),
    // And after the network header's numbers, the last of which is 138.
    (3, 0, 49_152, 138, 138),
    (5, 257, 49_152, 138, 138),
    (3, 6, 98_304, 136, 136),
    // The neighbours of voice are not retired.
    (2, 6, 0, 0, 0),
    (2, 7, 0, 14, 14),
    (6, 0, 0, 0, 0),
    (6, 257, 0, 15, 15),
    (8, 0, 0, 135, 135),
];

fn known_numbers() -> Claim {
    let mut claim = Claim::new("voice and its neighbours by both readings and in writing");
    for known in KNOWN {
        let (message_type, body, slot, live, archived) = known;
        let datagram = signal(message_type, body, slot);
        let found = (answer(&datagram).number, archive_answer(&datagram).number);
        claim.sample(found == (live, archived), || {
            format!("{known:?}: {found:?}")
        });
        let written = number_of_writing(message_type, body, slot);
        claim.sample(written == live, || {
            format!("{known:?}: {written} in writing")
        });
    }
    claim
}

/// A Signal in this slot of epoch 112; its length fields fit the body.
fn signal(message_type: u8, body: usize, slot: u32) -> Vec<u8> {
    let mut bytes = signal_of(1, 0, 6, &[]);
    bytes.resize((52 + body).next_multiple_of(4), 0);
    let length = bytes.len() as u64;
    layout::LENGTH.put(&mut bytes, length);
    layout::DATA_LENGTH.put(&mut bytes, 8 * (20 + body as u64));
    layout::MESSAGE_TYPE.put(&mut bytes, message_type.into());
    layout::SLOT_ID.put(&mut bytes, 112 << 24 | u64::from(slot));
    bytes
}

/// What the writer answers to the same Signal: 0 where it is written.
fn number_of_writing(message_type: u8, body: usize, slot: u32) -> u32 {
    let signal = Signal {
        header: Header {
            version: 6,
            ..Header::default()
        },
        network: NetworkHeader {
            message_type,
            epoch: 112,
            slot,
            ..NetworkHeader::default()
        },
        ..Signal::default()
    };
    let body = vec![0; body];
    let written = write(&Pdu::Signal(signal, &body), &mut [0; 400]);
    written.map_or_else(Refusal::number, |_| 0)
}
