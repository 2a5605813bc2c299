//! Checks that the second program's writer refuses with the right number and leaves the output
//! as it was (document 01, "The numbers", the order of writing; document 02, R-1, R-4 and R-9).

use super::self_check::MARK;
use crate::check::{Claim, Report};
use crate::generate::datagrams::Generator;
use crate::pdu::read::read;
use crate::pdu::write::write;
use crate::pdu::*;

/// Each rule is broken in so many records.
const RECORDS: usize = 50;

/// What is handed to the writer: a record, a body if it is a Signal, and an output.
#[derive(Clone)]
struct Draft<R> {
    record: R,
    body: Vec<u8>,
    /// The output is one byte shorter than the PDU.
    short_output: bool,
}

/// A number, and what breaks one of its rules.
type Breaker<R> = (u32, fn(&mut Draft<R>));

/// In the order of refusals.
const TRANSMITTER_BREAKERS: [Breaker<Transmitter>; 13] = [
    (2, |d| d.record.header.version = 4),
    (2, |d| d.record.header.version = 8),
    (52, |d| set_status(&mut d.record.header, 5, 1)),
    (52, |d| set_status(&mut d.record.header, 6, 1)),
    (52, |d| set_status(&mut d.record.header, 6, 255)),
    (9, |d| d.record.modulation.tsa_level = LAST_TSA_LEVEL + 1),
    (9, |d| {
        d.record.modulation.primary_mode = PRIMARY_MODES[0] - 1
    }),
    (9, |d| {
        d.record.modulation.primary_mode = PRIMARY_MODES[1] + 1
    }),
    (9, |d| {
        d.record.modulation.secondary_mode = LAST_SECONDARY_MODE + 1
    }),
    (9, |d| d.record.modulation.sync_state = COARSE - 1),
    (9, |d| d.record.modulation.sync_state = FINE + 1),
    (9, |d| {
        d.record.modulation.tsa_level = LAST_LEVEL_WITHOUT_ID;
        d.record.modulation.sync_id = 1;
    }),
    (16, |d| d.short_output = true),
];

/// In the order of refusals.
const SIGNAL_BREAKERS: [Breaker<Signal>; 30] = [
    (2, |d| d.record.header.version = 4),
    (2, |d| d.record.header.version = 8),
    (52, |d| set_status(&mut d.record.header, 5, 1)),
    (52, |d| set_status(&mut d.record.header, 6, 1)),
    (52, |d| set_status(&mut d.record.header, 6, 255)),
    (10, |d| d.record.encoding = LAST_ENCODING + 1),
    (10, |d| d.record.encoding = u16::MAX),
    (131, |d| d.record.network.npg = LAST_NPG + 1),
    (132, |d| d.record.network.net = LAST_NET + 1),
    (133, |d| d.record.network.tsec = LAST_SECURITY_SETTING + 1),
    (133, |d| d.record.network.tsec = NO_SECURITY_SETTING - 1),
    (134, |d| d.record.network.msec = LAST_SECURITY_SETTING + 1),
    (134, |d| d.record.network.msec = NO_SECURITY_SETTING - 1),
    (135, |d| {
        d.record.network.message_type = LAST_MESSAGE_TYPE + 1
    }),
    (136, |d| set_slot(d, 0, LAST_SLOT + 1)),
    (136, |d| set_slot(d, 0, 1 << SLOT_BITS)),
    (137, |d| set_slot(d, LAST_EPOCH + 1, 0)),
    (138, |d| {
        set_slot(d, LAST_EPOCH, LAST_SLOT_OF_LAST_EPOCH + 1)
    }),
    (50, |d| d.record.network.message_type = 3),
    (50, |d| d.record.network.message_type = 4),
    (50, |d| d.record.network.message_type = 5),
    (14, |d| set_body(d, 0, WORDS_HEADER_SIZE - 1)),
    (14, |d| set_body(d, 0, WORDS_SIZE_MAX + WORD_SIZE + 1)),
    (14, |d| set_body(d, RTT, 0)),
    (14, |d| set_body(d, RTT, TIMING_SIZE + 1)),
    (14, |d| set_body(d, RTT_REPLY, TIMING_SIZE - 1)),
    (14, |d| set_body(d, RTT_REPLY, BODY_MAX + 1)),
    (15, |d| set_body(d, 0, WORDS_SIZE_MAX + WORD_SIZE)),
    (15, |d| set_body(d, LAST_MESSAGE_TYPE, BODY_MAX + 1)),
    (16, |d| d.short_output = true),
];

/// The largest body of type 0.
const WORDS_SIZE_MAX: usize = words_size(WORDS_MAX);

fn set_status(header: &mut Header, version: u8, status: u8) {
    header.version = version;
    header.status = status;
}

fn set_slot(draft: &mut Draft<Signal>, epoch: u8, slot: u32) {
    draft.record.network.epoch = epoch;
    draft.record.network.slot = slot;
}

fn set_body(draft: &mut Draft<Signal>, message_type: u8, size: usize) {
    draft.record.network.message_type = message_type;
    draft.body.resize(size, 0);
}

/// Counts one check for each number of each kind of PDU.
pub fn run(generator: &mut Generator, report: &mut Report) {
    let mut transmitters = Vec::new();
    let mut signals = Vec::new();
    for _ in 0..RECORDS {
        if let Ok(Pdu::Transmitter(record)) = read(&generator.transmitter()) {
            transmitters.push(draft(record, &[]));
        }
        if let Ok(Pdu::Signal(record, body)) = read(&generator.signal()) {
            signals.push(draft(record, body));
        }
    }
    check("Transmitter", &transmitters, &TRANSMITTER_BREAKERS, report);
    check("Signal", &signals, &SIGNAL_BREAKERS, report);
}

fn draft<R>(record: R, body: &[u8]) -> Draft<R> {
    Draft {
        record,
        body: body.to_vec(),
        short_output: false,
    }
}

fn check<R: Record>(kind: &str, drafts: &[Draft<R>], breakers: &[Breaker<R>], report: &mut Report) {
    let mut numbers: Vec<u32> = breakers.iter().map(|&(number, _)| number).collect();
    numbers.dedup();
    for number in numbers {
        let mut claim = Claim::new(format!("{kind} writer refuses with {number}"));
        claim.sample(drafts.len() == RECORDS, || {
            "records are missing".to_string()
        });
        for at in (0..breakers.len()).filter(|&at| breakers[at].0 == number) {
            try_breakers(drafts, &breakers[at..], &mut claim);
        }
        report.count_own(&claim);
    }
}

/// The first breaker alone and with each later one: its number is given.
fn try_breakers<R: Record>(drafts: &[Draft<R>], breakers: &[Breaker<R>], claim: &mut Claim) {
    let (number, break_first) = breakers[0];
    for draft in drafts {
        for (later, break_later) in breakers {
            let mut broken = draft.clone();
            break_later(&mut broken);
            break_first(&mut broken);
            claim.sample(is_refused(&broken, number), || {
                format!("not where {number} and {later} are broken")
            });
        }
    }
}

/// The writer refuses with this number and changes no byte.
fn is_refused<R: Record>(draft: &Draft<R>, number: u32) -> bool {
    let pdu = draft.record.pdu(&draft.body);
    let mut output = vec![MARK; pdu.size() - usize::from(draft.short_output)];
    let answer = write(&pdu, &mut output);
    let untouched = output.iter().all(|&byte| byte == MARK);
    answer.is_err_and(|refusal| refusal.number() == number) && untouched
}

trait Record: Copy {
    /// The PDU of this record; a Transmitter has no body.
    fn pdu(self, body: &[u8]) -> Pdu<'_>;
}

impl Record for Transmitter {
    fn pdu(self, _: &[u8]) -> Pdu<'_> {
        Pdu::Transmitter(self)
    }
}

impl Record for Signal {
    fn pdu(self, body: &[u8]) -> Pdu<'_> {
        Pdu::Signal(self, body)
    }
}
