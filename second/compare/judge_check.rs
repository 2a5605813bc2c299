//! The judge of demand 3 on scripts of known calls: it takes what the second program prints for
//! them, and finds each slip that is made in it.

use super::demand3::{self, Fault, History};
use super::replay::going_on;
use crate::check::{Claim, Report};
use crate::pdu::Modulation;
use crate::sample::units::{signal, signal_of, transmitter, FINE_MODULATION};
use crate::trunk::record::{self, Kind};
use crate::trunk::replay;
use crate::trunk::script::{Line, Settings};
use crate::trunk::word::Word;

const NET: u8 = 5;

/// Two PDUs are accepted; the first is put out and acknowledged.
fn script() -> Vec<u8> {
    let first = transmitter(1, FINE_MODULATION);
    let arrival = arrival(Kind::Transmitter, 0, &first);
    let send = Line::Send {
        number: 0,
        room: 185,
    };
    let lines = [
        station(0, None),
        Line::Offer(first),
        send,
        arrival.clone(),
        arrival,
        Line::Near(record::head(Kind::Reply, 1).to_vec()),
        Line::Offer(signal(1, NET, &[Word::initial(0, 0)])),
        Line::Clock(10),
    ];
    going_on(b"", &lines)
}

fn station(level: u8, exchanges: Option<u8>) -> Line {
    Line::Station(Settings {
        level,
        net: NET,
        exchanges,
        limit: None,
    })
}

/// The record of a PDU arrives, with room in the lent buffers.
fn arrival(kind: Kind, number: u32, pdu: &[u8]) -> Line {
    Line::Far {
        record: [&record::head(kind, number)[..], pdu].concat(),
        room: 180,
        reply_room: 5,
    }
}

/// A station of level 4 becomes Coarse, and Fine by two timing messages.
fn timing_script() -> Vec<u8> {
    let level_4 = Modulation {
        tsa_level: 4,
        ..FINE_MODULATION
    };
    let reply = signal_of(1, NET, 2, &[0, 7, 0, 0, 0, 1]);
    let pdus = [
        (Kind::Transmitter, transmitter(1, level_4)),
        (Kind::Signal(1), signal(1, NET, &[Word::initial(0, 0)])),
        (Kind::RttReply, reply.clone()),
        (Kind::RttReply, reply),
    ];
    let mut lines = vec![station(4, Some(2))];
    for (number, (kind, pdu)) in (0..).zip(pdus) {
        lines.push(Line::Offer(pdu.clone()));
        lines.push(arrival(kind, number, &pdu));
    }
    going_on(b"", &lines)
}

/// A bundle of three PDUs is accepted; one more, by itself; the second record comes first, then all four
/// in order, and the last reply.
fn bundle_script() -> Vec<u8> {
    let pdus = [
        (Kind::Transmitter, transmitter(1, FINE_MODULATION)),
        (Kind::Signal(1), signal(1, NET, &[Word::initial(0, 0)])),
        (Kind::Rtt, signal_of(1, NET, 1, &[0; 6])),
        (Kind::Signal(0), signal(1, NET, &[])),
    ];
    let [first, second, third, last] = pdus.each_ref().map(|(_, pdu)| &pdu[..]);
    let bundle = [first, second, third].concat();
    let send = Line::Send {
        number: 2,
        room: 185,
    };
    let mut lines = vec![
        station(0, None),
        Line::Offer(bundle.clone()),
        Line::Offer([&bundle[..], &[0]].concat()),
        Line::Offer(last.to_vec()),
        send,
    ];
    let arrivals = (0..).zip(&pdus);
    let mut arrivals: Vec<Line> = arrivals
        .map(|(number, (kind, pdu))| arrival(*kind, number, pdu))
        .collect();
    lines.push(arrivals[1].clone());
    lines.append(&mut arrivals);
    lines.push(Line::Near(record::head(Kind::Reply, 4).to_vec()));
    going_on(b"", &lines)
}

/// Places of the lines printed for it.
const BUNDLE: usize = 1;
const BUNDLE_REFUSED: usize = 2;
const AFTER_BUNDLE: usize = 3;
const THIRD_SENT: usize = 4;
const SECOND_EARLY: usize = 5;
const FIRST_PUT_OUT: usize = 6;
const SECOND_PUT_OUT: usize = 7;
const LAST_REPLY: usize = 10;
const BUNDLE_COUNTS: usize = 11;

/// Of the refused bundle nothing may be accepted. Were the bundle one PDU, the next would be number 1.
const BUNDLE_SLIPS: [Slip; 8] = [
    (BUNDLE, "offer 0", "offer 2", NUMBER),
    (BUNDLE_REFUSED, "offer refused 1", "offer 3", BUNDLED),
    (AFTER_BUNDLE, "offer 3", "offer 1", NUMBER),
    (THIRD_SENT, " 1100000002", " 1100000001", RECORD),
    (SECOND_EARLY, "2000000000", "2000000001", REPLIES),
    (SECOND_PUT_OUT, " 42 ", " 35 ", ANSWER),
    (LAST_REPLY, "near 4", "near 2", ACKNOWLEDGED),
    (BUNDLE_COUNTS, "counts 4 4 4", "counts 2 4 4", END),
];

const BUNDLE_OTHER_LINES: [OtherLine; 3] = [
    (FIRST_PUT_OUT, "far repeat 2000000000", PUT_OUT),
    (SECOND_PUT_OUT, "far early 2000000001", PUT_OUT),
    (LAST_REPLY, "near refused 27", NEXT),
];

/// Places of the lines printed for it.
const FIRST_COUNTED: usize = 6;
const LAST_COUNTED: usize = 8;
const TIMED_STATE: usize = 10;
const TIMED_COUNT: usize = 11;

const TIMING_SLIPS: [Slip; 5] = [
    (FIRST_COUNTED, " 47 ", " 44 ", ANSWER),
    (LAST_COUNTED, " 47 ", " 44 ", ANSWER),
    (TIMED_STATE, "fine", "coarse", END),
    (TIMED_COUNT, "timing 2 2", "timing 2 1", END),
    (TIMED_COUNT, "timing 2 2", "timing 1 2", END),
];

/// Places of the printed lines: those of the script, of the handover of record 1 and its reply, and
/// of the end.
const OFFER: usize = 1;
const SEND: usize = 2;
const DELIVERY: usize = 3;
const REPEAT: usize = 4;
const REPLY: usize = 5;
const CLOCK: usize = 7;
const HANDOVER: usize = 8;
const HANDOVER_REPLY: usize = 9;
const COUNTS: usize = 10;
const STATION: usize = 11;
const COUNTED: usize = 12;
const LIMIT: usize = 13;

/// The sentences that slips break.
const NUMBER: &str = "the number of a PDU accepted";
const BUNDLED: &str = "what is accepted is PDUs";
const RECORD: &str = "the record sent";
const ORDER: &str = "put out are the first accepted, in order";
const ANSWER: &str = "the station's answer";
const CLOCK_ANSWER: &str = "the station's answer to the clock";
const REPLIES: &str = "a reply has the count of those put out";
const ACKNOWLEDGED: &str = "the acknowledged count";
const PUT_OUT: &str = "record k, handed over, is put out";
const NEXT: &str = "handing over record k and its reply makes acknowledged k + 1";
const END: &str = "counts or station at the end";

/// A text in the line of a place, what stands there instead, and the sentence that it breaks.
type Slip = (usize, &'static str, &'static str, &'static str);
/// The same of a whole line.
type OtherLine = (usize, &'static str, &'static str);

const SLIPS: [Slip; 13] = [
    (OFFER, "offer 0", "offer 1", NUMBER),
    (SEND, " 1000000000", " 1000000001", RECORD),
    (DELIVERY, " 06", " 05", ORDER),
    (DELIVERY, " 40 ", " 41 ", ANSWER),
    (REPEAT, "2000000001", "2000000000", REPLIES),
    (REPLY, "near 1", "near 0", ACKNOWLEDGED),
    (CLOCK, "clock 46", "clock 36", CLOCK_ANSWER),
    (HANDOVER, " 2000000002", " 2000000001", REPLIES),
    (HANDOVER_REPLY, "near 2", "near 1", ACKNOWLEDGED),
    (COUNTS, "counts 2 2 2", "counts 2 1 2", END),
    (STATION, "fine", "coarse", END),
    (COUNTED, "timing 1 0", "timing 1 1", END),
    (LIMIT, "limit 96", "limit 60", END),
];

const OTHER_LINES: [OtherLine; 5] = [
    (DELIVERY, "far refused 16", PUT_OUT),
    (DELIVERY, "far early 2000000000", PUT_OUT),
    (HANDOVER, "far refused 22", PUT_OUT),
    (HANDOVER, "far repeat 2000000001", PUT_OUT),
    (HANDOVER_REPLY, "near refused 27", NEXT),
];

/// Counts the checks of the judge.
pub fn run(report: &mut Report) {
    let script = script();
    report.count_own(&leaves_alone(&script));
    let mut claim = Claim::new("the judge of demand 3 hands over record 1 and its reply");
    let judged = demand3::judge(&script, &replay::run(&script));
    let Some(calls) = judged.as_ref().ok().and_then(History::handover) else {
        claim.sample(false, || format!("{judged:?}"));
        return report.count_own(&claim);
    };
    let longer = going_on(&script, &calls);
    let printed = replay::run(&longer);
    let judged = demand3::judge(&longer, &printed);
    claim.sample(judged.is_ok(), || format!("{judged:?}"));
    report.count_own(&claim);
    let mut claim = Claim::new("the judge of demand 3 finds each slip");
    find_slips(&longer, &SLIPS, &OTHER_LINES, &mut claim);
    report.count_own(&claim);
    report.count_own(&follows("timing", &timing_script(), &TIMING_SLIPS, &[]));
    report.count_own(&follows(
        "bundles",
        &bundle_script(),
        &BUNDLE_SLIPS,
        &BUNDLE_OTHER_LINES,
    ));
}

/// The judge takes what is printed for the script, and finds each slip in it.
fn follows(what: &str, script: &[u8], slips: &[Slip], others: &[OtherLine]) -> Claim {
    let mut claim = Claim::new(format!(
        "the judge of demand 3 follows {what}, and finds each slip"
    ));
    let judged = demand3::judge(script, &replay::run(script));
    claim.sample(judged.is_ok(), || format!("{judged:?}"));
    find_slips(script, slips, others, &mut claim);
    claim
}

/// Each slip in what the second program prints for the script breaks its sentence.
fn find_slips(script: &[u8], slips: &[Slip], others: &[OtherLine], claim: &mut Claim) {
    let printed = replay::run(script);
    let lines: Vec<&str> = printed.lines().collect();
    let mut find = |place: usize, slip: &str, sentence: &str| {
        let mut lines = lines.clone();
        lines[place] = slip;
        let fault = demand3::judge(script, &(lines.join("\n") + "\n")).err();
        let found = matches!(&fault, Some(Fault::Broken(what)) if what.ends_with(sentence));
        claim.sample(found, || format!("'{slip}': {fault:?}, not '{sentence}'"));
    };
    for (place, from, to, sentence) in slips {
        find(*place, &lines[*place].replacen(from, to, 1), sentence);
    }
    for (place, slip, sentence) in others {
        find(*place, slip, sentence);
    }
}

/// Demand 3 speaks neither of a record that no call wrote nor of a store that somebody else writes.
fn leaves_alone(script: &[u8]) -> Claim {
    let mut claim = Claim::new("the judge of demand 3 leaves alone what is not fair");
    let invented = Line::Near(record::head(Kind::Reply, 2).to_vec());
    let poke = Line::Poke {
        offset: 0,
        bytes: vec![0],
    };
    for line in [invented, poke] {
        let script = going_on(script, &[line]);
        let judged = demand3::judge(&script, &replay::run(&script));
        claim.sample(judged == Err(Fault::NotFair), || format!("{judged:?}"));
    }
    claim
}
