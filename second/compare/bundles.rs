//! Offers by the PDUs of their bundles (document 02, R-5), which the printed lines do not tell: how many
//! there were and whether they fit, which of them stopped the bundle, and the tails that are no PDU.

use super::tally::{Name, Tally};
use crate::check::{Claim, Report};
use crate::pdu::layout;
use crate::pdu::read::read;
use crate::trunk::near::NearEnd;
use crate::trunk::record::Kind;
use crate::trunk::replay::Replay;
use crate::trunk::script::{self, Line, Outcome, Word};

const FITTING: &[&str] = &["taken", "24"];
const TOO_MANY: &[&str] = &["51"];

const ROWS: [(&str, &[&str]); 14] = [
    ("1 PDU", FITTING),
    ("2 PDUs", FITTING),
    ("3 PDUs", FITTING),
    ("4 PDUs", FITTING),
    ("5 PDUs", FITTING),
    ("6 PDUs", FITTING),
    ("7 PDUs", FITTING),
    ("8 PDUs", FITTING),
    ("9 PDUs", TOO_MANY),
    ("10 PDUs", TOO_MANY),
    ("more PDUs", TOO_MANY),
    ("several", &["just fit", "one too many"]),
    (
        "stopped at",
        &[
            "PDU 1",
            "PDU 2",
            "PDU 3",
            "PDU 4",
            "PDU 5",
            "PDU 6",
            "PDU 7",
            "PDU 8",
            "PDU 9",
            "a later one",
        ],
    ),
    ("tail", &["1 to 11 bytes", "12 or more"]),
];

/// A datagram as an offer goes through it: its PDUs from the front, up to the first that is refused or
/// not carried, and what is left from that on.
pub struct Walk<'a> {
    pub pdus: Vec<&'a [u8]>,
    pub rest: &'a [u8],
}

impl<'a> Walk<'a> {
    pub fn of(datagram: &'a [u8]) -> Self {
        let mut walk = Walk {
            pdus: Vec::new(),
            rest: datagram,
        };
        while read(walk.rest).is_ok_and(|pdu| Kind::carrying(&pdu).is_some()) {
            let size = layout::first_pdu(walk.rest).len();
            let (pdu, rest) = walk.rest.split_at(size);
            walk.pdus.push(pdu);
            walk.rest = rest;
        }
        walk
    }

    /// Every byte of it is of a PDU that can be offered.
    fn is_whole(&self) -> bool {
        self.rest.is_empty() && !self.pdus.is_empty()
    }
}

pub struct Bundles {
    tally: Tally,
    /// So many bundles of two PDUs or more were taken, and so many PDUs in them.
    taken: [u64; 2],
}

impl Bundles {
    pub fn new() -> Self {
        Bundles {
            tally: Tally::new(&ROWS),
            taken: [0; 2],
        }
    }

    /// Adds the offers of a script.
    pub fn add(&mut self, script: &[u8]) {
        let (lines, _) = script::parse(script);
        let mut replay = Replay::new();
        for line in &lines {
            let before = replay.near;
            let outcome = replay.call(line);
            if let Line::Offer(datagram) = line {
                let walk = Walk::of(datagram);
                let names = names(&walk, before, &outcome);
                names.iter().for_each(|name| self.tally.count(name, false));
                self.count_taken(walk.pdus.len() as u64, &outcome);
            }
        }
    }

    fn count_taken(&mut self, pdus: u64, outcome: &Outcome) {
        if pdus > 1 && matches!(outcome, Outcome::Offered(_)) {
            let [bundles, in_them] = &mut self.taken;
            *bundles += 1;
            *in_them += pdus;
        }
    }

    /// Prints the table and counts a check for each row.
    pub fn report(&self, least: u64, report: &mut Report) {
        println!("offers by the PDUs of their bundles");
        self.tally.print();
        self.tally.report(least, report);
        let [bundles, pdus] = self.taken;
        let mut claim = Claim::new(format!(
            "{bundles} bundles of two PDUs or more are taken, with {pdus} PDUs"
        ));
        claim.sample(bundles >= least, || format!("not {least}"));
        report.count_own(&claim);
    }
}

/// The rows of an offer; none where the store decided.
fn names(walk: &Walk, near: NearEnd, outcome: &Outcome) -> Vec<Name> {
    let answer = match outcome {
        Outcome::Refused(Word::Offer, 28) => return Vec::new(),
        Outcome::Refused(_, number) => number.to_string(),
        _ => "taken".to_string(),
    };
    if walk.is_whole() {
        names_of_whole(walk.pdus.len(), near, answer)
    } else {
        names_of_stopped(walk)
    }
}

fn names_of_whole(pdus: usize, near: NearEnd, answer: String) -> Vec<Name> {
    let about = match pdus {
        1 => "1 PDU".to_string(),
        2..=10 => format!("{pdus} PDUs"),
        _ => "more PDUs".to_string(),
    };
    let wanted = near.held().len() + pdus;
    let fit = match wanted {
        8 => Some("just fit"),
        9 => Some("one too many"),
        _ => None,
    };
    let fit = fit.filter(|_| (2..=8).contains(&pdus));
    let several = fit.map(|fit| ("several".to_string(), fit.to_string()));
    [Some((about, answer)), several]
        .into_iter()
        .flatten()
        .collect()
}

fn names_of_stopped(walk: &Walk) -> Vec<Name> {
    let place = match walk.pdus.len() {
        before @ 0..=8 => format!("PDU {}", before + 1),
        _ => "a later one".to_string(),
    };
    let tail = match walk.rest.len() {
        1..=11 => "1 to 11 bytes",
        _ => "12 or more",
    };
    let is_tail = !walk.pdus.is_empty();
    let tail = Some(("tail".to_string(), tail.to_string())).filter(|_| is_tail);
    [Some(("stopped at".to_string(), place)), tail]
        .into_iter()
        .flatten()
        .collect()
}
