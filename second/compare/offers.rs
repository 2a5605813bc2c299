//! What offers of Signals of message types 1 to 7 gave, alone and in bundles, which the printed lines
//! alone do not tell: types 1 and 2 are carried and have a body size of their own, types 3 to 5 are
//! retired, types 6 and 7 are not carried. And the versions of what is taken and put out.

use super::bundles::Walk;
use super::tally::{Name, Tally};
use super::versions::VersionCounts;
use crate::check::Report;
use crate::pdu::{layout, SIGNAL_TYPE};
use crate::trunk::script::{self, Line, Outcome};

const ANSWERS: [(&str, &[&str]); 7] = [
    ("type 1", &["14", "taken"]),
    ("type 2", &["14", "taken"]),
    ("type 3", &["50"]),
    ("type 4", &["50"]),
    ("type 5", &["50"]),
    ("type 6", &["23"]),
    ("type 7", &["23"]),
];

pub struct Offers {
    message_types: Tally,
    taken: VersionCounts,
    put_out: VersionCounts,
}

impl Offers {
    pub fn new() -> Self {
        Offers {
            message_types: Tally::new(&ANSWERS),
            taken: VersionCounts::default(),
            put_out: VersionCounts::default(),
        }
    }

    /// Adds a script with what is printed for it.
    pub fn add(&mut self, script: &[u8], output: &str) {
        let (lines, _) = script::parse(script);
        for (line, printed) in lines.iter().zip(output.lines()) {
            match (line, Outcome::parse(printed)) {
                (Line::Offer(datagram), Some(outcome)) => self.offered(datagram, &outcome),
                (_, Some(Outcome::Delivered { pdu, .. })) => self.put_out.count(&pdu),
                _ => {}
            }
        }
    }

    /// Counts the PDUs that are taken, or the one that stops the bundle.
    fn offered(&mut self, datagram: &[u8], outcome: &Outcome) {
        let walk = Walk::of(datagram);
        let taken = matches!(outcome, Outcome::Offered(_));
        let decided = if taken { walk.pdus } else { vec![walk.rest] };
        for pdu in decided {
            if let Some(name) = name(pdu, outcome) {
                self.message_types.count(&name, false);
            }
            if taken {
                self.taken.count(pdu);
            }
        }
    }

    /// Prints the table and counts a check for each row, and for the versions.
    pub fn report(&self, least: u64, report: &mut Report) {
        println!("offers by message type");
        self.message_types.print();
        self.message_types.report(least, report);
        self.taken.report("offered", least, report);
        self.put_out.report("put out", least, report);
    }
}

/// The row of a PDU that was offered; none where another rule decided, or the type is 0.
fn name(pdu: &[u8], outcome: &Outcome) -> Option<Name> {
    let message_type = layout::MESSAGE_TYPE.get(pdu)?;
    let is_signal = layout::PDU_TYPE.get(pdu) == Some(u64::from(SIGNAL_TYPE));
    let answer = match outcome {
        Outcome::Offered(_) => "taken".to_string(),
        Outcome::Refused(_, number @ (14 | 23 | 50)) => number.to_string(),
        _ => return None,
    };
    let name = (format!("type {message_type}"), answer);
    Some(name).filter(|_| is_signal && message_type != 0)
}
