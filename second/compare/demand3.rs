//! Holds an output of the replay program to the sentences of document 01, "What demand 3 means", with
//! document 02, R-5: accepted are the PDUs inside bundles, one by one. It knows the reader, the
//! station's rules and the form of a record, and not what the ends do.

use crate::numbers;
use crate::pdu::layout;
use crate::pdu::read::read;
use crate::trunk::near::ROWS;
use crate::trunk::record::{self, Kind, Record, PDU_SIZE_MAX, REPLY_SIZE};
use crate::trunk::replay::End;
use crate::trunk::script::{self, Line, Outcome};
use crate::trunk::station::{self, Station};
use std::collections::HashSet;
use std::fmt::{self, Display, Formatter};

#[derive(Debug, PartialEq, Eq)]
pub enum Fault {
    /// A line cannot be read, something arrives that no earlier call wrote, or somebody else writes
    /// the store: nothing is claimed.
    NotFair,
    /// A sentence that does not hold.
    Broken(String),
}

impl Display for Fault {
    fn fmt(&self, f: &mut Formatter) -> fmt::Result {
        match self {
            Fault::NotFair => write!(f, "the script is not fair"),
            Fault::Broken(what) => write!(f, "{what}"),
        }
    }
}

impl Fault {
    fn at_line(self, number: usize) -> Self {
        match self {
            Fault::NotFair => Fault::NotFair,
            Fault::Broken(what) => Fault::Broken(format!("demand 3 at line {number}: {what}")),
        }
    }
}

/// Does the output for a script keep to demand 3? If so, the calls with what they gave.
pub fn judge(input: &[u8], output: &str) -> Result<History, Fault> {
    let (lines, bad_line) = script::parse(input);
    if lines.is_empty() || bad_line.is_some() {
        return Err(Fault::NotFair);
    }
    let mut history = History::new();
    let mut printed = output.lines();
    for (index, line) in lines.iter().enumerate() {
        let outcome = printed.next().and_then(Outcome::parse);
        let step = history.step(line, outcome.as_ref());
        step.map_err(|fault| fault.at_line(index + 1))?;
    }
    let end: String = printed.map(|line| format!("{line}\n")).collect();
    holds(
        end == history.end().to_string(),
        "demand 3: counts or station at the end",
    )?;
    Ok(history)
}

fn holds(holds: bool, sentence: &str) -> Result<(), Fault> {
    if holds {
        Ok(())
    } else {
        Err(Fault::Broken(sentence.to_string()))
    }
}

/// The list of calls as far as it was gone through.
#[derive(Debug, PartialEq, Eq)]
pub struct History {
    /// The PDUs in the bundles of the offers not refused, one by one, as the writer gives them.
    accepted: Vec<Vec<u8>>,
    put_out: u32,
    acknowledged: u32,
    /// The records that calls wrote.
    written: HashSet<Vec<u8>>,
    /// Reckoned by its rules from the fresh one.
    station: Station,
    /// The reply that the last call wrote, if that call handed over record k.
    reply_of_next: Option<Vec<u8>>,
}

impl History {
    fn new() -> Self {
        let (station, _) = Station::new(0, 0, 1);
        History {
            accepted: Vec::new(),
            put_out: 0,
            acknowledged: 0,
            written: HashSet::new(),
            station,
            reply_of_next: None,
        }
    }

    /// "Handing over record k and its reply makes acknowledged k + 1": the calls that do so, where
    /// k is below accepted. Any other reply would break a sentence before it is handed over.
    pub fn handover(&self) -> Option<Vec<Line>> {
        let record = self.record(self.put_out)?;
        let reply = record::head(Kind::Reply, self.put_out + 1);
        let far = Line::Far {
            record,
            room: PDU_SIZE_MAX,
            reply_room: REPLY_SIZE,
        };
        Some(vec![far, Line::Near(reply.to_vec())])
    }

    fn step(&mut self, line: &Line, outcome: Option<&Outcome>) -> Result<(), Fault> {
        self.check_fair(line)?;
        let hands_over = self.hands_over(line);
        let hands_back =
            matches!(line, Line::Near(reply) if self.reply_of_next.as_ref() == Some(reply));
        self.note(line, outcome)?;
        self.check_counts()?;
        self.reply_of_next = None;
        match outcome {
            Some(Outcome::Delivered { reply, .. }) if hands_over => {
                self.reply_of_next = Some(reply.clone());
            }
            _ => holds(!hands_over, "record k, handed over, is put out")?,
        }
        let acknowledged = Outcome::Acknowledged(self.put_out);
        holds(
            !hands_back || outcome == Some(&acknowledged),
            "handing over record k and its reply makes acknowledged k + 1",
        )
    }

    fn check_fair(&self, line: &Line) -> Result<(), Fault> {
        let is_fair = match line {
            Line::Near(record) | Line::Far { record, .. } => self.written.contains(record),
            Line::Poke { .. } => false,
            _ => true,
        };
        is_fair.then_some(()).ok_or(Fault::NotFair)
    }

    /// Record k arrives at the far end, with room in the lent buffers.
    fn hands_over(&self, line: &Line) -> bool {
        match line {
            Line::Far {
                record,
                room,
                reply_room,
            } => {
                let has_room = *room >= PDU_SIZE_MAX && *reply_room >= REPLY_SIZE;
                has_room && self.record(self.put_out).as_ref() == Some(record)
            }
            _ => false,
        }
    }

    /// Takes a call and the line printed for it into the history.
    fn note(&mut self, line: &Line, outcome: Option<&Outcome>) -> Result<(), Fault> {
        match (line, outcome) {
            (Line::Station(settings), Some(Outcome::Station(number))) => {
                let (station, answer) = settings.station();
                self.station = station;
                holds(*number == numbers::number(answer), "the station's maker")?;
            }
            (Line::Store(_), Some(Outcome::Store(_))) => {}
            (Line::Offer(datagram), Some(Outcome::Offered(number))) => {
                self.offered(datagram, *number)?;
            }
            (Line::Send { number, .. }, Some(Outcome::Sent(record))) => {
                self.sent(*number, record)?;
            }
            (Line::Near(reply), Some(Outcome::Acknowledged(count))) => {
                self.replied(reply, *count)?;
            }
            (Line::Far { .. }, Some(outcome)) => self.arrived(outcome)?,
            (Line::Clock(second), Some(Outcome::Clock(answer))) => {
                let expected = station::number(self.station.set_clock(*second));
                holds(*answer == expected, "the station's answer to the clock")?;
            }
            (_, Some(Outcome::Refused(..))) => {}
            _ => return holds(false, "the line printed is not of this call"),
        }
        Ok(())
    }

    /// A bundle is taken whole, and its first PDU has the number that is answered.
    fn offered(&mut self, bundle: &[u8], number: u32) -> Result<(), Fault> {
        holds(number == self.accepted(), "the number of a PDU accepted")?;
        holds(!bundle.is_empty(), "what is accepted is PDUs")?;
        let mut rest = bundle;
        while !rest.is_empty() {
            holds(read(rest).is_ok(), "what is accepted is PDUs")?;
            self.accepted.push(layout::written_form(rest));
            rest = &rest[layout::first_pdu(rest).len()..];
        }
        // An offer writes its records into the store.
        let records: Vec<Vec<u8>> = (number..self.accepted())
            .filter_map(|number| self.record(number))
            .collect();
        self.written.extend(records);
        Ok(())
    }

    /// Record i: kind, i, PDU i.
    fn record(&self, number: u32) -> Option<Vec<u8>> {
        let pdu = self.accepted.get(number as usize)?;
        let kind = Kind::carrying(&read(pdu).ok()?)?;
        Some([&record::head(kind, number)[..], pdu].concat())
    }

    /// A send of i, unless refused, writes record i.
    fn sent(&mut self, number: u32, record: &[u8]) -> Result<(), Fault> {
        let expected = self.record(number);
        holds(expected.as_deref() == Some(record), "the record sent")?;
        self.written.insert(record.to_vec());
        Ok(())
    }

    /// Acknowledged is the largest number of a reply taken without refusal.
    fn replied(&mut self, reply: &[u8], count: u32) -> Result<(), Fault> {
        let reply = Record::split(reply).ok();
        let reply = reply.filter(|reply| reply.kind == Kind::Reply);
        let number = reply.map(|reply| reply.number);
        self.acknowledged = self.acknowledged.max(number.unwrap_or(0));
        holds(number.is_some(), "what is taken is a reply")?;
        holds(count == self.acknowledged, "the acknowledged count")
    }

    fn arrived(&mut self, outcome: &Outcome) -> Result<(), Fault> {
        let reply = match outcome {
            Outcome::Refused(..) => return Ok(()),
            Outcome::Repeat(reply) | Outcome::Early(reply) => reply,
            Outcome::Delivered { answer, pdu, reply } => {
                let next = self.accepted.get(self.put_out as usize);
                holds(
                    next == Some(pdu),
                    "put out are the first accepted, in order",
                )?;
                self.put_out += 1;
                let expected = station::number(self.station.hear(pdu));
                holds(*answer == expected, "the station's answer")?;
                reply
            }
            _ => return holds(false, "the line printed is not of this call"),
        };
        let expected = record::head(Kind::Reply, self.put_out);
        holds(*reply == expected, "a reply has the count of those put out")?;
        self.written.insert(reply.clone());
        Ok(())
    }

    fn accepted(&self) -> u32 {
        self.accepted.len() as u32
    }

    fn check_counts(&self) -> Result<(), Fault> {
        let in_order = self.acknowledged <= self.put_out
            && self.put_out <= self.accepted()
            && self.accepted() <= self.acknowledged + ROWS;
        holds(
            in_order,
            "acknowledged <= put out <= accepted <= acknowledged + 8",
        )
    }

    fn end(&self) -> End<'_> {
        End {
            accepted: self.accepted(),
            acknowledged: self.acknowledged,
            delivered: self.put_out,
            station: &self.station,
        }
    }
}
