//! Tells a newcomer what an output of the replay program says.

use crate::pdu::read::read;
use crate::pdu::{Header, Pdu, Signal, RTT, RTT_REPLY};
use crate::trunk::record::Record;
use crate::trunk::script::Outcome;
use crate::trunk::station::{NETWORK_TIME, PPLI_LABEL};
use crate::trunk::word::Word;

const UNREADABLE: &str = "standard input is not what replay prints for a whole script";

/// What happened on the line, in all.
#[derive(Default)]
struct Story {
    /// The number of each record sent.
    sends: Vec<u32>,
    /// Each PDU put out, and the station's answer.
    put_out: Vec<(String, u32)>,
    repeats: u32,
    early: u32,
    /// What is said of the ends at last.
    end: Vec<String>,
}

/// The story in lines; the error is that the text is no whole output of the replay program.
pub fn tell(output: &str) -> Result<String, String> {
    let mut story = Story::default();
    for line in output.lines() {
        let outcome = Outcome::parse(line);
        let understood = match outcome {
            Some(outcome) => story.add(outcome),
            None => story.add_end(line),
        };
        understood.ok_or_else(|| format!("{UNREADABLE}: '{line}'"))?;
    }
    story.text().ok_or_else(|| UNREADABLE.to_string())
}

impl Story {
    fn add(&mut self, outcome: Outcome) -> Option<()> {
        match outcome {
            Outcome::Sent(record) => self.sends.push(Record::split(&record).ok()?.number),
            Outcome::Delivered { answer, pdu, .. } => {
                self.put_out.push((describe(&pdu)?, answer));
            }
            Outcome::Repeat(_) => self.repeats += 1,
            Outcome::Early(_) => self.early += 1,
            _ => {}
        }
        Some(())
    }

    /// A line of the end.
    fn add_end(&mut self, line: &str) -> Option<()> {
        let words: Vec<&str> = line.split(' ').collect();
        match words[..] {
            ["state", _, _, id, state, clock] => self.end.push(format!(
                "The station is {state} at second {clock}, its synchronization ID is {id}."
            )),
            ["timing", exchanges, count] => self.end.push(format!(
                "Of the {exchanges} timing messages that make it fine it counted {count}."
            )),
            ["limit", seconds] => self.end.push(format!(
                "A unit is removed after {seconds} seconds without a position report."
            )),
            ["unit", ..] => {}
            ["counts", accepted, acknowledged, delivered] => self.end.push(format!(
                "Offered {accepted}, put out {delivered}, repeated {}, acknowledged {acknowledged}.",
                self.repeats
            )),
            _ => return None,
        }
        Some(())
    }

    fn text(&self) -> Option<String> {
        let mut text = format!("{:<5}{:<36}{:<7}{}\n", "no.", "PDU", "sends", "the station");
        for (number, (pdu, answer)) in self.put_out.iter().enumerate() {
            let sends = self.sends.iter().filter(|&&sent| sent as usize == number);
            let (sends, meaning) = (sends.count(), meaning(*answer)?);
            text += &format!("{number:<5}{pdu:<36}{sends:<7}{answer} {meaning}\n");
        }
        let arrived = self.put_out.len() as u32 + self.repeats + self.early;
        text += &format!(
            "{} records were sent, {arrived} arrived; {} of these were repeats and {} early.\n",
            self.sends.len(),
            self.repeats,
            self.early
        );
        let [counts, state, timing, limit] = &self.end[..] else {
            return None;
        };
        Some(text + &format!("{state}\n{timing}\n{limit}\n{counts}\n"))
    }
}

fn describe(pdu: &[u8]) -> Option<String> {
    let pdu = read(pdu).ok()?;
    let what = match &pdu {
        Pdu::Transmitter(_) => "Transmitter".to_string(),
        Pdu::Signal(signal, body) => message(signal, body),
    };
    let Header {
        site,
        application,
        entity,
        radio,
        ..
    } = pdu.header();
    Some(format!(
        "{what} of unit {site}:{application}:{entity}:{radio}"
    ))
}

fn message(signal: &Signal, body: &[u8]) -> String {
    match signal.network.message_type {
        0 => words(Word::first(body)),
        RTT => "RTT".to_string(),
        RTT_REPLY => "RTT reply".to_string(),
        other => format!("message type {other}"),
    }
}

/// A message of words, by the first of them.
fn words(first: Option<Word>) -> String {
    let Some(Word {
        label, sublabel, ..
    }) = first
    else {
        return "no words".to_string();
    };
    let meaning = if (label, sublabel) == NETWORK_TIME {
        " network time"
    } else if label == PPLI_LABEL {
        " position"
    } else {
        ""
    };
    format!("J{label}.{sublabel}{meaning}")
}

/// The station's answers, by their numbers.
fn meaning(answer: u32) -> Option<&'static str> {
    Some(match answer {
        30 => "no place for another unit",
        31 => "unknown unit",
        32 => "another net",
        33 => "another synchronization ID",
        34 => "sender not fine",
        35 => "sender not in, or station not fine",
        40 => "new unit",
        41 => "known unit",
        42 => "network time heard",
        43 => "unit is in",
        44 => "passed",
        47 => "timing message counted",
        _ => return None,
    })
}
