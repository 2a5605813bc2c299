//! The codec program over the second program's own reader and writer: one line in, one line out.

pub mod fields;

use crate::hex;
use crate::numbers::Refusal;
use crate::pdu::read::{read, read_archive};
use crate::pdu::write::write;
use crate::pdu::{Pdu, Signal, Transmitter};
use crate::trunk::script::{bytes, number, size};
use fields::{Fields, Visit, Visitor};
use std::fmt::{self, Display, Formatter};

/// The longest line that can be read.
pub const LINE_MAX: usize = 65_535;

/// A line to read.
#[derive(Clone, Debug, PartialEq, Eq)]
pub enum Line {
    Read(Vec<u8>),
    /// A datagram of an old capture.
    Archive(Vec<u8>),
    /// What is to be written, and the room for it.
    WriteTransmitter(Transmitter, usize),
    WriteSignal(Signal, Vec<u8>, usize),
}

/// The words of a line, as far as they could be read.
struct Words<'a>(Option<std::str::Split<'a, char>>);

impl<'a> Words<'a> {
    fn next<T>(&mut self, read: impl Fn(&'a str) -> Option<T>) -> Option<T> {
        let word = self.0.as_mut().and_then(Iterator::next).and_then(read);
        if word.is_none() {
            self.0 = None;
        }
        word
    }

    /// The fields of a record, where all of them can be read.
    fn record<R: Fields + Default>(&mut self) -> Option<R> {
        let mut record = R::default();
        record.visit(&mut Visit(self));
        self.0.is_some().then_some(record)
    }

    /// Something, where no word is left.
    fn end(self) -> Option<()> {
        self.0?.next().is_none().then_some(())
    }
}

/// Each field takes the next word.
impl Visitor for Words<'_> {
    fn visit(&mut self, value: u64, most: u64) -> u64 {
        let word = self.next(|word| number::<u64>(word).filter(|&number| number <= most));
        word.unwrap_or(value)
    }
}

impl Line {
    /// Nothing where the line cannot be read.
    pub fn parse(text: &str) -> Option<Self> {
        let mut words = Words(Some(text.split(' ')));
        let line = match words.next(Some)? {
            "read" => Line::Read(words.next(bytes)?),
            "archive" => Line::Archive(words.next(bytes)?),
            "write" => match words.next(Some)? {
                "transmitter" => Line::WriteTransmitter(words.record()?, words.next(size)?),
                "signal" => {
                    Line::WriteSignal(words.record()?, words.next(bytes)?, words.next(size)?)
                }
                _ => return None,
            },
            _ => return None,
        };
        words.end()?;
        Some(line).filter(|_| text.len() <= LINE_MAX)
    }

    /// What the codec program prints for the line.
    pub fn answer(&self) -> String {
        match self {
            Line::Read(datagram) => show_reading("read", read(datagram)),
            Line::Archive(datagram) => show_reading("archive", read_archive(datagram)),
            Line::WriteTransmitter(record, room) => show_written(&Pdu::Transmitter(*record), *room),
            Line::WriteSignal(record, body, room) => {
                show_written(&Pdu::Signal(*record, body), *room)
            }
        }
    }
}

/// What a reading answers, behind the call's word.
fn show_reading(word: &str, answer: Result<Pdu, Refusal>) -> String {
    match answer {
        Ok(Pdu::Transmitter(record)) => format!("{word} transmitter{}", fields::print(&record)),
        Ok(Pdu::Signal(record, body)) => {
            let (record, body) = (fields::print(&record), hex::encode(body));
            format!("{word} signal{record} {body}")
        }
        Err(refusal) => format!("{word} refused {}", refusal.number()),
    }
}

fn show_written(pdu: &Pdu, room: usize) -> String {
    let mut output = vec![0; room];
    match write(pdu, &mut output) {
        Ok(size) => format!("write {size} {}", hex::encode(&output[..size])),
        Err(refusal) => format!("write refused {}", refusal.number()),
    }
}

impl Display for Line {
    fn fmt(&self, f: &mut Formatter) -> fmt::Result {
        match self {
            Line::Read(datagram) => write!(f, "read {}", hex::encode(datagram)),
            Line::Archive(datagram) => write!(f, "archive {}", hex::encode(datagram)),
            Line::WriteTransmitter(record, room) => {
                write!(f, "write transmitter{} {room}", fields::print(record))
            }
            Line::WriteSignal(record, body, room) => {
                let (record, body) = (fields::print(record), hex::encode(body));
                write!(f, "write signal{record} {body} {room}")
            }
        }
    }
}

/// What the codec program prints for an input. The end of the last line may be lacking.
pub fn run(input: &[u8]) -> String {
    let mut text = String::new();
    for (index, line) in input.split_inclusive(|&byte| byte == b'\n').enumerate() {
        let line = std::str::from_utf8(line.strip_suffix(b"\n").unwrap_or(line)).ok();
        match line.and_then(Line::parse) {
            Some(line) => text += &format!("{}\n", line.answer()),
            None => return text + &format!("bad line {}\n", index + 1),
        }
    }
    text
}
