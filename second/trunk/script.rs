//! The lines that the replay program reads and prints: a call in each line that it reads, its
//! outcome in the line that it prints for it.

use super::near::STORE_SIZE;
use super::station::Station;
use crate::hex;
use crate::numbers::Refusal;
use std::fmt::{self, Display, Formatter};

/// The longest datagram, record, store or output that a line may name.
pub const BYTES_MAX: usize = 4_096;

/// The numbers of a `station` line.
#[derive(Clone, Copy, Debug, PartialEq, Eq)]
pub struct Settings {
    pub level: u8,
    pub net: u8,
    /// One where it is left out.
    pub exchanges: Option<u8>,
    /// Left out where the exchanges are; the maker without a limit makes the station then.
    pub limit: Option<u16>,
}

impl Settings {
    /// The station that they make.
    pub fn station(self) -> (Station, Result<(), Refusal>) {
        let (level, net, exchanges) = (self.level, self.net, self.exchanges.unwrap_or(1));
        match self.limit {
            Some(limit) => Station::with_limit(level, net, exchanges, limit),
            None => Station::new(level, net, exchanges),
        }
    }
}

impl Display for Settings {
    fn fmt(&self, f: &mut Formatter) -> fmt::Result {
        write!(f, "{} {}", self.level, self.net)?;
        if let Some(exchanges) = self.exchanges {
            write!(f, " {exchanges}")?;
        }
        if let Some(limit) = self.limit {
            write!(f, " {limit}")?;
        }
        Ok(())
    }
}

/// A line to read.
#[derive(Clone, Debug, PartialEq, Eq)]
pub enum Line {
    /// The first line: the settings of the far end's station.
    Station(Settings),
    /// The second line, if it is there: the length of the near end's store.
    Store(usize),
    /// Somebody else writes these bytes into the store.
    Poke {
        offset: usize,
        bytes: Vec<u8>,
    },
    Offer(Vec<u8>),
    Send {
        number: u32,
        room: usize,
    },
    Near(Vec<u8>),
    Far {
        record: Vec<u8>,
        room: usize,
        reply_room: usize,
    },
    Clock(u64),
}

impl Line {
    /// Nothing where the line cannot be read.
    fn parse(text: &str) -> Option<Self> {
        let words: Vec<&str> = text.split(' ').collect();
        Some(match words[..] {
            ["station", level, net] => Line::Station(Settings {
                level: number(level)?,
                net: number(net)?,
                exchanges: None,
                limit: None,
            }),
            ["station", level, net, exchanges] => Line::Station(Settings {
                level: number(level)?,
                net: number(net)?,
                exchanges: Some(number(exchanges)?),
                limit: None,
            }),
            ["station", level, net, exchanges, limit] => Line::Station(Settings {
                level: number(level)?,
                net: number(net)?,
                exchanges: Some(number(exchanges)?),
                limit: Some(number(limit)?),
            }),
            ["store", bytes] => Line::Store(size(bytes)?),
            ["poke", offset, poked] => Line::Poke {
                offset: size(offset)?,
                bytes: bytes(poked)?,
            },
            ["offer", datagram] => Line::Offer(bytes(datagram)?),
            ["send", sent, room] => Line::Send {
                number: number(sent)?,
                room: size(room)?,
            },
            ["near", record] => Line::Near(bytes(record)?),
            ["far", record, room, reply_room] => Line::Far {
                record: bytes(record)?,
                room: size(room)?,
                reply_room: size(reply_room)?,
            },
            ["clock", second] => Line::Clock(number(second)?),
            _ => return None,
        })
    }

    /// The station comes first, and the store at once after it or not at all. Nobody writes past
    /// the store's end.
    fn may_stand_after(&self, lines: &[Line]) -> bool {
        match self {
            Line::Station(_) => lines.is_empty(),
            Line::Store(_) => lines.len() == 1,
            Line::Poke { offset, bytes } => {
                !lines.is_empty() && offset + bytes.len() <= store_size(lines)
            }
            _ => !lines.is_empty(),
        }
    }
}

/// The length of the store behind these lines.
fn store_size(lines: &[Line]) -> usize {
    match lines.get(1) {
        Some(Line::Store(bytes)) => *bytes,
        _ => STORE_SIZE,
    }
}

/// The lines of an input as far as they can be read, and the number of the first that cannot,
/// counted from 1. The end of the last line may be lacking.
pub fn parse(input: &[u8]) -> (Vec<Line>, Option<usize>) {
    let mut lines = Vec::new();
    for text in input.split_inclusive(|&byte| byte == b'\n') {
        let text = std::str::from_utf8(text.strip_suffix(b"\n").unwrap_or(text)).ok();
        match text.and_then(Line::parse) {
            Some(line) if line.may_stand_after(&lines) => lines.push(line),
            _ => {
                let number = lines.len() + 1;
                return (lines, Some(number));
            }
        }
    }
    (lines, None)
}

/// Decimal digits alone, for a number that fits.
pub fn number<T: std::str::FromStr>(text: &str) -> Option<T> {
    let is_decimal = text.bytes().all(|byte| byte.is_ascii_digit());
    text.parse().ok().filter(|_| is_decimal)
}

pub fn size(text: &str) -> Option<usize> {
    number(text).filter(|&size| size <= BYTES_MAX)
}

pub fn bytes(text: &str) -> Option<Vec<u8>> {
    hex::decode(text).filter(|bytes| bytes.len() <= BYTES_MAX)
}

impl Display for Line {
    fn fmt(&self, f: &mut Formatter) -> fmt::Result {
        match self {
            Line::Station(settings) => write!(f, "station {settings}"),
            Line::Store(bytes) => write!(f, "store {bytes}"),
            Line::Poke { offset, bytes } => write!(f, "poke {offset} {}", hex::encode(bytes)),
            Line::Offer(datagram) => write!(f, "offer {}", hex::encode(datagram)),
            Line::Send { number, room } => write!(f, "send {number} {room}"),
            Line::Near(record) => write!(f, "near {}", hex::encode(record)),
            Line::Far {
                record,
                room,
                reply_room,
            } => write!(f, "far {} {room} {reply_room}", hex::encode(record)),
            Line::Clock(second) => write!(f, "clock {second}"),
        }
    }
}

/// A line that is printed for a line that was read.
#[derive(Clone, Debug, PartialEq, Eq)]
pub enum Outcome {
    /// 0, or 37.
    Station(u32),
    Store(usize),
    /// The offset.
    Poked(usize),
    /// The number taken.
    Offered(u32),
    /// The record written.
    Sent(Vec<u8>),
    /// The acknowledged count.
    Acknowledged(u32),
    Delivered {
        answer: u32,
        pdu: Vec<u8>,
        reply: Vec<u8>,
    },
    Repeat(Vec<u8>),
    Early(Vec<u8>),
    /// The station's answer.
    Clock(u32),
    /// The call's word, and the number.
    Refused(Word, u32),
}

/// The words of the calls that may be refused.
#[derive(Clone, Copy, Debug, PartialEq, Eq)]
pub enum Word {
    Offer,
    Send,
    Near,
    Far,
}

impl Word {
    fn parse(text: &str) -> Option<Self> {
        [Word::Offer, Word::Send, Word::Near, Word::Far]
            .into_iter()
            .find(|word| word.text() == text)
    }

    fn text(self) -> &'static str {
        match self {
            Word::Offer => "offer",
            Word::Send => "send",
            Word::Near => "near",
            Word::Far => "far",
        }
    }
}

impl Outcome {
    /// Nothing where the line is not of this form.
    pub fn parse(text: &str) -> Option<Self> {
        let words: Vec<&str> = text.split(' ').collect();
        Some(match words[..] {
            [word, "refused", refusal] => Outcome::Refused(Word::parse(word)?, number(refusal)?),
            ["station", answer] => Outcome::Station(number(answer)?),
            ["store", bytes] => Outcome::Store(size(bytes)?),
            ["poke", offset] => Outcome::Poked(size(offset)?),
            ["offer", taken] => Outcome::Offered(number(taken)?),
            ["send", size, record] => Outcome::Sent(sized(size, record)?),
            ["near", acknowledged] => Outcome::Acknowledged(number(acknowledged)?),
            ["far", "delivered", size, answer, pdu, reply] => Outcome::Delivered {
                answer: number(answer)?,
                pdu: sized(size, pdu)?,
                reply: bytes(reply)?,
            },
            ["far", "repeat", reply] => Outcome::Repeat(bytes(reply)?),
            ["far", "early", reply] => Outcome::Early(bytes(reply)?),
            ["clock", answer] => Outcome::Clock(number(answer)?),
            _ => return None,
        })
    }
}

/// Bytes with their size before them.
fn sized(size: &str, text: &str) -> Option<Vec<u8>> {
    let size = number::<usize>(size)?;
    bytes(text).filter(|bytes| bytes.len() == size)
}

impl Display for Outcome {
    fn fmt(&self, f: &mut Formatter) -> fmt::Result {
        match self {
            Outcome::Station(answer) => write!(f, "station {answer}"),
            Outcome::Store(bytes) => write!(f, "store {bytes}"),
            Outcome::Poked(offset) => write!(f, "poke {offset}"),
            Outcome::Offered(taken) => write!(f, "offer {taken}"),
            Outcome::Sent(record) => write!(f, "send {} {}", record.len(), hex::encode(record)),
            Outcome::Acknowledged(acknowledged) => write!(f, "near {acknowledged}"),
            Outcome::Delivered { answer, pdu, reply } => {
                let (size, pdu, reply) = (pdu.len(), hex::encode(pdu), hex::encode(reply));
                write!(f, "far delivered {size} {answer} {pdu} {reply}")
            }
            Outcome::Repeat(reply) => write!(f, "far repeat {}", hex::encode(reply)),
            Outcome::Early(reply) => write!(f, "far early {}", hex::encode(reply)),
            Outcome::Clock(answer) => write!(f, "clock {answer}"),
            Outcome::Refused(word, number) => write!(f, "{} refused {number}", word.text()),
        }
    }
}
