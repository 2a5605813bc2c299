//! The replay program over the second program's own ends: reads calls, one a line, makes them,
//! and prints what each gave; at the end the counts and the station.

use super::far::{Arrival, FarEnd};
use super::near::{NearEnd, STORE_SIZE};
use super::record::REPLY_SIZE;
use super::script::{self, Line, Outcome, Word};
use super::station::{self, State, Station};
use crate::numbers;
use std::fmt::{self, Display, Formatter};

/// The two ends with the store.
pub struct Replay {
    pub near: NearEnd,
    pub far: FarEnd,
    pub store: Vec<u8>,
}

/// What is printed at a clean end of the input.
pub struct End<'a> {
    pub accepted: u32,
    pub acknowledged: u32,
    pub delivered: u32,
    pub station: &'a Station,
}

/// What the replay program prints for an input; nothing for an empty one.
pub fn run(input: &[u8]) -> String {
    let (lines, bad_line) = script::parse(input);
    let mut replay = Replay::new();
    let mut text: String = lines
        .iter()
        .map(|line| format!("{}\n", replay.call(line)))
        .collect();
    match bad_line {
        Some(number) => text += &format!("bad line {number}\n"),
        None if lines.is_empty() => {}
        None => text += &replay.end().to_string(),
    }
    text
}

impl Replay {
    pub fn new() -> Self {
        let (station, _) = Station::new(0, 0, 1);
        Replay {
            near: NearEnd::default(),
            far: FarEnd::new(station),
            store: vec![0; STORE_SIZE],
        }
    }

    pub fn call(&mut self, line: &Line) -> Outcome {
        match line {
            Line::Station(settings) => {
                let (station, answer) = settings.station();
                self.far = FarEnd::new(station);
                Outcome::Station(numbers::number(answer))
            }
            Line::Store(bytes) => {
                self.store = vec![0; *bytes];
                Outcome::Store(*bytes)
            }
            Line::Poke { offset, bytes } => {
                self.store[*offset..][..bytes.len()].copy_from_slice(bytes);
                Outcome::Poked(*offset)
            }
            Line::Offer(datagram) => match self.near.offer(&mut self.store, datagram) {
                Ok(taken) => Outcome::Offered(taken),
                Err(refusal) => Outcome::Refused(Word::Offer, refusal.number()),
            },
            Line::Send { number, room } => self.send(*number, *room),
            Line::Near(record) => match self.near.reply(record) {
                Ok(acknowledged) => Outcome::Acknowledged(acknowledged),
                Err(refusal) => Outcome::Refused(Word::Near, refusal.number()),
            },
            Line::Far {
                record,
                room,
                reply_room,
            } => self.arrive(record, *room, *reply_room),
            Line::Clock(second) => {
                Outcome::Clock(station::number(self.far.station.set_clock(*second)))
            }
        }
    }

    fn send(&self, number: u32, room: usize) -> Outcome {
        let mut output = vec![0; room];
        match self.near.send(&self.store, number, &mut output) {
            Ok(size) => Outcome::Sent(output[..size].to_vec()),
            Err(refusal) => Outcome::Refused(Word::Send, refusal.number()),
        }
    }

    fn arrive(&mut self, record: &[u8], room: usize, reply_room: usize) -> Outcome {
        let mut output = vec![0; room];
        let mut reply = vec![0; reply_room];
        match self.far.arrive(record, &mut output, &mut reply) {
            Ok(Arrival::Delivered { size, answer }) => Outcome::Delivered {
                answer,
                pdu: output[..size].to_vec(),
                reply: reply[..REPLY_SIZE].to_vec(),
            },
            Ok(Arrival::Repeat) => Outcome::Repeat(reply[..REPLY_SIZE].to_vec()),
            Ok(Arrival::Early) => Outcome::Early(reply[..REPLY_SIZE].to_vec()),
            Err(refusal) => Outcome::Refused(Word::Far, refusal.number()),
        }
    }

    fn end(&self) -> End<'_> {
        End {
            accepted: self.near.accepted,
            acknowledged: self.near.acknowledged,
            delivered: self.far.delivered,
            station: &self.far.station,
        }
    }
}

impl Display for End<'_> {
    fn fmt(&self, f: &mut Formatter) -> fmt::Result {
        let Station {
            level,
            net,
            exchanges,
            count,
            limit,
            id,
            state,
            clock,
            places,
        } = self.station;
        let (accepted, acknowledged) = (self.accepted, self.acknowledged);
        writeln!(f, "counts {accepted} {acknowledged} {}", self.delivered)?;
        let state = state_word(*state);
        writeln!(f, "state {level} {net} {id} {state} {clock}")?;
        writeln!(f, "timing {exchanges} {count}")?;
        writeln!(f, "limit {limit}")?;
        for (place, unit) in places.iter().enumerate() {
            if let Some(unit) = unit {
                let (key, is_in) = (unit.key, u8::from(unit.is_in));
                let (level, sync, id, last) = (unit.level, unit.sync_state, unit.id, unit.last);
                writeln!(
                    f,
                    "unit {place} {key:016x} {level} {sync} {id} {is_in} {last}"
                )?;
            }
        }
        Ok(())
    }
}

fn state_word(state: State) -> &'static str {
    match state {
        State::Waiting => "waiting",
        State::Coarse => "coarse",
        State::Fine => "fine",
    }
}
