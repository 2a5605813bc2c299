//! The bench program over the second program's own ends and station: runs jobs, one a line, and
//! prints a line for each. Both programs are timed on the same jobs.

use crate::numbers::Refusal;
use crate::sample::units::{self, FINE_MODULATION};
use crate::trunk::far::{Arrival, FarEnd};
use crate::trunk::near::{NearEnd, STORE_SIZE};
use crate::trunk::record::{Kind, REPLY_SIZE};
use crate::trunk::script;
use crate::trunk::station::{self, Station, PLACES, PPLI_LABEL};
use crate::trunk::word::Word;
use std::hint::black_box;

/// The largest number that a line may have.
const NUMBER_MAX: u64 = 999_999_999;
const NET: u8 = 0;
/// Room for a PDU or a record.
const ROOM: usize = 192;
/// The sum takes a byte of the output at a place below this, another in each cycle.
const PLACES_SUMMED: u32 = 128;

#[derive(Clone, Copy)]
pub enum Job {
    /// An offer, a send, an arrival and a reply, so many times.
    Cycle { kind: Kind, times: u64 },
    /// A PPLI from the last of so many units that a station holds, so many times.
    Heard { units: u16, times: u64 },
}

/// What is printed for an input, up to the first line that cannot be read.
pub fn run(input: &[u8]) -> String {
    let mut text = String::new();
    for (index, line) in input.split_inclusive(|&byte| byte == b'\n').enumerate() {
        match Job::parse(line) {
            Some(job) => text += &job.run(),
            None => return text + &format!("bad line {}\n", index + 1),
        }
    }
    text
}

impl Job {
    fn parse(line: &[u8]) -> Option<Self> {
        let line = std::str::from_utf8(line).ok()?.strip_suffix('\n')?;
        let words: Vec<&str> = line.split(' ').collect();
        match words[..] {
            ["cycle", kind, times] => Some(Job::Cycle {
                kind: carrying_kind(number(kind)?)?,
                times: number(times)?,
            }),
            ["heard", units, times] => Some(Job::Heard {
                units: number(units).filter(|&units| units <= PLACES as u64)? as u16,
                times: number(times)?,
            }),
            _ => None,
        }
    }

    /// The line that is printed.
    fn run(self) -> String {
        match self {
            Job::Cycle { kind, times } => {
                let ends = Ends::after_cycles(kind, times);
                let (near, delivered, sum) = (ends.near, ends.far.delivered, ends.sum);
                let (accepted, acknowledged) = (near.accepted, near.acknowledged);
                let kind = kind.byte();
                format!("cycle {kind} {times} {accepted} {acknowledged} {delivered} {sum}\n")
            }
            Job::Heard { units, times } => {
                let (held, sum) = hear(units, times);
                format!("heard {units} {times} {held} {sum}\n")
            }
        }
    }
}

fn number(text: &str) -> Option<u64> {
    script::number(text).filter(|&number| number <= NUMBER_MAX)
}

/// The kinds that a cycle may have: Signals of words, and Transmitters.
pub fn has_cycle(kind: Kind) -> bool {
    matches!(kind, Kind::Signal(_) | Kind::Transmitter)
}

fn carrying_kind(number: u64) -> Option<Kind> {
    let kind = Kind::from_byte(u8::try_from(number).ok()?)?;
    Some(kind).filter(|&kind| has_cycle(kind))
}

/// A Signal of so many words, the first of them a PPLI's.
fn ppli(unit: u16, words: usize) -> Vec<u8> {
    let mut all = vec![Word::initial(0, 0); words];
    all.iter_mut()
        .take(1)
        .for_each(|word| word.label = PPLI_LABEL);
    units::signal(unit, NET, &all)
}

fn fresh_station() -> Station {
    let (station, _) = Station::new(0, NET, 1);
    station
}

/// Both ends, the memory lent to them, and a sum of what the calls answered.
struct Ends {
    near: NearEnd,
    far: FarEnd,
    store: [u8; STORE_SIZE],
    record: [u8; ROOM],
    output: [u8; ROOM],
    reply: [u8; REPLY_SIZE],
    sum: u64,
}

impl Ends {
    /// After one cycle of a Transmitter, so that the far station knows the unit, and so many of
    /// this kind.
    fn after_cycles(kind: Kind, times: u64) -> Self {
        const UNIT: u16 = 1;
        let transmitter = units::transmitter(UNIT, FINE_MODULATION);
        let datagram = match kind {
            Kind::Signal(words) => ppli(UNIT, words),
            _ => transmitter.clone(),
        };
        let mut ends = Ends {
            near: NearEnd::default(),
            far: FarEnd::new(fresh_station()),
            store: [0; STORE_SIZE],
            record: [0; ROOM],
            output: [0; ROOM],
            reply: [0; REPLY_SIZE],
            sum: 0,
        };
        // A refusal leaves the ends as they are, which the counts show.
        let _ = ends.cycle(&transmitter);
        for _ in 0..times {
            let _ = ends.cycle(black_box(&datagram));
        }
        ends
    }

    fn cycle(&mut self, datagram: &[u8]) -> Result<(), Refusal> {
        let number = self.near.offer(&mut self.store, datagram)?;
        let size = self.near.send(&self.store, number, &mut self.record)?;
        let record = &self.record[..size];
        let arrival = self.far.arrive(record, &mut self.output, &mut self.reply)?;
        let Arrival::Delivered { size, answer } = arrival else {
            return Ok(());
        };
        let count = self.near.reply(&self.reply)?;
        let byte = self.output[(count % PLACES_SUMMED) as usize];
        self.sum += size as u64 + u64::from(answer) + u64::from(count) + u64::from(byte);
        Ok(())
    }
}

/// The units held in the end, and a sum of the answers. The sender is the unit heard last, in the
/// last place held; with no units it is unknown.
fn hear(units: u16, times: u64) -> (usize, u64) {
    let mut station = fresh_station();
    for unit in 1..=units {
        let _ = station.hear(&units::transmitter(unit, FINE_MODULATION));
    }
    let datagram = ppli(units, 1);
    let mut sum = 0;
    for _ in 0..times {
        sum += u64::from(station::number(station.hear(black_box(&datagram))));
    }
    (station.places.iter().flatten().count(), sum)
}
