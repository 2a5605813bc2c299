//! Clock calls at the edge of a station's absence limit, which the printed lines do not tell: a unit
//! that was last heard one second less than the limit ago, and one that was last heard just so long
//! ago.

use super::tally::{Name, Tally};
use crate::check::Report;
use crate::trunk::replay::Replay;
use crate::trunk::script::{self, Line};
use crate::trunk::station::Station;

/// Document 02, R-12: "the edge cases are run at 24, 60, 96 and 600".
const LIMITS: [u16; 4] = [24, 60, 96, 600];
const EDGES: [&str; 2] = ["a second less", "just so long"];

const ROWS: [(&str, &[&str]); 4] = [
    ("limit 24", &EDGES),
    ("limit 60", &EDGES),
    ("limit 96", &EDGES),
    ("limit 600", &EDGES),
];

pub struct Absences(Tally);

impl Absences {
    pub fn new() -> Self {
        Absences(Tally::new(&ROWS))
    }

    /// Adds the clock calls of a script.
    pub fn add(&mut self, script: &[u8]) {
        let (lines, _) = script::parse(script);
        let mut replay = Replay::new();
        for line in &lines {
            if let Line::Clock(second) = line {
                let names = names(&replay.far.station, *second);
                names.iter().for_each(|name| self.0.count(name, false));
            }
            replay.call(line);
        }
    }

    /// Prints the table and counts a check for each row.
    pub fn report(&self, least: u64, report: &mut Report) {
        println!("units by how long they were silent at a clock call");
        self.0.print();
        self.0.report(least, report);
    }
}

/// The rows of the units at the edge, where the clock is not set back.
fn names(station: &Station, second: u64) -> Vec<Name> {
    let limit = u64::from(station.limit);
    if second < station.clock || !LIMITS.contains(&station.limit) {
        return Vec::new();
    }
    let units = station.places.iter().flatten();
    let edges = units.filter_map(|unit| match second - unit.last {
        silent if silent == limit - 1 => Some(EDGES[0]),
        silent if silent == limit => Some(EDGES[1]),
        _ => None,
    });
    edges
        .map(|edge| (format!("limit {limit}"), edge.to_string()))
        .collect()
}
