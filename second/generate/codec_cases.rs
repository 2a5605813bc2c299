//! Inputs for the codec program at the limits of what it can read, and past them.

use crate::codec::fields::{Fields, Visit, Visitor};
use crate::codec::{Line, LINE_MAX};
use crate::pdu::{Signal, Transmitter};
use crate::trunk::script::BYTES_MAX;

/// Words of which each is unreadable as a number, as bytes or as both.
const WORDS: [&str; 25] = [
    "", "-", "--", "-1", "+1", "0", "000", "1x", "x1", "1.0", "1e3", "0x1", "0x00", "0A", "0g",
    "-00", "00-", "00\t", "00\r", "é", "Read", "archives", "writes", "signals", "4097",
];
/// What stands before a line that cannot be read, and after it.
const BEFORE: &str = "read -\n";
const AFTER: &str = "\nread 00\n";

/// The empty input, lines at every limit, and lines of which most cannot be read.
pub fn inputs() -> Vec<String> {
    let lines = [
        Line::Read(vec![0]),
        Line::Archive(vec![0]),
        Line::WriteTransmitter(Transmitter::default(), 0),
        Line::WriteSignal(Signal::default(), vec![0; 6], 0),
    ]
    .map(|line| line.to_string());
    let too_many = vec![0; BYTES_MAX + 1];
    let mut bad = vec![
        String::new(),
        " ".to_string(),
        of_length(LINE_MAX + 1),
        Line::Read(too_many.clone()).to_string(),
        Line::Archive(too_many.clone()).to_string(),
        Line::WriteSignal(Signal::default(), too_many, 0).to_string(),
    ];
    for line in &lines {
        bad.extend(mutilated(line));
    }
    let [.., transmitter, signal] = &lines;
    bad.extend(past_limits(transmitter, &limits(Transmitter::default())));
    bad.extend(past_limits(signal, &limits(Signal::default())));
    let framed = bad.into_iter().map(|line| format!("{BEFORE}{line}{AFTER}"));
    let mut inputs = vec![String::new(), lines.join("\n"), at_limits()];
    inputs.extend(framed);
    inputs
}

/// The line with each word replaced in every way, or left out, and with one more.
fn mutilated(line: &str) -> Vec<String> {
    let words: Vec<&str> = line.split(' ').collect();
    let mut lines = vec![
        format!("{line} "),
        format!(" {line}"),
        format!("{line}\r"),
        format!("{line} 0"),
        line.replace(' ', "  "),
        line.replace(' ', "\t"),
        line.to_uppercase(),
    ];
    for at in 0..words.len() {
        let (before, after) = (&words[..at], &words[at + 1..]);
        lines.push([before, after].concat().join(" "));
        for word in WORDS {
            lines.push([before, &[word], after].concat().join(" "));
        }
    }
    lines
}

/// The line with each field one past the largest number of its type, and far past it.
fn past_limits(line: &str, limits: &[u64]) -> Vec<String> {
    let words: Vec<String> = line.split(' ').map(str::to_string).collect();
    let mut lines = Vec::new();
    for (at, &most) in limits.iter().enumerate() {
        let next = u128::from(most) + 1;
        for number in [next, 10 * next, u128::MAX] {
            let mut words = words.clone();
            // Behind the words of the call and the form.
            words[2 + at] = number.to_string();
            lines.push(words.join(" "));
        }
    }
    lines
}

/// Lines with the largest numbers and the most bytes that they may have, and with zeros in front.
fn at_limits() -> String {
    let (mut transmitter, mut signal) = (Transmitter::default(), Signal::default());
    transmitter.visit(&mut Visit(&mut Largest(Vec::new())));
    signal.visit(&mut Visit(&mut Largest(Vec::new())));
    let most = vec![0; BYTES_MAX];
    let lines = [
        Line::Read(most.clone()),
        Line::Archive(most.clone()),
        Line::WriteTransmitter(transmitter, BYTES_MAX),
        Line::WriteSignal(signal, most, BYTES_MAX),
    ];
    let mut text: String = lines.iter().map(|line| format!("{line}\n")).collect();
    let transmitter = Line::WriteTransmitter(transmitter, 0).to_string();
    text += &format!(
        "{}\n",
        transmitter.replace(" 255", " 00000000000000000000000255")
    );
    text += &format!("{}\n", of_length(LINE_MAX));
    // The last line lacks its end.
    text + &of_length(LINE_MAX)
}

/// A line of so many bytes that can be read, unless it is too long.
fn of_length(bytes: usize) -> String {
    let line = Line::WriteTransmitter(Transmitter::default(), 0).to_string();
    line.clone() + &"0".repeat(bytes - line.len())
}

/// The largest number of each field's type.
fn limits(mut record: impl Fields) -> Vec<u64> {
    let mut limits = Largest(Vec::new());
    record.visit(&mut Visit(&mut limits));
    limits.0
}

/// Gives each field the largest number of its type, and keeps these numbers.
struct Largest(Vec<u64>);

impl Visitor for Largest {
    fn visit(&mut self, _: u64, most: u64) -> u64 {
        self.0.push(most);
        most
    }
}
