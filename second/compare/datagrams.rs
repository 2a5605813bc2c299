//! Compares the archive's answers to datagrams with those of the second program's own reader, live and
//! of old captures: of each datagram its first PDU is read.

use super::answers::{self, Comparison, Subject};
use super::archive_reading::{ArchiveReading, ARCHIVE_READING};
use super::self_check::SelfChecks;
use super::tails::DatagramTails;
use super::versions::DatagramVersions;
use crate::archive;
use crate::check::Report;
use crate::generate::datagrams::Generator;
use crate::pdu::{self, layout, read};
use std::process::ExitCode;

pub const DEFAULT_COUNT: u64 = 1_000_000;

/// The answers of both readings, in the order of document 01, "The numbers"; refusals 1 to 3 come
/// before the kind of PDU is known. Signals of types 1 to 5 are told apart where rules of their own
/// decide.
pub const DATAGRAM: &[u32] = &[1, 2, 3];
pub const TRANSMITTER: &[u32] = &[4, 5, 6, 7, 64, 8, 9, 0];
pub const SIGNAL: &[u32] = &[
    4, 10, 11, 12, 8, 131, 132, 133, 134, 135, 136, 137, 138, 14, 15, 0,
];
pub const TIMING: &[u32] = &[14, 0];
/// Live reading of voice.
const RETIRED: &[u32] = &[50];

pub const DATAGRAMS: Subject = Subject {
    name: "datagrams",
    call: "altuvrin_datagram",
    own: read::answer,
    archive: archive::datagram,
    answers: &[
        ("Datagram", DATAGRAM),
        ("Transmitter", TRANSMITTER),
        ("Signal", SIGNAL),
        ("Type 1", TIMING),
        ("Type 2", TIMING),
        ("Type 3", RETIRED),
        ("Type 4", RETIRED),
        ("Type 5", RETIRED),
    ],
    about,
    command: "compare",
    command_of_one: "one",
};

/// What an answer of this number to a datagram is about.
pub fn about(datagram: &[u8], number: u32) -> String {
    let transmitter = Some(u64::from(pdu::TRANSMITTER_TYPE));
    if (1..=3).contains(&number) {
        "Datagram".to_string()
    } else if layout::PDU_TYPE.get(datagram) == transmitter {
        "Transmitter".to_string()
    } else {
        about_signal(datagram, number)
    }
}

fn about_signal(signal: &[u8], number: u32) -> String {
    match layout::MESSAGE_TYPE.get(signal) {
        Some(message_type @ 1..=5) if [0, 50, 14, 15].contains(&number) => {
            format!("Type {message_type}")
        }
        _ => "Signal".to_string(),
    }
}

/// Runs the whole comparison with the self checks and prints the outcome.
pub fn run(seed: u64, count: u64) -> ExitCode {
    let mut generator = Generator::new(seed);
    let mut self_checks = SelfChecks::new();
    let mut archive_reading = ArchiveReading::new();
    let mut versions = DatagramVersions::new();
    let mut tails = DatagramTails::new();
    let mut comparisons =
        [&DATAGRAMS, &ARCHIVE_READING].map(|subject| Comparison::new(subject, seed));
    let mut report = Report::default();
    answers::run(
        &mut comparisons,
        DATAGRAMS.name,
        (seed, count),
        || generator.datagram(),
        |datagram| {
            archive_reading.datagram(datagram);
            versions.datagram(datagram);
            tails.datagram(datagram);
            self_checks.datagram(datagram);
        },
    );
    let least = answers::least(count);
    for comparison in &comparisons {
        comparison.report(least, &mut report);
    }
    archive_reading.report(least, &mut report);
    versions.report(least, &mut report);
    tails.report(least, &mut report);
    self_checks.finish(&mut generator, &mut report);
    report.finish()
}
