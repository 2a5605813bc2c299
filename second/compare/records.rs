//! Compares the archive's check of a trunk record with the second program's own.

use super::answers::{self, Comparison, Subject};
use super::self_check::MARK;
use super::tails::RecordTails;
use super::versions::RecordVersions;
use crate::archive;
use crate::check::{Claim, Report};
use crate::generate::records::RecordGenerator;
use crate::hex;
use crate::pdu::read;
use crate::trunk::record::{self, Kind, HEAD_SIZE};
use std::process::ExitCode;

pub const DEFAULT_COUNT: u64 = 500_000;

/// Each kind's answers stand in the order in which the check tests; 20 and the empty record come
/// before the kind is known. Signals that are taken count by their kinds.
pub const RECORDS: Subject = Subject {
    name: "records",
    call: "altuvrin_record",
    own: record::answer,
    archive: archive::record,
    answers: &[
        ("Record", &[20, 21]),
        ("Reply", &[21, 0]),
        ("Transmitter", &[21, 25, 22, 0]),
        ("Signal", &[21, 25, 22]),
        ("Timing", &[21, 25, 22]),
        ("Kind 0", TAKEN),
        ("Kind 1", TAKEN),
        ("Kind 2", TAKEN),
        ("Kind 3", TAKEN),
        ("Kind 4", TAKEN),
        ("Kind 5", TAKEN),
        ("Kind 6", TAKEN),
        ("Kind 7", TAKEN),
        ("Kind 8", TAKEN),
        ("Kind 9", TAKEN),
        ("Kind 10", TAKEN),
        ("Kind 11", TAKEN),
        ("Kind 12", TAKEN),
        ("Kind 17", TAKEN),
        ("Kind 18", TAKEN),
    ],
    about,
    command: "compare-records",
    command_of_one: "record",
};

const TAKEN: &[u32] = &[0];

fn about(bytes: &[u8], number: u32) -> String {
    match bytes.first().and_then(|&byte| Kind::from_byte(byte)) {
        Some(kind @ (Kind::Signal(_) | Kind::Rtt | Kind::RttReply)) if number == 0 => {
            format!("Kind {}", kind.byte())
        }
        Some(Kind::Signal(_)) => "Signal".to_string(),
        Some(Kind::Rtt | Kind::RttReply) => "Timing".to_string(),
        Some(Kind::Transmitter) => "Transmitter".to_string(),
        Some(Kind::Reply) => "Reply".to_string(),
        None => "Record".to_string(),
    }
}

/// Runs the whole comparison with the self checks and prints the outcome.
pub fn run(seed: u64, count: u64) -> ExitCode {
    let mut generator = RecordGenerator::new(seed);
    let mut written_again = Claim::new("a record that is taken is written as it was read");
    let mut versions = RecordVersions::new();
    let mut tails = RecordTails::new();
    let mut comparison = Comparison::new(&RECORDS, seed);
    let mut report = Report::default();
    answers::run(
        std::slice::from_mut(&mut comparison),
        RECORDS.name,
        (seed, count),
        || generator.record(),
        |bytes| {
            versions.record(bytes);
            tails.record(bytes);
            check_written_again(bytes, &mut written_again);
        },
    );
    let least = answers::least(count);
    comparison.report(least, &mut report);
    versions.report(least, &mut report);
    tails.report(least, &mut report);
    report.count_own(&written_again);
    report.count_own(&sizes());
    report.finish()
}

/// Of a record that carries a PDU: writing it gives its bytes and touches no other.
fn check_written_again(bytes: &[u8], claim: &mut Claim) {
    let Ok(record) = record::check(bytes) else {
        return;
    };
    let Ok(pdu) = read::read(record.pdu) else {
        return;
    };
    let mut output = vec![MARK; bytes.len() + HEAD_SIZE];
    record::put(record.kind, record.number, &pdu, &mut output);
    let holds = output == [bytes, &[MARK; HEAD_SIZE]].concat();
    claim.sample(holds, || hex::encode(bytes));
}

/// Document 01, "Sizes and edges", and document 02, R-1: the kinds of records by their bytes, with
/// their sizes.
fn sizes() -> Claim {
    let mut claim = Claim::new("sizes of records");
    let words = [(0, 65), (1, 73), (2, 85), (12, 185)];
    let others = [(16, 117), (17, 65), (18, 65), (32, 5)];
    for (byte, size) in words.into_iter().chain(others) {
        let found = Kind::from_byte(byte).map(Kind::size);
        claim.sample(found == Some(size), || format!("kind {byte}: {found:?}"));
    }
    let kinds = (0..=u8::MAX).filter(|&byte| Kind::from_byte(byte).is_some());
    let known = kinds.count();
    claim.sample(known == 17, || format!("{known} kinds"));
    claim
}
