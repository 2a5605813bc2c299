//! The lister (document 01, "Sizes and edges"): trunk records end to end, one line for each.

use super::record::{self, Kind, Record};

const HEADING: &str = "record kind number bytes\n";

/// What the lister prints; it stops at a refusal.
pub fn list(bytes: &[u8]) -> String {
    let mut text = HEADING.to_string();
    for (index, bytes) in split(bytes).into_iter().enumerate() {
        let checked = record::check(bytes);
        let what = match &checked {
            Ok(record) => describe(record),
            Err(refusal) => format!("refused {}", refusal.number()),
        };
        text += &format!("{index} {what}\n");
        if checked.is_err() {
            break;
        }
    }
    text
}

fn describe(record: &Record) -> String {
    let kind = match record.kind {
        Kind::Signal(_) | Kind::Rtt | Kind::RttReply => "signal",
        Kind::Transmitter => "transmitter",
        Kind::Reply => "ack",
    };
    format!("{kind} {} {}", record.number, record.kind.size())
}

/// Cuts the bytes into records by their kinds. Where the kind is unknown, or the last record is
/// cut, all that is left is one piece.
pub fn split(mut bytes: &[u8]) -> Vec<&[u8]> {
    let mut pieces = Vec::new();
    while let Some(&byte) = bytes.first() {
        let size = Kind::from_byte(byte).map_or(bytes.len(), Kind::size);
        let (piece, rest) = bytes.split_at(size.min(bytes.len()));
        pieces.push(piece);
        bytes = rest;
    }
    pieces
}
