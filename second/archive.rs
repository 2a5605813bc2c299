//! The proved archive, called as a C host calls it (host/altuvrin.h).

use crate::pdu::read::Answer;

extern "C" {
    pub fn altuvrin_datagram(bytes: *const u8, length: usize) -> u64;
    pub fn altuvrin_archive(bytes: *const u8, length: usize) -> u64;
    pub fn altuvrin_record(bytes: *const u8, length: usize) -> u64;
}

/// The archive's answer to a datagram.
pub fn datagram(bytes: &[u8]) -> Answer {
    // SAFETY: the pointer and the length are those of a slice, which the archive only reads.
    unpack(unsafe { altuvrin_datagram(bytes.as_ptr(), bytes.len()) })
}

/// The archive's answer to a datagram of an old capture, by archive reading.
pub fn archive_reading(bytes: &[u8]) -> Answer {
    // SAFETY: as for a datagram.
    unpack(unsafe { altuvrin_archive(bytes.as_ptr(), bytes.len()) })
}

/// The archive's answer to a record.
pub fn record(bytes: &[u8]) -> Answer {
    // SAFETY: as for a datagram.
    unpack(unsafe { altuvrin_record(bytes.as_ptr(), bytes.len()) })
}

fn unpack(answer: u64) -> Answer {
    Answer {
        number: (answer >> 32) as u32,
        size: answer as u32,
    }
}
