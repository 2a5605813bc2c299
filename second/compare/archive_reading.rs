//! Archive reading (document 02, R-4): compares the archive's answers with the second program's own,
//! and holds them against its answers of live reading.

use super::answers::Subject;
use super::datagrams::{self, DATAGRAM, SIGNAL, TIMING, TRANSMITTER};
use crate::archive;
use crate::check::{Claim, Report};
use crate::hex;
use crate::pdu::layout;
use crate::pdu::read::{self, Answer};

/// What archive reading answers where live reading answers 50.
const VOICE: &[u32] = &[15, 0];

pub const ARCHIVE_READING: Subject = Subject {
    name: "datagrams",
    call: "altuvrin_archive",
    own: read::archive_answer,
    archive: archive::archive_reading,
    answers: &[
        ("Datagram", DATAGRAM),
        ("Transmitter", TRANSMITTER),
        ("Signal", SIGNAL),
        ("Type 1", TIMING),
        ("Type 2", TIMING),
        ("Type 3", VOICE),
        ("Type 4", VOICE),
        ("Type 5", VOICE),
    ],
    about: datagrams::about,
    command: "compare",
    command_of_one: "archive",
};

/// The archive's two readings of the same datagrams.
pub struct ArchiveReading {
    differs_at_50: Claim,
    /// So many datagrams live reading refused with 50; so many of these archive reading took, and to
    /// so many it answered 15.
    retired: u64,
    taken: u64,
    too_long: u64,
}

impl ArchiveReading {
    pub fn new() -> Self {
        ArchiveReading {
            differs_at_50: Claim::new(
                "altuvrin_archive answers otherwise just where 50 is answered",
            ),
            retired: 0,
            taken: 0,
            too_long: 0,
        }
    }

    pub fn datagram(&mut self, datagram: &[u8]) {
        let live = archive::datagram(datagram);
        let archived = archive::archive_reading(datagram);
        let is_retired = live.number == 50;
        let length = layout::LENGTH.get(datagram);
        let is_taken = archived.number == 0 && Some(u64::from(archived.size)) == length;
        let is_too_long = archived.number == 15 && archived.size == 0;
        let holds = if is_retired {
            is_taken || is_too_long
        } else {
            archived == live
        };
        self.differs_at_50
            .sample(holds, || describe(datagram, live, archived));
        self.retired += u64::from(is_retired);
        self.taken += u64::from(is_retired && is_taken);
        self.too_long += u64::from(is_retired && is_too_long);
    }

    /// Counts the claim, and that both answers occur in the place of 50.
    pub fn report(&self, least: u64, report: &mut Report) {
        report.count(&self.differs_at_50);
        let mut claim = Claim::new(format!(
            "of {} that altuvrin_datagram refuses with 50, altuvrin_archive takes {} and answers 15 to {}",
            self.retired, self.taken, self.too_long
        ));
        claim.sample(self.taken.min(self.too_long) >= least, || {
            format!("not {least} of each")
        });
        report.count(&claim);
    }
}

fn describe(datagram: &[u8], live: Answer, archived: Answer) -> String {
    let datagram = hex::encode(datagram);
    format!("{live:?} and by archive reading {archived:?} to {datagram}")
}
