//! Comparisons with the proved archive and the proved programs, and the second program's checks
//! on itself.

mod absences;
mod answers;
pub mod archive_reading;
mod bundle_cases;
mod bundles;
pub mod codec;
pub mod datagrams;
mod demand3;
pub mod jobs;
mod judge_check;
mod known_cases;
pub mod lister;
mod offers;
mod outputs;
pub mod plans;
pub mod program;
pub mod records;
pub mod replay;
mod self_check;
mod shrink;
mod tail_check;
mod tails;
mod tally;
mod timing_cases;
mod version_cases;
mod version_check;
mod versions;
mod voice_cases;
mod voice_check;
mod writer_check;

pub use answers::compare_one;
pub use outputs::compare_input;
