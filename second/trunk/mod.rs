//! The station, the trunk's records and its two ends, from documents 01 and 02; and the two programs
//! that show them, the lister and replay.

pub mod far;
pub mod lister;
pub mod near;
pub mod record;
pub mod replay;
pub mod script;
pub mod station;
pub mod word;
