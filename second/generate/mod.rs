//! Random inputs for the comparisons; the same seed gives the same ones.

pub mod codec_cases;
pub mod codec_lines;
pub mod datagrams;
pub mod line_cases;
pub mod records;
pub mod scripts;
pub mod streams;
mod tails;
mod traffic;
