//! A sample of the trunk's main job, for `make run`, and the PDUs it is made of.

pub mod exercise;
pub mod tell;
pub mod units;
