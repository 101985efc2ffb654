//! What an event and a verdict cost: the archive, the second program and an unproved twin, in one process and on the same inputs.
//!
//! docs/BENCH.md says how to run it and what the figures mean.

pub mod callgrind;
pub mod cases;
pub mod contenders;
pub mod count;
pub mod plain;
pub mod stack;
pub mod timing;
pub mod twin;
