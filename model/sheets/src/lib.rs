//! Sheets to try a planner with. Nothing here need be believed: every sheet is judged by the package `model`.

#![forbid(unsafe_code)]

pub mod cases;
pub mod deep;
pub mod examples;
pub mod random;
pub mod runs;
pub mod source;
pub mod write;
pub mod written_out;
