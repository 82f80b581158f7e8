//! The inspectors' desk: replays of Y86-64 images by the proved engine, an
//! independent second program, and a deterministic generator of cases to
//! compare the two on.
//!
//! Documents 01 and 02 decide every rule; their words are used throughout.

pub mod engine;
pub mod generate;
pub mod programs;
pub mod second;
