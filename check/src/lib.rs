//! The outside check of the processor: a model from the paper, the harness that compares the
//! compiled library with it, and the yardstick of the benchmark.

// the model is written as the paper reads, not as clippy would
#![allow(clippy::needless_range_loop, clippy::nonminimal_bool, clippy::manual_is_multiple_of)]

pub mod examples;
pub mod fast;
pub mod faults;
pub mod gen;
pub mod guests;
pub mod harness;
pub mod lib_under_test;
pub mod model;
pub mod seal;
#[cfg(target_arch = "x86_64")]
pub mod stack;
#[cfg(feature = "stub")]
pub mod stub;
