//! The Rust, asked in document 01's terms: whole numbers in, refusal numbers and bits of floats out; and the port beside it.
//!
//! `rust` is the only module that knows the two copies of the Rust, and `port` the only one that knows the port. `plain` and
//! `plain_fit` are document 01 computed with neither. `compare` gives the same inputs to all of them.

pub mod answers;
pub mod cases;
#[cfg(feature = "port")]
pub mod compare;
pub mod evening;
#[cfg(feature = "port")]
pub mod faults;
pub mod inputs;
pub mod paper;
pub mod plain;
pub mod plain_fit;
#[cfg(feature = "port")]
pub mod port;
pub mod random;
pub mod rust;
pub mod sample;
#[cfg(feature = "port")]
pub mod seen;
