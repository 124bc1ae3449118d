//! Paired rounding and bound runs for ML-DSA: the dealer, the two sides,
//! their messages and the line program.
//!
//! An independent implementation that other programs can be compared with,
//! byte for byte and in time.

#![forbid(unsafe_code)]

pub mod dealer;
pub mod field;
pub mod line_program;
pub mod message;
pub mod plain;
pub mod random;
pub mod refusal;
mod rounds;
pub mod settings;
pub mod shared;
pub mod side;
pub mod transcript;

#[cfg(test)]
mod tests;
