//! A second opinion on policy texts: its own reader, its own judging, its own report, in plain Rust.
//!
//! It is written from what lockjudge must print, not from lockjudge's code, so that a mistake of the one is not a mistake of
//! the other.

pub mod check;
pub mod generate;
pub mod judge;
pub mod operations;
pub mod random;
pub mod reader;
pub mod report;
pub mod sheet;

use reader::Fault;

/// What the program prints for a text, or the fault that it prints instead.
pub fn report_on(text: &[u8]) -> Result<Vec<u8>, Fault> {
    let sheet = reader::read(text)?;
    Ok(report::report(&sheet))
}
