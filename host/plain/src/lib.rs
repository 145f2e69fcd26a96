//! Document 01's program on text frames, in plain Rust and written for speed.
//!
//! It is the measure that the proved program is timed against, so it does what
//! a careful programmer would do and no more: nothing is allocated while it
//! runs, nothing is divided in a slot, and the strings of contenders are
//! compared symbol by symbol.

mod admission;
mod answers;
mod field;
mod frames;
mod hex;
mod order;
mod pairs;
mod record;
mod refusal;
mod serve;
mod session;

pub use serve::{serve, serve_with, Comparing};
