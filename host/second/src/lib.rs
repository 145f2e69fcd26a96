//! A plain second program for document 01 ("Scope and exact rules").
//!
//! Nothing here is clever. Every piece is read off the sentence of document 01
//! that stands above it, so that its answers can be compared with those of
//! another program.

mod entries;
mod frames;
mod refusal;
mod rule;
pub mod words;

pub use entries::{admission, comparison, listing, run, slot, Admitted, RunAnswer, Winner};
pub use frames::{serve, Session};
pub use refusal::Refusal;
pub use rule::{gcd, string, symbol, Symbol, MINUS, PLUS, ZERO};
