//! The board: what `prettavorn` was asked and what it answered, laid out for a person.
//!
//! A view only: nothing proved depends on it. It reads both sides of document 01's frames and counts; it never decides who runs.

pub mod answered;
pub mod asked;
pub mod bands;
pub mod cells;
pub mod grid;
pub mod lines;
pub mod night;
pub mod options;
pub mod page;
pub mod pairing;
pub mod picture;
pub mod program;
pub mod svg;
pub mod words;
