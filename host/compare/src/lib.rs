//! The differential driver for document 01's frames: two programs read the same
//! lines, and what they write has to be the same byte for byte.

pub mod arguments;
pub mod check;
pub mod cuts;
pub mod fixed;
pub mod frames;
pub mod generator;
pub mod limits;
pub mod long;
pub mod malformed;
pub mod pipe;
pub mod program;
pub mod report;
pub mod scripts;
pub mod sets;
pub mod shrink;
pub mod smaller;
pub mod tally;
