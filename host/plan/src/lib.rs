//! A plan: a night in words. Turned into frames for `prettavorn`, and frames turned back into words.
//!
//! Nothing proved depends on it, and it never decides what is admissible: whatever a frame's layout can carry is passed on.

pub mod frame;
pub mod kinds;
pub mod line;
pub mod lines;
pub mod malformed;
pub mod name;
pub mod number;
pub mod options;
pub mod quoted;
pub mod reading;
pub mod recognise;
pub mod words;
