//! All tests, in one program so that they build fast.

mod command;
mod faults;
mod layout;
mod night;
mod round_trip;
