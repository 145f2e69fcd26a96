//! The entries of document 01 on free inputs: the proved library, through its
//! doors, against the second program's functions.

pub mod arguments;
pub mod case;
pub mod check;
pub mod doors;
pub mod lent;
pub mod make;
pub mod published;
pub mod report;
pub mod second_answers;
pub mod spoil;
pub mod standing;
pub mod tally;
pub mod watch;
