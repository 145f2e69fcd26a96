//! A night as the board shows it: a block for each set in force, with what happened under it in the order asked.

use crate::answered::{Refusal, Standing};
use crate::asked::{Asked, Task};

/// A set in force, as it was asked and as the answer completed it.
#[derive(Clone, Debug, PartialEq, Eq)]
pub struct Set {
    pub asked_line: usize,
    pub units: u32,
    pub tasks: Vec<Task>,
    pub units_in_use: u32,
    pub l: u32,
    pub spare: Option<Task>,
}

/// The standings at a time, with how often each task had run by then.
#[derive(Clone, Debug, PartialEq, Eq)]
pub struct Listing {
    pub asked_line: usize,
    pub time: u32,
    pub standings: Vec<Standing>,
    pub counts: Vec<u32>,
}

/// A line that was refused, and at what time.
#[derive(Clone, Debug, PartialEq, Eq)]
pub struct Refused {
    pub asked_line: usize,
    pub asked: Asked,
    /// The line itself, fit to be shown.
    pub text: String,
    pub refusal: Refusal,
    pub time: u32,
    /// How many slots of a run were done before it.
    pub slots_done: u32,
}

/// One column of a block: a slot, or something asked between slots.
#[derive(Clone, Copy, Debug, PartialEq, Eq)]
pub enum Column {
    Slot {
        time: u32,
        chosen: u64,
    },
    RunBegins {
        asked_line: usize,
        slots: u32,
    },
    /// The place among the block's listings.
    Listed(usize),
    /// The place among the block's refusals.
    Refused(usize),
}

/// What happened under one set, or before any.
#[derive(Clone, Debug, Default, PartialEq, Eq)]
pub struct Block {
    pub set: Option<Set>,
    pub columns: Vec<Column>,
    pub listings: Vec<Listing>,
    pub refusals: Vec<Refused>,
    pub time: u32,
    pub counts: Vec<u32>,
}

/// Where the two files stop fitting each other, and how.
#[derive(Clone, Debug, PartialEq, Eq)]
pub struct Misfit {
    /// "asked" or "answered".
    pub file: &'static str,
    pub line: usize,
    pub why: String,
}

impl std::fmt::Display for Misfit {
    fn fmt(&self, to: &mut std::fmt::Formatter<'_>) -> std::fmt::Result {
        write!(to, "{} line {}: {}", self.file, self.line, self.why)
    }
}

#[derive(Clone, Debug, Default, PartialEq, Eq)]
pub struct Night {
    pub blocks: Vec<Block>,
    /// If there is one, the blocks show what came before it.
    pub misfit: Option<Misfit>,
}

impl Set {
    pub fn always_idle(&self) -> u32 {
        self.units.saturating_sub(self.units_in_use)
    }

    /// The units that the spare took in a slot.
    pub fn idle_by_spare(&self, chosen: u64) -> u32 {
        self.units_in_use.saturating_sub(chosen.count_ones())
    }
}

impl Block {
    /// The block of a set that has just been accepted.
    pub fn of(set: Set) -> Block {
        Block {
            counts: vec![0; set.tasks.len()],
            set: Some(set),
            ..Block::default()
        }
    }

    pub fn slot(&mut self, chosen: u64) {
        self.columns.push(Column::Slot {
            time: self.time,
            chosen,
        });
        for (place, count) in self.counts.iter_mut().enumerate() {
            *count += (chosen >> place & 1) as u32;
        }
        self.time += 1;
    }

    pub fn list(&mut self, asked_line: usize, standings: Vec<Standing>) {
        self.columns.push(Column::Listed(self.listings.len()));
        let counts = self.counts.clone();
        self.listings.push(Listing {
            asked_line,
            time: self.time,
            standings,
            counts,
        });
    }

    pub fn refuse(&mut self, refused: Refused) {
        self.columns.push(Column::Refused(self.refusals.len()));
        self.refusals.push(refused);
    }

    /// The asked line that a column other than a slot stands for.
    pub fn asked_line(&self, column: &Column) -> Option<usize> {
        match column {
            Column::Slot { .. } => None,
            Column::RunBegins { asked_line, .. } => Some(*asked_line),
            Column::Listed(at) => Some(self.listings[*at].asked_line),
            Column::Refused(at) => Some(self.refusals[*at].asked_line),
        }
    }
}
