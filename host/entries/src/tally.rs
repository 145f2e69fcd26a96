//! How many cases of each entry, and what they were answered.

use crate::case::Case;
use crate::check::Seen;
use std::fmt;

/// In the order of `Case`.
const ENTRIES: [&str; 5] = ["admission", "comparison", "slot", "run", "listing"];

#[derive(Debug, Clone, Default, PartialEq, Eq)]
pub struct Tally {
    /// By entry: cases, and those that were not refused.
    pub cases: [(u64, u64); 5],
    pub calls: u64,
    /// By refusal number; each case counts once.
    pub refusals: [u64; 11],
    /// Runs that were refused after at least one slot.
    pub stopped: u64,
}

impl Tally {
    pub fn count(&mut self, case: &Case, seen: &[Seen]) {
        let code = seen[0].second.code;
        let number = refusal_number(code);
        let entry = &mut self.cases[entry(case)];
        entry.0 += 1;
        entry.1 += u64::from(number == 0);
        self.refusals[number] += 1;
        self.stopped += u64::from(number > 0 && code >> 40 > 0);
        self.calls += seen.len() as u64;
    }

    /// The refusals from 1 to 10 that no case was given.
    pub fn missing(&self) -> Vec<usize> {
        (1..=10)
            .filter(|&number| self.refusals[number] == 0)
            .collect()
    }
}

fn entry(case: &Case) -> usize {
    match case {
        Case::Admission { .. } => 0,
        Case::Comparison(_) => 1,
        Case::Slot { .. } => 2,
        Case::Run { .. } => 3,
        Case::Listing { .. } => 4,
    }
}

/// The refusal in a code, 0 for none.
pub fn refusal_number(code: u64) -> usize {
    (code >> 32 & 0xFF) as usize
}

impl fmt::Display for Tally {
    fn fmt(&self, f: &mut fmt::Formatter) -> fmt::Result {
        for (name, (cases, done)) in ENTRIES.iter().zip(self.cases) {
            writeln!(f, "{name}: {cases} cases, {done} not refused")?;
        }
        writeln!(f, "runs stopped after at least one slot: {}", self.stopped)?;
        write!(f, "calls {}, refusals", self.calls)?;
        for number in 1..=10 {
            write!(f, " {number}:{}", self.refusals[number])?;
        }
        Ok(())
    }
}
