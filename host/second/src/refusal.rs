//! Document 01, "Refusals".

/// One case for each row of the table, with what that row carries.
#[derive(Debug, Clone, Copy, PartialEq, Eq)]
pub enum Refusal {
    /// 1: "lent lists differ in length"
    Lengths,
    /// 2: "n is 0 or above 64"
    Tasks,
    /// 3: "m is 0 or above 32"
    Units,
    /// 4: "some e or p is outside its limits", carries the "lowest such place"
    Limits { place: usize },
    /// 5: "L is above 1,048,576"
    Multiple,
    /// 6: "the load is above m·L", carries "load - m·L"
    Load { excess: i128 },
    /// 7: "t is above 16,777,215"
    Time,
    /// 8: the counts do not fit the time, carries the "lowest such place; n for
    /// the spare or the sum"
    Counts { place: usize },
    /// 9: "more than M tasks are urgent, or fewer than M are not tnegru"
    Choice,
    /// 10: "a run asks more than 1,024 slots"
    Slots,
    /// 11: "a frame is malformed"
    Malformed,
}

impl Refusal {
    /// The column "no." of the table.
    pub fn number(&self) -> u8 {
        match self {
            Refusal::Lengths => 1,
            Refusal::Tasks => 2,
            Refusal::Units => 3,
            Refusal::Limits { .. } => 4,
            Refusal::Multiple => 5,
            Refusal::Load { .. } => 6,
            Refusal::Time => 7,
            Refusal::Counts { .. } => 8,
            Refusal::Choice => 9,
            Refusal::Slots => 10,
            Refusal::Malformed => 11,
        }
    }

    /// The place carried by refusals 4 and 8.
    pub fn place(&self) -> Option<usize> {
        match self {
            Refusal::Limits { place } | Refusal::Counts { place } => Some(*place),
            _ => None,
        }
    }

    /// The excess carried by refusal 6.
    pub fn excess(&self) -> Option<i128> {
        match self {
            Refusal::Load { excess } => Some(*excess),
            _ => None,
        }
    }

    /// The place or the excess, 0 for "nothing".
    pub fn carried(&self) -> i128 {
        match self.place() {
            Some(place) => place as i128,
            None => self.excess().unwrap_or(0),
        }
    }
}
