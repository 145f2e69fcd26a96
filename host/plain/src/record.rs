//! A task or the spare, with its symbol at one time.

#[derive(Debug, Clone, Copy)]
pub struct Record {
    /// The number whose sign is the symbol at the time i,
    /// e·(i+1) - p·floor(e·i/p) - p: the remainder of e·i, plus e - p.
    pub sign: i32,
    pub e: i32,
    pub p: i32,
    pub place: u32,
}

impl Record {
    pub const NONE: Record = Record {
        sign: 0,
        e: 0,
        p: 0,
        place: 0,
    };

    /// The record one time further.
    pub fn further(self) -> Record {
        Record {
            sign: further(self.sign, self.e, self.p),
            ..self
        }
    }

    /// Equal records have equal strings.
    pub fn same(&self, other: &Record) -> bool {
        self.e == other.e && self.p == other.p
    }
}

/// The number for the symbol one time further: the remainder grows by e, and
/// comes back by p where it would pass it. No branch, as a symbol is hard to
/// foresee: the shift gives all ones below zero and all zeros otherwise.
pub fn further(sign: i32, e: i32, p: i32) -> i32 {
    sign + e - (p & !(sign >> 31))
}
