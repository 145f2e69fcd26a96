//! Document 01, "The rule of a slot".

use std::cmp::Ordering;

/// "written -, 0 or +", and "- below 0 below +": the numbers stand in that order.
pub type Symbol = u8;
pub const MINUS: Symbol = 0;
pub const ZERO: Symbol = 1;
pub const PLUS: Symbol = 2;

/// A task with its count, or the spare with its count.
#[derive(Debug, Clone, Copy, PartialEq, Eq)]
pub struct Entry {
    pub e: i128,
    pub p: i128,
    pub k: i128,
}

#[derive(Debug, Clone, Copy, PartialEq, Eq)]
pub enum Class {
    Tnegru,
    Urgent,
    Contending,
}

/// "Euclid's rule".
pub fn gcd(a: i128, b: i128) -> i128 {
    if b == 0 {
        a
    } else {
        gcd(b, a % b)
    }
}

/// "Symbol of a task at time i: the sign of e·(i+1) - p·floor(e·i/p) - p".
/// The period is above 0, so `div_euclid` is the floor.
pub fn symbol(e: i128, p: i128, i: i128) -> Symbol {
    let value = e * (i + 1) - p * (e * i).div_euclid(p) - p;
    match value.cmp(&0) {
        Ordering::Less => MINUS,
        Ordering::Equal => ZERO,
        Ordering::Greater => PLUS,
    }
}

/// "String of a task at t: its symbols at t+1, t+2, ... up to and including the
/// first 0." It ends for every 0 < e < p, as the symbol at p - 1, 2p - 1, ... is 0.
pub fn string(e: i128, p: i128, t: i128) -> Vec<Symbol> {
    let mut symbols = Vec::new();
    let mut i = t + 1;
    loop {
        let s = symbol(e, p, i);
        symbols.push(s);
        if s == ZERO {
            return symbols;
        }
        i += 1;
    }
}

/// "The lag times period of a task is e·t - p·k."
pub fn lag_times_period(entry: &Entry, t: i128) -> i128 {
    entry.e * t - entry.p * entry.k
}

/// "Tnegru: ahead, and its symbol at t is not +. Urgent: behind, and its symbol
/// at t is not -. Contending: neither."
pub fn class(entry: &Entry, t: i128) -> Class {
    let lag = lag_times_period(entry, t);
    let now = symbol(entry.e, entry.p, t);
    if lag < 0 && now != PLUS {
        Class::Tnegru
    } else if lag > 0 && now != MINUS {
        Class::Urgent
    } else {
        Class::Contending
    }
}

/// Which of two tasks goes first by their strings: `Less` if the one with string
/// `a` does. The greater string goes first (P8: "-0" against "0", second wins).
pub fn order(a: &[Symbol], b: &[Symbol]) -> Ordering {
    b.cmp(a)
}

/// A string that was read at the time `from`, kept for the slots after it.
#[derive(Debug, Clone, Default)]
struct Kept {
    from: i128,
    symbols: Vec<Symbol>,
}

impl Kept {
    fn holds(&self, t: i128) -> bool {
        self.from <= t && t < self.from + self.symbols.len() as i128
    }

    /// The string at t is the string at `from` without its first t - from
    /// symbols, as long as the closing 0 is still among the rest.
    fn at(&self, t: i128) -> &[Symbol] {
        &self.symbols[(t - self.from) as usize..]
    }
}

/// The strings of one set, by place. One set only: the requirements and periods
/// must be the same at each use.
#[derive(Debug, Clone, Default)]
pub struct Strings {
    kept: Vec<Kept>,
}

impl Strings {
    /// Makes the strings at t of these places ready.
    fn read(&mut self, entries: &[Entry], places: &[usize], t: i128) {
        self.kept.resize(entries.len(), Kept::default());
        for &place in places {
            if !self.kept[place].holds(t) {
                let symbols = string(entries[place].e, entries[place].p, t);
                self.kept[place] = Kept { from: t, symbols };
            }
        }
    }

    /// "Order of contenders: compare strings [...]. Equal strings tie, and the
    /// lower place goes first. The spare has the highest place."
    pub fn sort(&mut self, entries: &[Entry], places: &mut [usize], t: i128) {
        self.read(entries, places, t);
        let kept = &self.kept;
        places.sort_by(|&a, &b| order(kept[a].at(t), kept[b].at(t)).then(a.cmp(&b)));
    }
}
