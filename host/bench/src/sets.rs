//! The sets that are timed, a function for each kind.
//!
//! Weights lie about 0.4, so that M is between n/4 and n/2.

use crate::dice::Dice;

/// A requirement and a period for each task.
pub type Set = Vec<(u32, u32)>;

#[derive(Debug, Clone, Copy, PartialEq, Eq)]
pub enum Spare {
    With,
    /// The weights add up to a whole number.
    Without,
}

/// Tasks that share a period; n is a multiple of it.
const GROUP: usize = 4;
/// All periods of `short_periods` divide it.
const SHORT_L: u32 = 5_040;
/// All periods of `long_periods` divide it.
const LONG_L: u32 = 720_720;

/// Periods from 2 to 16, L at most 5,040.
pub fn short_periods(n: usize, spare: Spare, seed: u64) -> Set {
    set(n, &divisors(SHORT_L, 2, 16), spare, seed)
}

/// Periods from 300 to 8,000, L at most 720,720.
pub fn long_periods(n: usize, spare: Spare, seed: u64) -> Set {
    set(n, &divisors(LONG_L, 300, 8_000), spare, seed)
}

/// All tasks equal, so that contenders tie: 331/1009, or 3/8 without a spare.
pub fn ties(n: usize, spare: Spare) -> Set {
    match spare {
        Spare::With => vec![(331, 1_009); n],
        Spare::Without => vec![(3, 8); n],
    }
}

fn divisors(l: u32, least: u32, most: u32) -> Vec<u32> {
    (least..=most).filter(|p| l.is_multiple_of(*p)).collect()
}

/// The first set of these dice that is of the kind asked for. Without a spare
/// each is; with one a whole number may come up by chance.
fn set(n: usize, periods: &[u32], spare: Spare, seed: u64) -> Set {
    let mut dice = Dice::new(seed);
    loop {
        let set = groups(n, periods, spare, &mut dice);
        if has_spare(&set) == (spare == Spare::With) {
            return set;
        }
    }
}

/// Groups of four tasks with one period each. Without a spare each group's
/// requirements add up to a multiple of its period. The tasks of a group stand
/// n/4 places apart.
fn groups(n: usize, periods: &[u32], spare: Spare, dice: &mut Dice) -> Set {
    let mut set = vec![(0, 0); n];
    for first in 0..n / GROUP {
        let p = dice.pick(periods);
        for (i, e) in group(p, spare, dice).into_iter().enumerate() {
            set[first + i * (n / GROUP)] = (e, p);
        }
    }
    set
}

fn group(p: u32, spare: Spare, dice: &mut Dice) -> [u32; GROUP] {
    loop {
        let mut requirements = [0; GROUP].map(|_| requirement(p, dice));
        if spare == Spare::With {
            return requirements;
        }
        let others: u32 = requirements[1..].iter().sum();
        requirements[0] = (p - others % p) % p;
        if requirements[0] > p / 10 && requirements[0] <= p * 7 / 10 {
            return requirements;
        }
    }
}

fn requirement(p: u32, dice: &mut Dice) -> u32 {
    dice.between((p / 8).max(1), (p * 2 / 3).max(1))
}

/// Whether the weights do not add up to a whole number.
fn has_spare(set: &Set) -> bool {
    let load: u64 = set.iter().map(|&(e, p)| u64::from(e * (LONG_L / p))).sum();
    !load.is_multiple_of(u64::from(LONG_L))
}
