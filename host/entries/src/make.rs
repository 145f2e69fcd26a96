//! How a seed makes cases. Case number i of a seed has a generator of its own.

use crate::case::{Case, Comparison};
use crate::spoil::{spoil, wild, NUMBERS};
use crate::standing::{beginning, fair, off_by_one, stuck, unfair, Standing, LAST_TIME};
use compare::generator::Generator;
use compare::sets;

pub fn case(seed: u64, number: u64) -> Case {
    let g = &mut Generator::of_script(seed, number);
    match g.below(16) {
        0..=3 => admission(g),
        4..=6 => Case::Comparison(comparison(g)),
        7..=10 => slot(g),
        11..=13 => run(g),
        _ => listing(g),
    }
}

/// Counts are wild at times, for a record's count is not looked at. The answer
/// has room for four numbers, or for fewer or more.
fn admission(g: &mut Generator) -> Case {
    let mut standing = match g.below(6) {
        0..=1 => beginning(g),
        2..=3 => refused(g),
        _ => wild(g),
    };
    if g.one_in(3) {
        spoil(g, &mut standing);
    }
    for k in &mut standing.lists.ks {
        *k = g.pick(&NUMBERS);
    }
    let few = g.between(0, 9) as usize;
    Case::Admission {
        lists: standing.lists,
        m: standing.place.m,
        room: g.pick(&[4, 4, few]),
    }
}

/// A set that no frame or list may carry, as it is known why.
fn refused(g: &mut Generator) -> Standing {
    let set = match g.below(4) {
        0 => sets::over_by_one(g),
        1 => sets::full(g),
        2 => sets::short_by_one(g),
        _ => sets::refused(g),
    };
    let mut standing = beginning(g);
    standing.lists.es = set.tasks.iter().map(|task| task.0.into()).collect();
    standing.lists.ps = set.tasks.iter().map(|task| task.1.into()).collect();
    standing.lists.ks = vec![0; set.tasks.len()];
    standing.place.m = set.m.into();
    standing
}

/// A set where it stands, fitting or not.
fn standing(g: &mut Generator) -> Standing {
    let mut standing = match g.below(12) {
        0..=4 => fair(g),
        5..=6 => unfair(g),
        7 => stuck(g),
        8..=9 => off_by_one(g),
        10 => refused(g),
        _ => wild(g),
    };
    for _ in 0..g.pick(&[0, 0, 0, 0, 1, 2]) {
        spoil(g, &mut standing);
    }
    standing
}

/// Mostly the right length.
fn length(g: &mut Generator, right: usize) -> usize {
    match g.below(24) {
        0 => right + 1,
        1 => right.saturating_sub(1),
        2 => 0,
        3 => right + 64,
        _ => right,
    }
}

fn slot(g: &mut Generator) -> Case {
    let Standing { lists, place } = standing(g);
    let length = length(g, lists.es.len());
    Case::Slot {
        lists,
        length,
        place,
    }
}

fn listing(g: &mut Generator) -> Case {
    let Standing { lists, place } = standing(g);
    let length = length(g, lists.es.len());
    Case::Listing {
        lists,
        length,
        place,
    }
}

fn run(g: &mut Generator) -> Case {
    let Standing { lists, place } = standing(g);
    let slots = slots(g, &lists.ps);
    // A log for more slots than a run may have is not needed in full.
    let right = slots.min(1_025) as usize * lists.es.len();
    let length = length(g, right);
    Case::Run {
        slots,
        lists,
        length,
        place,
    }
}

/// Long runs for short strings only: a program that keeps no strings reads them
/// again in each slot.
fn slots(g: &mut Generator, periods: &[u32]) -> u32 {
    let long = periods.iter().map(|&p| u64::from(p)).sum::<u64>() > 2_000;
    match g.below(12) {
        0 => 0,
        1 => 1,
        2 => g.pick(&[1_025, 1_026, 65_536, 1 << 31, u32::MAX]),
        3 if !long => g.pick(&[1_023, 1_024]),
        4 if !long => g.between(0, 1_025),
        5 | 6 if !long => g.between(0, 130),
        _ => g.between(0, 12),
    }
}

/// Any two records, valid or not, at any time.
fn comparison(g: &mut Generator) -> Comparison {
    let (e, p) = record(g);
    let [(e, p), (e2, p2)] = match g.below(6) {
        0 => [(e, p), akin(g, e, p)],
        1 => [(e, p), (e, p)],
        2 => late(g),
        _ => [(e, p), record(g)],
    };
    let t = time(g, p);
    if g.one_in(2) {
        return Comparison { e, p, e2, p2, t };
    }
    Comparison {
        e: e2,
        p: p2,
        e2: e,
        p2: p,
        t,
    }
}

/// Strings that differ late.
fn late(g: &mut Generator) -> [(u32, u32); 2] {
    if g.one_in(4) {
        return g.pick(&[
            [(10_922, 21_845), (32_767, 65_535)],
            [(1, 65_535), (2, 65_535)],
            [(1, 65_534), (1, 65_535)],
            [(65_533, 65_534), (65_534, 65_535)],
        ]);
    }
    sets::late(g.between(3, 14)).map(|(e, p)| (e.into(), p.into()))
}

fn record(g: &mut Generator) -> (u32, u32) {
    let most = g.pick(&[12, 12, 300, 300, 3_000, 65_535]);
    let p = g.between(2, most);
    let e = g.between(1, p - 1);
    match g.below(12) {
        0 => (g.pick(&NUMBERS), g.pick(&NUMBERS)),
        1 => (g.pick(&[0, p, p + 1]), p),
        2 => (1, p),
        3 => (p - 1, p),
        _ => (e, p),
    }
}

/// The same weight in other terms, or one close to it.
fn akin(g: &mut Generator, e: u32, p: u32) -> (u32, u32) {
    let times = g.between(2, 5);
    g.pick(&[
        (e.wrapping_mul(times), p.wrapping_mul(times)),
        (e, p.wrapping_add(1)),
        (e.wrapping_add(1), p.wrapping_add(1)),
        (p.wrapping_sub(e), p),
    ])
}

/// Any time, often one where the first record's symbol is 0 or soon will be.
fn time(g: &mut Generator, p: u32) -> u32 {
    let any = g.between(0, LAST_TIME);
    let rounds = any / p.max(1) * p.max(1);
    let close = rounds.saturating_sub(g.between(0, 3));
    let small = g.between(0, 30);
    let limit = g.pick(&NUMBERS);
    let wild = g.between(0, u32::MAX);
    g.pick(&[small, small, small, any, any, close, close, limit, wild])
}
