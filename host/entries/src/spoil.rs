//! What makes a fitting case unfit: one refusal each, often two at once, so that
//! their order is seen.

use crate::case::{Lists, Place};
use crate::standing::Standing;
use compare::generator::Generator;

/// Numbers at and around every limit, and the largest there are.
pub const NUMBERS: [u32; 24] = [
    0,
    1,
    2,
    3,
    31,
    32,
    33,
    64,
    65,
    1_024,
    1_025,
    65_534,
    65_535,
    65_536,
    1_048_575,
    1_048_576,
    1_048_577,
    16_777_215,
    16_777_216,
    16_777_217,
    1 << 31,
    (1 << 31) - 1,
    u32::MAX - 1,
    u32::MAX,
];

pub fn spoil(g: &mut Generator, standing: &mut Standing) {
    match g.below(8) {
        0 => standing.place.m = g.pick(&[0, 33, 34, 256, 1 << 31, u32::MAX]),
        1 => standing.place.m = 1,
        2 => standing.place.t = g.pick(&[16_777_215, 16_777_216, 1 << 31, u32::MAX]),
        3 => standing.place.t = g.between(0, u32::MAX),
        4 => lengths(g, &mut standing.lists),
        5 => task(g, &mut standing.lists),
        6 => multiple(&mut standing.lists),
        _ => count(g, &mut standing.lists),
    }
}

/// One list has one number more or less than the others, or none.
fn lengths(g: &mut Generator, lists: &mut Lists) {
    let list = match g.below(3) {
        0 => &mut lists.es,
        1 => &mut lists.ps,
        _ => &mut lists.ks,
    };
    match g.below(4) {
        0 | 1 => list.push(1),
        2 => {
            list.pop();
        }
        _ => list.clear(),
    }
}

/// A requirement or a period outside its limits, or both.
fn task(g: &mut Generator, lists: &mut Lists) {
    let n = lists.es.len().min(lists.ps.len());
    if n == 0 {
        return;
    }
    let place = g.below(n);
    let p = lists.ps[place];
    let wrong = [
        (0, p),
        (p, p),
        (p.wrapping_add(1), p),
        (u32::MAX, p),
        (1, 0),
        (1, 1),
        (0, 1),
        (0, 0),
        (1, 65_536),
        (65_535, 65_536),
        (1, u32::MAX),
        (u32::MAX - 1, u32::MAX),
        (u32::MAX, u32::MAX),
        (1 << 31, 1),
    ];
    (lists.es[place], lists.ps[place]) = g.pick(&wrong);
}

/// Two more tasks whose periods have no small multiple.
fn multiple(lists: &mut Lists) {
    lists.es.extend([1, 1]);
    lists.ps.extend([65_521, 65_519]);
    lists.ks.extend([0, 0]);
}

fn count(g: &mut Generator, lists: &mut Lists) {
    if !lists.ks.is_empty() {
        let place = g.below(lists.ks.len());
        lists.ks[place] = g.pick(&NUMBERS);
    }
}

/// Anything at all: any length, mostly up to 70, any numbers.
pub fn wild(g: &mut Generator) -> Standing {
    let n = match g.below(20) {
        0 => 1_000,
        1..=4 => g.pick(&[0, 1, 63, 64, 65]),
        _ => g.between(0, 70) as usize,
    };
    let highest = g.pick(&[3, 10, 70_000, u32::MAX]);
    let mut list = || (0..n).map(|_| number(g, highest)).collect();
    let lists = Lists {
        es: list(),
        ps: list(),
        ks: list(),
    };
    let m = number(g, 40);
    let t = number(g, 20_000_000);
    let mut standing = Standing {
        lists,
        place: Place { m, t },
    };
    if g.one_in(2) {
        make_tasks_fit(&mut standing.lists);
    }
    standing
}

fn number(g: &mut Generator, highest: u32) -> u32 {
    if g.one_in(4) {
        g.pick(&NUMBERS)
    } else {
        g.between(0, highest)
    }
}

/// Requirements and periods within their limits; all else stays wild.
fn make_tasks_fit(lists: &mut Lists) {
    for (e, p) in lists.es.iter_mut().zip(&mut lists.ps) {
        *p = 2 + *p % 11;
        *e = 1 + *e % (*p - 1);
    }
}
