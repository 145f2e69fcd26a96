//! Fixed scripts of well-formed frames: document 01's cases, and its limits at,
//! below and above their ends.

use crate::frames::{listing, run, Set};
use crate::scripts::Lines;
use crate::sets;

/// A set, and what shows whether it is in force: two slots and a listing.
fn probe(set: &Set) -> Lines {
    vec![set.line(), run(2), listing()]
}

fn probes(sets: &[Set]) -> Lines {
    sets.iter().flat_map(probe).collect()
}

/// The sets of document 01's cases, each run over its round and past it.
pub fn cases() -> Lines {
    let sets = [
        Set::new(1, &[(1, 2), (1, 3)]),
        Set::new(3, &[(1, 3), (2, 4), (5, 7), (8, 11)]),
        Set::new(1, &[(1, 2), (1, 2)]),
        Set::new(1, &[(2, 3), (2, 3)]),
        Set::new(2, &[(2, 3), (2, 3)]),
        Set::new(1, &[(2, 5), (2, 5), (1, 10), (1, 10)]),
        Set::new(1, &[(2, 2)]),
        Set::new(1, &[(1, 2)]),
    ];
    let lines = |set: &Set| {
        [
            set.line(),
            run(6),
            listing(),
            run(18),
            listing(),
            run(1_000),
            listing(),
        ]
    };
    sets.iter().flat_map(lines).collect()
}

/// n at 0, 1, 64 and 65 (which no frame can carry), m at 0, 1, 32, 33 and 255.
pub fn tasks_and_units() -> Lines {
    let mut sets = Vec::new();
    for m in [1, 0, 32, 33, 255, 2, 31, 34] {
        for n in [1, 2, 64, 0, 63, 65] {
            sets.push(Set::new(m, &vec![(1, 2); n]));
            sets.push(Set::new(m, &vec![(1, 64); n]));
        }
    }
    let mut lines = probes(&sets);
    // The number says 65 tasks, and there are 64.
    let mut line = Set::new(1, &[(1, 64); 64]).line();
    line.splice(4..6, *b"41");
    lines.extend([line, run(1), listing()]);
    lines
}

/// p at 0, 1, 2 and 65535, e at 0, 1, p - 1 and p, at the first and last place.
pub fn requirements_and_periods() -> Lines {
    let mut sets = Vec::new();
    for p in [2u16, 0, 1, 3, 65_535, 65_534] {
        for e in [1, 0, p.wrapping_sub(1), p, p.wrapping_add(1), 65_535] {
            sets.push(Set::new(1, &[(e, p)]));
            sets.push(Set::new(2, &[(e, p), (1, 2)]));
            sets.push(Set::new(2, &[(1, 2), (1, 4), (e, p)]));
            sets.push(Set::new(2, &[(1, 2), (e, p), (2, 2), (1, 4)]));
        }
    }
    let place_63 = [vec![(1, 64); 63], vec![(64, 64)]].concat();
    sets.push(Set::new(1, &place_63));
    probes(&sets)
}

/// L at and above its limit, the load at, below and above m·L. L cannot be
/// 1,048,576 itself: its only periods within limits have a smaller multiple.
pub fn multiple_and_load() -> Lines {
    let half = [vec![(1, 2); 63], vec![(2, 3)]].concat();
    probes(&[
        Set::new(1, &[(1, 65_535), (1, 16)]),
        Set::new(1, &[(1, 65_535), (1, 32)]),
        Set::new(1, &[(1, 16), (1, 65_535)]),
        Set::new(1, &[(1, 25_575), (1, 41)]),
        Set::new(1, &[(1, 61_681), (1, 17)]),
        Set::new(1, &[(1, 32_768), (1, 32)]),
        Set::new(1, &[(1, 32_768), (1, 33)]),
        Set::new(32, &[(1, 65_521), (1, 65_519), (1, 65_497), (1, 65_479)]),
        Set::new(1, &[(1, 2), (1, 3), (1, 6)]),
        Set::new(1, &[(1, 2), (1, 3), (1, 7)]),
        Set::new(1, &[(1, 2), (1, 3), (5, 42)]),
        Set::new(1, &[(1, 2), (1, 3), (7, 42)]),
        Set::new(1, &[(1, 2), (1, 3), (8, 42)]),
        Set::new(32, &[(1, 2); 64]),
        Set::new(31, &[(1, 2); 64]),
        Set::new(32, &half),
        Set::new(32, &[(65_534, 65_535); 32]),
        Set::new(32, &[(65_534, 65_535); 33]),
    ])
}

/// Two refusals hold at once; the first in document 01's order is given.
pub fn order_of_refusals() -> Lines {
    let wide = [(65_535, 65_535), (65_533, 65_534)];
    probes(&[
        Set::new(1, &[(1, 2), (1, 3)]),
        Set::new(0, &[]),
        Set::new(33, &[]),
        Set::new(0, &[(0, 0)]),
        Set::new(33, &[(1, 2), (2, 2)]),
        Set::new(0, &[(1, 65_535), (1, 65_534)]),
        Set::new(1, &wide),
        Set::new(1, &[(65_533, 65_534), (65_535, 65_535)]),
        Set::new(1, &[(65_533, 65_534), (65_534, 65_535)]),
        Set::new(1, &[(2, 3), (2, 3), (3, 3)]),
        Set::new(1, &[(3, 3), (0, 3), (2, 3)]),
        Set::new(255, &[(1, 1); 64]),
    ])
}

/// Runs at, below and above their limit, with refused sets in between.
pub fn runs() -> Lines {
    let mut lines = vec![Set::new(3, &[(1, 3), (2, 4), (5, 7), (8, 11)]).line()];
    let lengths = [
        0, 1, 0, 1_024, 1_025, 1, 65_535, 1_023, 32_768, 1_024, 256, 255, 257, 2,
    ];
    for slots in lengths {
        lines.extend([run(slots), listing()]);
        lines.push(Set::new(1, &[(2, 3), (2, 3)]).line());
        lines.push(run(1));
    }
    // The same set again: its time and counts are 0 again.
    lines.extend([lines[0].clone(), listing(), run(15), listing()]);
    lines
}

pub fn long_strings() -> Lines {
    let sets = [
        Set::new(1, &[(1, 65_535), (1, 16)]),
        Set::new(1, &[(1, 16), (1, 65_535)]),
        Set::new(2, &[(65_534, 65_535), (15, 16)]),
        Set::new(1, &[(32_767, 65_535), (32_768, 65_535)]),
        Set::new(1, &[(500, 1_001), (500, 1_000)]),
        Set::new(1, &[(10_922, 21_845), (32_767, 65_535)]),
        Set::new(1, &sets::late(4)),
        Set::new(1, &sets::late(7)),
        Set::new(1, &sets::late(10)),
        Set::new(1, &sets::late(12)),
        Set::new(1, &sets::late(14)),
    ];
    let lines = |set: &Set| {
        [
            set.line(),
            run(17),
            listing(),
            run(1_024),
            listing(),
            run(1),
            run(1),
        ]
    };
    sets.iter().flat_map(lines).collect()
}

/// Many equal tasks, also in other terms, and a spare that ties with a task.
pub fn ties() -> Lines {
    let terms: Vec<(u16, u16)> = (0..64).map(|i| (1 + i % 5, 3 + 3 * (i % 5))).collect();
    let sets = [
        Set::new(32, &[(1, 2); 64]),
        Set::new(32, &[(1, 3); 64]),
        Set::new(32, &terms),
        Set::new(3, &[(2, 3), (2, 3), (2, 3)]),
        Set::new(1, &[(1, 3), (1, 3)]),
        Set::new(1, &[(1, 4), (2, 8), (1, 4)]),
        Set::new(1, &[(1, 4_096); 5]),
    ];
    let lines = |set: &Set| [set.line(), run(4), listing(), run(60), listing()];
    sets.iter().flat_map(lines).collect()
}
