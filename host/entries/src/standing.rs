//! Sets with counts that fit their time, made with the second program's help.

use crate::case::{Lists, Place};
use compare::generator::Generator;
use compare::sets;
use second::{admission, run, slot, Refusal};

/// Document 01: the last time of a slot.
pub const LAST_TIME: u32 = 16_777_215;

/// A set above this L is mostly left out: its strings are slow to read.
const QUICK_L: u64 = 20_000;

#[derive(Debug, Clone, PartialEq, Eq)]
pub struct Standing {
    pub lists: Lists,
    pub place: Place,
}

/// An accepted set at time 0.
pub fn beginning(g: &mut Generator) -> Standing {
    let mut set = sets::accepted(g);
    while !quick(&set.tasks) && !g.one_in(40) {
        set = sets::accepted(g);
    }
    Standing {
        lists: Lists {
            es: set.tasks.iter().map(|task| task.0.into()).collect(),
            ps: set.tasks.iter().map(|task| task.1.into()).collect(),
            ks: vec![0; set.tasks.len()],
        },
        place: Place {
            m: set.m.into(),
            t: 0,
        },
    }
}

fn quick(tasks: &[(u16, u16)]) -> bool {
    sets::multiple(tasks).is_some_and(|l| l <= QUICK_L)
}

/// The counts of a fair run at any time, often close to the calendar's end. All
/// tasks are punctual at each multiple of L, so a run of the rest is enough.
pub fn fair(g: &mut Generator) -> Standing {
    let mut standing = beginning(g);
    let Standing { lists, place } = &mut standing;
    let l = admission(&lists.es, &lists.ps, place.m)
        .expect("accepted")
        .l;
    let (rounds, rest) = rounds_and_rest(g, l);
    let mut log = vec![0; rest as usize * lists.es.len()];
    run(
        rest,
        &lists.es,
        &lists.ps,
        &mut lists.ks,
        &mut log,
        place.m,
        0,
    );
    for (i, k) in lists.ks.iter_mut().enumerate() {
        *k += lists.es[i] * (l / lists.ps[i]) * rounds;
    }
    place.t = rounds * l + rest;
    standing
}

/// Whole rounds of L slots, and slots after them (at most 1,024).
fn rounds_and_rest(g: &mut Generator, l: u32) -> (u32, u32) {
    let near_end = LAST_TIME + 1 - g.pick(&[0, 0, 1, 1, 2, 3, 7, 100]);
    if g.one_in(4) && near_end % l <= 300 {
        return (near_end / l, near_end % l);
    }
    let rest = g.between(0, (2 * l).min(300));
    let most = (LAST_TIME - rest) / l;
    let rounds = g.between(0, most);
    (g.pick(&[0, 0, rounds]), rest)
}

/// Counts that no fair run need have reached, each lag strictly within its
/// bounds and the sum right: a slot off the beaten path, or refusal 9.
pub fn unfair(g: &mut Generator) -> Standing {
    with_counts(g, |g, open, _| g.below(open.len()))
}

/// Refusal 9, as in P6: the tasks with the least need ran, so that too many are
/// urgent. P6 itself, some rounds on, if no set found by chance gets stuck.
pub fn stuck(g: &mut Generator) -> Standing {
    for _ in 0..20 {
        let standing = with_counts(g, |_, open, needs| least(open, needs));
        if is_stuck(&standing) {
            return standing;
        }
    }
    let rounds = g.between(0, LAST_TIME / 10 - 1);
    let lists = Lists {
        es: vec![2, 2, 1, 1],
        ps: vec![5, 5, 10, 10],
        ks: [4, 4, 1, 1]
            .iter()
            .zip([0, 0, 1, 1])
            .map(|(each, k)| each * rounds + k)
            .collect(),
    };
    let t = 10 * rounds + 2;
    Standing {
        lists,
        place: Place { m: 1, t },
    }
}

/// The refusal of a slot there, if any.
fn refusal(standing: &Standing) -> Option<Refusal> {
    let Standing { lists, place } = standing;
    let (mut ks, mut bytes) = (lists.ks.clone(), vec![0; lists.es.len()]);
    slot(&lists.es, &lists.ps, &mut ks, &mut bytes, place.m, place.t).err()
}

fn is_stuck(standing: &Standing) -> bool {
    refusal(standing) == Some(Refusal::Choice)
}

/// What a task has by the next slot above its last whole count: a fraction.
type Need = (u64, u64);

/// Which of the open places is rounded up next; the needs are by place.
type Choose = fn(&mut Generator, &[usize], &[Need]) -> usize;

fn least(open: &[usize], needs: &[Need]) -> usize {
    let below = |a: Need, b: Need| a.0 * b.1 < b.0 * a.1;
    (1..open.len()).fold(0, |best, i| {
        let lower = below(needs[open[i]], needs[open[best]]);
        if lower {
            i
        } else {
            best
        }
    })
}

/// An accepted set at any time, each count e·t/p rounded down or up as chosen.
fn with_counts(g: &mut Generator, choose: Choose) -> Standing {
    let mut standing = beginning(g);
    let far = g.between(0, LAST_TIME);
    let close = g.between(0, 60);
    standing.place.t = g.pick(&[close, close, far]);
    let Standing { lists, place } = &mut standing;
    let set = admission(&lists.es, &lists.ps, place.m).expect("accepted");
    let tasks = lists.es.iter().copied().zip(lists.ps.iter().copied());
    let weights: Vec<(u32, u32)> = tasks.chain(set.spare).collect();
    let sum = u64::from(set.units) * u64::from(place.t);
    let counts = rounded(g, &weights, sum, place.t, choose);
    lists.ks = counts[..lists.es.len()].to_vec();
    standing
}

/// As many counts are rounded up as the sum needs; those of the tasks that would
/// be punctual are whole anyway.
fn rounded(
    g: &mut Generator,
    weights: &[(u32, u32)],
    sum: u64,
    t: u32,
    choose: Choose,
) -> Vec<u32> {
    let (mut counts, mut needs, mut open) = (Vec::new(), Vec::new(), Vec::new());
    for (place, &(e, p)) in weights.iter().enumerate() {
        let (e, p) = (u64::from(e), u64::from(p));
        let due = e * u64::from(t);
        counts.push((due / p) as u32);
        needs.push((due % p + e, p));
        if due % p > 0 {
            open.push(place);
        }
    }
    let floors: u64 = counts.iter().map(|&count| u64::from(count)).sum();
    for _ in floors..sum {
        let chosen = choose(g, &open, &needs);
        counts[open.swap_remove(chosen)] += 1;
    }
    counts
}

/// A fitting standing with one or two counts off by one, or one far off.
pub fn off_by_one(g: &mut Generator) -> Standing {
    let mut standing = if g.one_in(2) { fair(g) } else { unfair(g) };
    let ks = &mut standing.lists.ks;
    let (one, other) = (g.below(ks.len()), g.below(ks.len()));
    match g.below(6) {
        0 | 1 => ks[one] = ks[one].wrapping_add(1),
        2 | 3 => ks[one] = ks[one].wrapping_sub(1),
        4 => {
            ks[one] = ks[one].wrapping_add(1);
            ks[other] = ks[other].wrapping_sub(1);
        }
        _ => ks[one] = g.pick(&[0, u32::MAX, 1 << 31, LAST_TIME]),
    }
    standing
}

#[cfg(test)]
mod tests {
    use super::*;
    use second::listing;

    #[test]
    fn fair_standings_go_on_until_the_calendar_ends() {
        let mut last = 0;
        for seed in 0..400 {
            let standing = fair(&mut Generator::new(seed));
            let late = standing.place.t > LAST_TIME;
            assert_eq!(refusal(&standing), late.then_some(Refusal::Time));
            last = last.max(standing.place.t);
        }
        assert_eq!(last, LAST_TIME + 1);
    }

    fn fits(Standing { lists, place }: &Standing) -> bool {
        let mut bytes = vec![0; lists.es.len()];
        listing(
            &lists.es, &lists.ps, &lists.ks, &mut bytes, place.m, place.t,
        )
        .is_ok()
    }

    #[test]
    fn unfair_counts_fit() {
        for seed in 0..400 {
            assert!(fits(&unfair(&mut Generator::new(seed))));
        }
    }

    #[test]
    fn stuck_counts_fit_and_are_stuck_in_many_sets() {
        let mut sizes = Vec::new();
        for seed in 0..100 {
            let standing = stuck(&mut Generator::new(seed));
            assert!(fits(&standing) && is_stuck(&standing));
            sizes.push(standing.lists.es.len());
        }
        sizes.sort();
        sizes.dedup();
        assert!(sizes.len() > 10, "{sizes:?}");
    }

    #[test]
    fn off_by_one_is_seen_at_a_task_and_at_place_n() {
        let mut seen = [false; 2];
        for seed in 0..400 {
            let standing = off_by_one(&mut Generator::new(seed));
            if let Some(Refusal::Counts { place }) = refusal(&standing) {
                seen[usize::from(place == standing.lists.es.len())] = true;
            }
        }
        assert_eq!(seen, [true; 2]);
    }
}
