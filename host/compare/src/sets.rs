//! Sets of many shapes, made so that it is known what they are.

use crate::frames::Set;
use crate::generator::Generator;

/// Document 01, "Limits".
pub const MOST_TASKS: usize = 64;
pub const MOST_UNITS: u32 = 32;
pub const MOST_L: u64 = 1_048_576;

/// Multiples with many divisors, and some with few: powers of two and of three,
/// a prime, 65,535 itself and numbers close to the limit of L.
const MULTIPLES: [u32; 24] = [
    2, 3, 4, 6, 12, 24, 30, 60, 64, 97, 120, 210, 360, 729, 840, 2_520, 5_040, 27_720, 32_768,
    55_440, 65_535, 720_720, 983_040, 1_048_320,
];

pub fn gcd(a: u64, b: u64) -> u64 {
    if b == 0 {
        a
    } else {
        gcd(b, a % b)
    }
}

/// L of valid tasks, or nothing if it is above its limit.
pub fn multiple(tasks: &[(u16, u16)]) -> Option<u64> {
    tasks.iter().try_fold(1, |l, &(_, p)| {
        let l = l / gcd(l, p.into()) * u64::from(p);
        (l <= MOST_L).then_some(l)
    })
}

pub fn load(tasks: &[(u16, u16)], l: u64) -> u64 {
    tasks
        .iter()
        .map(|&(e, p)| u64::from(e) * l / u64::from(p))
        .sum()
}

/// A set of any shape that is accepted.
pub fn accepted(g: &mut Generator) -> Set {
    match g.below(16) {
        0..=3 => with_room(g, small),
        4..=6 => with_room(g, shared),
        7..=8 => full(g),
        9 => short_by_one(g),
        10..=12 => with_room(g, ties),
        13 => with_room(g, near),
        14 => with_room(g, long),
        _ => single(g),
    }
}

/// A set of any shape that is refused, with any of the refusals 2 to 6.
pub fn refused(g: &mut Generator) -> Set {
    match g.below(8) {
        0 => Set::new(g.pick(&[0, 1, 32, 33]), &[]),
        1 => wrong_units(g),
        2..=3 => spoiled(g),
        4 => above_l(g),
        5 => over_by_one(g),
        6 => overloaded(g),
        _ => wrong_twice(g),
    }
}

/// The units a set of such tasks needs, after its requirements were halved until
/// 32 units are enough; a set with requirements of 1 always fits.
fn with_room(g: &mut Generator, tasks: fn(&mut Generator) -> Vec<(u16, u16)>) -> Set {
    let mut tasks = tasks(g);
    let l = multiple(&tasks).expect("tasks made with an L within its limit");
    while load(&tasks, l).div_ceil(l) > u64::from(MOST_UNITS) {
        for task in &mut tasks {
            task.0 = (task.0 / 2).max(1);
        }
    }
    let least = load(&tasks, l).div_ceil(l) as u32;
    let m = match g.below(4) {
        0 => MOST_UNITS,
        1 => g.between(least, MOST_UNITS),
        _ => least,
    };
    Set { m: m as u8, tasks }
}

fn task(g: &mut Generator, p: u32) -> (u16, u16) {
    let e = match g.below(6) {
        0 => 1,
        1 => p - 1,
        _ => g.between(1, p - 1),
    };
    (e as u16, p as u16)
}

/// Few tasks with small periods.
fn small(g: &mut Generator) -> Vec<(u16, u16)> {
    let n = g.between(1, 8);
    let periods: Vec<u32> = (0..n).map(|_| g.between(2, 12)).collect();
    periods.into_iter().map(|p| task(g, p)).collect()
}

/// The periods that divide `l`.
fn periods_of(l: u32) -> Vec<u32> {
    (2..=l.min(65_535))
        .filter(|p| l.is_multiple_of(*p))
        .collect()
}

/// Up to 64 tasks whose periods divide one multiple.
fn shared(g: &mut Generator) -> Vec<(u16, u16)> {
    let periods = periods_of(g.pick(&MULTIPLES));
    let ends = g.pick(&[1, 2, 63, 64]);
    let between = g.between(1, MOST_TASKS as u32);
    let n = g.pick(&[ends, between, between.div_ceil(4)]);
    (0..n)
        .map(|_| {
            let p = g.pick(&periods);
            task(g, p)
        })
        .collect()
}

/// Equal weights, also in other terms (1/2, 2/4, 3/6): strings that tie.
fn ties(g: &mut Generator) -> Vec<(u16, u16)> {
    let p = g.pick(&[2, 3, 4, 5, 6, 7, 10, 12, 16]);
    let (e, p) = task(g, p);
    let n = g.pick(&[2, 3, 4, 8, 16, 32, 63, 64]);
    let most = g.pick(&[1, 2, 4]);
    let mut tasks: Vec<(u16, u16)> = (0..n)
        .map(|_| {
            let times = g.between(1, most) as u16;
            (e * times, p * times)
        })
        .collect();
    if g.one_in(3) {
        let place = g.below(tasks.len());
        tasks[place] = task(g, u32::from(p));
    }
    tasks
}

/// Two weights just below a half whose strings at 0 differ only after half the
/// shorter period; the task that goes first stands second.
pub fn late(power: u32) -> [(u16, u16); 2] {
    let p = 1 << power;
    [(p / 2 - 1, p), (p - 1, 2 * p)]
}

/// Two or three weights close to each other: strings that differ late.
fn near(g: &mut Generator) -> Vec<(u16, u16)> {
    if g.one_in(3) {
        return late(g.between(3, 14)).to_vec();
    }
    let p = g.between(20, 1_000) as u16;
    let e = g.between(1, u32::from(p) - 2) as u16;
    let mut tasks = vec![(e, p), (e + g.below(2) as u16, p + 1)];
    if g.one_in(2) {
        tasks.push(g.pick(&[(e, p), (e, p + 1), (p - e, p), (e + 1, p)]));
    }
    tasks.rotate_left(g.below(2));
    tasks
}

/// Long strings: 1/65535 with 1/16 and others with an L near its limit.
fn long(g: &mut Generator) -> Vec<(u16, u16)> {
    let (p, other) = g.pick(&[
        (65_535, 16),
        (65_535, 5),
        (65_534, 4),
        (65_521, 16),
        (61_680, 17),
        (32_767, 32),
        (65_535, 65_535),
        (32_768, 31),
    ]);
    match g.below(4) {
        0 => vec![(1, p), (1, other)],
        // The second goes first, by the symbol after 21,843 equal ones.
        3 => vec![(10_922, 21_845), (32_767, 65_535)],
        1 => vec![task(g, u32::from(other)), task(g, u32::from(p))],
        _ => vec![(p - 1, p), (other - 1, other)],
    }
}

/// One task alone, at the ends of its limits.
fn single(g: &mut Generator) -> Set {
    let p = g.pick(&[2, 3, 4, 9, 16, 97, 256, 4_096]);
    Set::new(g.pick(&[1, 2, 32]), &[task(g, p)])
}

/// Fully loaded, so without a spare: the last task takes all that is left, over
/// the period L itself or in lowest terms.
pub fn full(g: &mut Generator) -> Set {
    let (mut tasks, l, rest) = almost_full(g);
    if rest > 0 {
        let divisor = if g.one_in(2) { 1 } else { gcd(rest, l) };
        tasks.push(((rest / divisor) as u16, (l / divisor) as u16));
    }
    let units = (load(&tasks, l) / l) as u8;
    let m = if g.one_in(4) {
        units.max(31) + 1
    } else {
        units
    };
    Set { m, tasks }
}

/// The smallest spare there is, 1/L.
pub fn short_by_one(g: &mut Generator) -> Set {
    let (mut tasks, l, rest) = almost_full(g);
    let (e, m) = match rest {
        0 | 1 => (l - 1, load(&tasks, l).div_ceil(l) + 1),
        _ => (rest - 1, load(&tasks, l).div_ceil(l)),
    };
    if rest == 1 {
        tasks.push((1, l as u16));
    }
    tasks.push((e as u16, l as u16));
    Set { m: m as u8, tasks }
}

/// The load is m·L + 1.
pub fn over_by_one(g: &mut Generator) -> Set {
    let (mut tasks, l, rest) = almost_full(g);
    let m = load(&tasks, l).div_ceil(l) as u8;
    if rest > 0 {
        tasks.push((rest as u16, l as u16));
    }
    let place = g.below(tasks.len() + 1);
    tasks.insert(place, (1, l as u16));
    Set { m, tasks }
}

/// Tasks with an L of at most 65,535, one of them with the period L, on at most
/// 31 units, and what is left up to whole units.
fn almost_full(g: &mut Generator) -> (Vec<(u16, u16)>, u64, u64) {
    let small: Vec<u32> = MULTIPLES.into_iter().filter(|l| *l <= 65_535).collect();
    let l = g.pick(&small);
    let periods = periods_of(l);
    let n = g.pick(&[0, 1, 2, 4, 7, 15, 30]);
    let mut tasks = vec![task(g, l)];
    for _ in 0..n {
        let p = g.pick(&periods);
        tasks.push(task(g, p));
    }
    let l = u64::from(l);
    let load = load(&tasks, l);
    (tasks, l, load.div_ceil(l) * l - load)
}

/// Valid tasks on too few units.
fn overloaded(g: &mut Generator) -> Set {
    loop {
        let tasks = shared(g);
        let l = multiple(&tasks).expect("periods that divide a multiple");
        let whole = load(&tasks, l).div_ceil(l);
        if whole > 1 {
            let m = g.between(1, (whole as u32 - 1).min(MOST_UNITS));
            return Set { m: m as u8, tasks };
        }
    }
}

/// L above its limit, by two periods or by many; 1/65535 with 1/32 among them.
pub fn above_l(g: &mut Generator) -> Set {
    let m = g.between(1, 32) as u8;
    let pairs = [
        (65_535, 32),
        (65_535, 19),
        (65_535, 65_534),
        (32_768, 33),
        (65_521, 65_519),
        (1_024, 1_025),
    ];
    let (p, q) = g.pick(&pairs);
    let mut tasks = vec![(1, p), (1, q)];
    if g.one_in(3) {
        let primes = [11, 13, 17, 19, 23, 29];
        tasks = primes.iter().map(|&p| task(g, p)).collect();
    }
    tasks.rotate_left(g.below(2));
    Set { m, tasks }
}

fn wrong_units(g: &mut Generator) -> Set {
    let m = g.pick(&[0, 33, 34, 64, 128, 255]);
    Set { m, ..accepted(g) }
}

/// A requirement and a period that do not go together.
pub fn wrong_task(g: &mut Generator) -> (u16, u16) {
    let p = g.between(2, 65_534) as u16;
    g.pick(&[
        (0, 0),
        (1, 0),
        (0, 1),
        (1, 1),
        (2, 1),
        (2, 2),
        (0, 2),
        (3, 2),
        (0, p),
        (p, p),
        (p + 1, p),
        (65_535, p),
        (0, 65_535),
        (65_535, 65_535),
    ])
}

/// An accepted set with one or two tasks outside their limits.
pub fn spoiled(g: &mut Generator) -> Set {
    let mut set = accepted(g);
    for _ in 0..=g.below(2) {
        let place = g.below(set.tasks.len());
        set.tasks[place] = wrong_task(g);
    }
    set
}

/// Two refusals hold at once, so that their order is seen.
fn wrong_twice(g: &mut Generator) -> Set {
    match g.below(4) {
        0 => Set::new(g.pick(&[0, 33, 255]), &[]),
        1 => Set {
            m: g.pick(&[0, 33, 255]),
            ..spoiled(g)
        },
        2 => {
            let mut set = above_l(g);
            set.tasks.push(wrong_task(g));
            set
        }
        _ => {
            let mut set = above_l(g);
            for task in &mut set.tasks {
                task.0 = task.1 - 1;
            }
            Set { m: 1, ..set }
        }
    }
}
