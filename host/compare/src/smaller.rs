//! Smaller lines for the shrinker, the boldest steps first. Each is smaller in
//! length, in slots or in its numbers, so that the search comes to an end.

use crate::frames::{read, run, Frame, Set};

pub fn smaller(line: &[u8]) -> Vec<Vec<u8>> {
    match read(line) {
        Frame::Admission(set) => smaller_sets(&set).iter().map(Set::line).collect(),
        Frame::Run(slots) => smaller_numbers(slots).into_iter().map(run).collect(),
        Frame::Listing => Vec::new(),
        Frame::Malformed => shorter(line),
    }
}

/// The least, the half and the next smaller one, as far as they are smaller.
fn smaller_numbers(number: u16) -> Vec<u16> {
    let mut numbers = vec![0, 1, number / 2, number.saturating_sub(1)];
    numbers.retain(|smaller| *smaller < number);
    numbers.dedup();
    numbers
}

fn smaller_sets(set: &Set) -> Vec<Set> {
    let mut sets = fewer_tasks(set);
    for m in smaller_numbers(set.m.into()) {
        sets.push(Set {
            m: m as u8,
            tasks: set.tasks.clone(),
        });
    }
    for place in 0..set.tasks.len() {
        for task in smaller_tasks(set.tasks[place]) {
            let mut smaller = set.clone();
            smaller.tasks[place] = task;
            sets.push(smaller);
        }
    }
    sets
}

/// Without half of the tasks, a quarter, ... , without one of them.
fn fewer_tasks(set: &Set) -> Vec<Set> {
    let n = set.tasks.len();
    let mut sets = Vec::new();
    let mut count = n.div_ceil(2);
    while count > 0 {
        for start in (0..n).step_by(count) {
            let mut fewer = set.clone();
            fewer.tasks.drain(start..(start + count).min(n));
            sets.push(fewer);
        }
        count /= 2;
    }
    sets
}

/// Smaller periods before smaller requirements: they make the strings shorter.
fn smaller_tasks((e, p): (u16, u16)) -> Vec<(u16, u16)> {
    let mut tasks = vec![(1, 2), (1, 3), (e / 2, p / 2)];
    tasks.extend(smaller_numbers(p).into_iter().map(|p| (e, p)));
    tasks.extend(smaller_numbers(e).into_iter().map(|e| (e, p)));
    tasks.retain(|&(f, q)| (f, q) != (e, p) && f <= e && q <= p);
    tasks
}

/// Without a half, a quarter, ... , one character, at the end or at the start;
/// short lines without any one character.
fn shorter(line: &[u8]) -> Vec<Vec<u8>> {
    let mut lines = Vec::new();
    let mut count = line.len().div_ceil(2);
    while count > 0 {
        lines.push(line[..line.len() - count].to_vec());
        lines.push(line[count..].to_vec());
        count /= 2;
    }
    if line.len() <= 64 {
        lines.extend((0..line.len()).map(|place| {
            let mut shorter = line.to_vec();
            shorter.remove(place);
            shorter
        }));
    }
    lines
}
