//! The entries of document 01: admission, comparison, slot, run, listing.

use crate::refusal::Refusal;
use crate::rule::{class, gcd, lag_times_period, order, string, Class, Entry, Strings};
use std::cmp::Ordering;

// Document 01, "Limits".
const MOST_TASKS: usize = 64;
const MOST_UNITS: u32 = 32;
const LEAST_PERIOD: u32 = 2;
const MOST_PERIOD: u32 = 65_535;
const MOST_L: i128 = 1_048_576;
const MOST_TIME: u32 = 16_777_215;
const MOST_SLOTS: u32 = 1_024;

/// "answers M, L and the spare, or that there is none"
#[derive(Debug, Clone, Copy, PartialEq, Eq)]
pub struct Admitted {
    /// M, "the units in use"
    pub units: u32,
    /// L, "the least common multiple of all periods"
    pub l: u32,
    /// The requirement and period of the spare.
    pub spare: Option<(u32, u32)>,
}

/// "it answers first, second or tie"
#[derive(Debug, Clone, Copy, PartialEq, Eq)]
pub enum Winner {
    First,
    Second,
    Tie,
}

/// "stops at the first refusal, says how many slots were done"
#[derive(Debug, Clone, Copy, PartialEq, Eq)]
pub struct RunAnswer {
    pub done: u32,
    pub refusal: Option<Refusal>,
}

/// "Admission uses 1 to 6 and answers M, L and the spare, or that there is none."
pub fn admission(es: &[u32], ps: &[u32], m: u32) -> Result<Admitted, Refusal> {
    check_lengths(es.len(), &[ps.len()])?;
    check_tasks(es.len())?;
    check_units(m)?;
    check_limits(es, ps)?;
    let l = least_common_multiple(ps)?;
    let load = load(es, ps, l);
    check_load(load, i128::from(m) * l)?;
    Ok(admitted(load, l))
}

/// "Comparison takes two (e, p) and a time and uses 4 (place 0 or 1) and 7."
/// "The comparison entry follows the strings for any two valid records,
/// contending or not".
pub fn comparison(e: u32, p: u32, e2: u32, p2: u32, t: u32) -> Result<Winner, Refusal> {
    check_limits(&[e, e2], &[p, p2])?;
    check_time(t)?;
    let first = string(e.into(), p.into(), t.into());
    let second = string(e2.into(), p2.into(), t.into());
    Ok(match order(&first, &second) {
        Ordering::Less => Winner::First,
        Ordering::Greater => Winner::Second,
        Ordering::Equal => Winner::Tie,
    })
}

/// "A slot uses 1 to 9." "A done slot adds 1 to the count of each chosen task,
/// changes no other count, and writes one byte per task in place order: 1
/// chosen, 0 not."
pub fn slot(
    es: &[u32],
    ps: &[u32],
    ks: &mut [u32],
    bytes: &mut [u8],
    m: u32,
    t: u32,
) -> Result<(), Refusal> {
    slot_with(&mut Strings::default(), es, ps, ks, bytes, m, t)
}

/// "A run checks 10 first, then 1." "it equals that many single slots, stops at
/// the first refusal, says how many slots were done, and leaves the log beyond
/// them as it was. A run of 0 slots that passes 10 and 1 answers 0 done".
pub fn run(
    slots: u32,
    es: &[u32],
    ps: &[u32],
    ks: &mut [u32],
    log: &mut [u8],
    m: u32,
    t: u32,
) -> RunAnswer {
    if let Err(refusal) = check_run(slots, es, ps, ks, log) {
        return RunAnswer {
            done: 0,
            refusal: Some(refusal),
        };
    }
    let n = es.len();
    let mut strings = Strings::default();
    for done in 0..slots {
        let start = done as usize * n;
        let bytes = &mut log[start..start + n];
        // No overflow: with a slot done, t is at most 16,777,215.
        if let Err(refusal) = slot_with(&mut strings, es, ps, ks, bytes, m, t + done) {
            return RunAnswer {
                done,
                refusal: Some(refusal),
            };
        }
    }
    RunAnswer {
        done: slots,
        refusal: None,
    }
}

/// "The listing uses 1 to 8." "The listing writes one byte per task: 41
/// hexadecimal if ahead, 50 if punctual, 4C ("late") if behind."
pub fn listing(
    es: &[u32],
    ps: &[u32],
    ks: &[u32],
    bytes: &mut [u8],
    m: u32,
    t: u32,
) -> Result<(), Refusal> {
    check_lengths(es.len(), &[ps.len(), ks.len(), bytes.len()])?;
    let (_, entries) = standing(es, ps, ks, m, t)?;
    // `bytes` has one place per task, so the spare at place n is not listed.
    for (byte, entry) in bytes.iter_mut().zip(&entries) {
        *byte = match lag_times_period(entry, t.into()).cmp(&0) {
            Ordering::Less => 0x41,
            Ordering::Equal => 0x50,
            Ordering::Greater => 0x4C,
        };
    }
    Ok(())
}

/// One slot, with the strings kept from the slots of the same run before it.
fn slot_with(
    strings: &mut Strings,
    es: &[u32],
    ps: &[u32],
    ks: &mut [u32],
    bytes: &mut [u8],
    m: u32,
    t: u32,
) -> Result<(), Refusal> {
    check_lengths(es.len(), &[ps.len(), ks.len(), bytes.len()])?;
    let (set, entries) = standing(es, ps, ks, m, t)?;
    let chosen = choice(strings, &entries, set.units as usize, t.into())?;
    for place in 0..es.len() {
        let runs = chosen.contains(&place);
        bytes[place] = u8::from(runs);
        if runs {
            ks[place] += 1;
        }
    }
    Ok(())
}

/// Refusals 2 to 8 in order, then the set with the counts of all tasks and, at
/// place n, of the spare if there is one.
fn standing(
    es: &[u32],
    ps: &[u32],
    ks: &[u32],
    m: u32,
    t: u32,
) -> Result<(Admitted, Vec<Entry>), Refusal> {
    let set = admission(es, ps, m)?;
    check_time(t)?;
    let all = i128::from(set.units) * i128::from(t);
    let mut entries = tasks(es, ps, ks);
    let sum: i128 = entries.iter().map(|entry| entry.k).sum();
    if let Some((e, p)) = set.spare {
        // "Its count is M·t less the sum of all other counts."
        entries.push(Entry {
            e: e.into(),
            p: p.into(),
            k: all - sum,
        });
    }
    check_lags(&entries, t.into())?;
    // "or there is no spare and the counts don't add up to M·t"
    if set.spare.is_none() && sum != all {
        return Err(Refusal::Counts { place: es.len() });
    }
    Ok((set, entries))
}

fn tasks(es: &[u32], ps: &[u32], ks: &[u32]) -> Vec<Entry> {
    (0..es.len())
        .map(|place| Entry {
            e: es[place].into(),
            p: ps[place].into(),
            k: ks[place].into(),
        })
        .collect()
}

/// "The slot runs all urgent tasks and then the first contenders in that order,
/// M in all." Refusal 9: "more than M tasks are urgent, or fewer than M are not
/// tnegru (spare included)".
fn choice(
    strings: &mut Strings,
    entries: &[Entry],
    units: usize,
    t: i128,
) -> Result<Vec<usize>, Refusal> {
    let mut chosen = places_of(Class::Urgent, entries, t);
    let mut contenders = places_of(Class::Contending, entries, t);
    if chosen.len() > units || chosen.len() + contenders.len() < units {
        return Err(Refusal::Choice);
    }
    strings.sort(entries, &mut contenders, t);
    let wanted = units - chosen.len();
    chosen.extend_from_slice(&contenders[..wanted]);
    Ok(chosen)
}

fn places_of(wanted: Class, entries: &[Entry], t: i128) -> Vec<usize> {
    (0..entries.len())
        .filter(|&place| class(&entries[place], t) == wanted)
        .collect()
}

/// "The load is the sum of e·L/p."
fn load(es: &[u32], ps: &[u32], l: i128) -> i128 {
    es.iter()
        .zip(ps)
        .map(|(&e, &p)| i128::from(e) * l / i128::from(p))
        .sum()
}

/// "M is the load divided by L, rounded up: the units in use. If M·L exceeds the
/// load there is a spare [...] with weight (M·L - load)/L; its fraction is
/// reduced to lowest terms by Euclid's rule."
fn admitted(load: i128, l: i128) -> Admitted {
    let units = (load + l - 1) / l;
    let rest = units * l - load;
    let divisor = gcd(rest, l);
    let spare = (rest > 0).then(|| ((rest / divisor) as u32, (l / divisor) as u32));
    Admitted {
        units: units as u32,
        l: l as u32,
        spare,
    }
}

/// "L is the least common multiple of all periods." A least common multiple only
/// grows with more periods, so refusal 5 can be given as soon as it is above.
fn least_common_multiple(ps: &[u32]) -> Result<i128, Refusal> {
    let mut l: i128 = 1;
    for &p in ps {
        let p = i128::from(p);
        l = l / gcd(l, p) * p;
        if l > MOST_L {
            return Err(Refusal::Multiple);
        }
    }
    Ok(l)
}

/// Refusal 1 of all entries but a run: "lent lists differ in length".
fn check_lengths(n: usize, others: &[usize]) -> Result<(), Refusal> {
    if others.iter().all(|&other| other == n) {
        Ok(())
    } else {
        Err(Refusal::Lengths)
    }
}

/// "A run checks 10 first, then 1"; "a run's log must have slots times n bytes".
fn check_run(slots: u32, es: &[u32], ps: &[u32], ks: &[u32], log: &[u8]) -> Result<(), Refusal> {
    if slots > MOST_SLOTS {
        return Err(Refusal::Slots);
    }
    check_lengths(es.len(), &[ps.len(), ks.len()])?;
    if log.len() as u128 != u128::from(slots) * es.len() as u128 {
        return Err(Refusal::Lengths);
    }
    Ok(())
}

/// Refusal 2: "n is 0 or above 64".
fn check_tasks(n: usize) -> Result<(), Refusal> {
    if n == 0 || n > MOST_TASKS {
        return Err(Refusal::Tasks);
    }
    Ok(())
}

/// Refusal 3: "m is 0 or above 32".
fn check_units(m: u32) -> Result<(), Refusal> {
    if m == 0 || m > MOST_UNITS {
        return Err(Refusal::Units);
    }
    Ok(())
}

/// Refusal 4: "some e or p is outside its limits", "lowest such place".
fn check_limits(es: &[u32], ps: &[u32]) -> Result<(), Refusal> {
    for (place, (&e, &p)) in es.iter().zip(ps).enumerate() {
        let period_fits = (LEAST_PERIOD..=MOST_PERIOD).contains(&p);
        // "requirement e: 1 to p - 1"
        let requirement_fits = 1 <= e && e < p;
        if !(period_fits && requirement_fits) {
            return Err(Refusal::Limits { place });
        }
    }
    Ok(())
}

/// Refusal 6: "the load is above m·L", carries "load - m·L".
fn check_load(load: i128, room: i128) -> Result<(), Refusal> {
    if load > room {
        return Err(Refusal::Load {
            excess: load - room,
        });
    }
    Ok(())
}

/// Refusal 7: "t is above 16,777,215".
fn check_time(t: u32) -> Result<(), Refusal> {
    if t > MOST_TIME {
        return Err(Refusal::Time);
    }
    Ok(())
}

/// Refusal 8, first half: "some task, the spare included, has e·t - p·k not
/// strictly between -p and p", "lowest such place". The spare stands at place n.
fn check_lags(entries: &[Entry], t: i128) -> Result<(), Refusal> {
    for (place, entry) in entries.iter().enumerate() {
        let lag = lag_times_period(entry, t);
        if lag <= -entry.p || lag >= entry.p {
            return Err(Refusal::Counts { place });
        }
    }
    Ok(())
}
