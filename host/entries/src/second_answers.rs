//! The same cases put to the second program's functions, in the doors' words.

use crate::case::{After, Comparison, Lists, Place};
use second::{admission, comparison, listing, run as second_run, slot as second_slot};
use second::{Admitted, Refusal, Winner};

/// "a refusal is its number times 2^32 plus what it carries (0 for nothing)"
pub fn refusal_code(refusal: Refusal) -> u64 {
    (u64::from(refusal.number()) << 32) + refusal.carried() as u64
}

fn code(answer: Result<(), Refusal>) -> u64 {
    answer.map_or_else(refusal_code, |()| 0)
}

fn after(code: u64, lists: Lists, bytes: Vec<u8>, answer: Vec<u32>) -> After {
    After {
        code,
        lists,
        bytes,
        answer,
        guarded: true,
    }
}

pub fn admit(lists: &Lists, m: u32, answer: &[u32]) -> After {
    let mut answer = answer.to_vec();
    let accepted = admission(&lists.es, &lists.ps, m).map(|set| store(&set, &mut answer));
    after(code(accepted), lists.clone(), Vec::new(), answer)
}

/// M, L, spare e and spare p (0, 0 if there is none), as far as there is room.
fn store(set: &Admitted, answer: &mut [u32]) {
    let (e, p) = set.spare.unwrap_or((0, 0));
    for (place, value) in answer.iter_mut().zip([set.units, set.l, e, p]) {
        *place = value;
    }
}

pub fn compare(case: &Comparison) -> u64 {
    match comparison(case.e, case.p, case.e2, case.p2, case.t) {
        Ok(Winner::First) => 0,
        Ok(Winner::Second) => 1,
        Ok(Winner::Tie) => 2,
        Err(refusal) => refusal_code(refusal),
    }
}

pub fn slot(lists: &Lists, bytes: &[u8], Place { m, t }: Place) -> After {
    let (mut lists, mut bytes) = (lists.clone(), bytes.to_vec());
    let done = second_slot(&lists.es, &lists.ps, &mut lists.ks, &mut bytes, m, t);
    after(code(done), lists, bytes, Vec::new())
}

/// "the slots done times 2^40" are added.
pub fn run(slots: u32, lists: &Lists, log: &[u8], Place { m, t }: Place) -> After {
    let (mut lists, mut log) = (lists.clone(), log.to_vec());
    let answer = second_run(slots, &lists.es, &lists.ps, &mut lists.ks, &mut log, m, t);
    let code = (u64::from(answer.done) << 40) + answer.refusal.map_or(0, refusal_code);
    after(code, lists, log, Vec::new())
}

pub fn list(lists: &Lists, bytes: &[u8], Place { m, t }: Place) -> After {
    let mut bytes = bytes.to_vec();
    let done = listing(&lists.es, &lists.ps, &lists.ks, &mut bytes, m, t);
    after(code(done), lists.clone(), bytes, Vec::new())
}
