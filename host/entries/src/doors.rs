//! The doors of the proved library, and cases put to them. Each wrapper lends
//! guarded copies and gives back all that can have changed.

use crate::case::{After, Comparison, Lists, Place};
use crate::lent::Lent;

/// A record of the second door, laid out as in C.
#[repr(C)]
#[derive(Debug, Clone, Copy, PartialEq, Eq)]
pub struct Task {
    pub e: u32,
    pub p: u32,
    pub k: u32,
}

extern "C" {
    fn door_admit(
        requirements: *const u32,
        n: usize,
        periods: *const u32,
        n_periods: usize,
        m: u32,
        answer: *mut u32,
        n_answer: usize,
    ) -> u64;
    fn door_compare(e: u32, p: u32, e2: u32, p2: u32, t: u32) -> u64;
    fn door_slot(
        requirements: *const u32,
        n: usize,
        periods: *const u32,
        n_periods: usize,
        counts: *mut u32,
        n_counts: usize,
        bytes: *mut u8,
        n_bytes: usize,
        m: u32,
        t: u32,
    ) -> u64;
    fn door_run(
        slots: u32,
        requirements: *const u32,
        n: usize,
        periods: *const u32,
        n_periods: usize,
        counts: *mut u32,
        n_counts: usize,
        log: *mut u8,
        n_log: usize,
        m: u32,
        t: u32,
    ) -> u64;
    fn door_list(
        requirements: *const u32,
        n: usize,
        periods: *const u32,
        n_periods: usize,
        counts: *const u32,
        n_counts: usize,
        bytes: *mut u8,
        n_bytes: usize,
        m: u32,
        t: u32,
    ) -> u64;
    fn door_admit_records(
        tasks: *const Task,
        n: usize,
        m: u32,
        answer: *mut u32,
        n_answer: usize,
    ) -> u64;
    fn door_slot_records(
        tasks: *mut Task,
        n: usize,
        bytes: *mut u8,
        n_bytes: usize,
        m: u32,
        t: u32,
    ) -> u64;
}

/// What guards are made of.
const ODD: u32 = 0xA5C3_96F1;
const ODD_BYTE: u8 = 0xA5;
const ODD_TASK: Task = Task {
    e: ODD,
    p: ODD,
    k: ODD,
};

fn lend(list: &[u32]) -> Lent<u32> {
    Lent::new(list, ODD)
}

/// The three lists and the bytes, lent.
struct Loan {
    es: Lent<u32>,
    ps: Lent<u32>,
    ks: Lent<u32>,
    bytes: Lent<u8>,
}

impl Loan {
    fn of(lists: &Lists, bytes: &[u8]) -> Loan {
        Loan {
            es: lend(&lists.es),
            ps: lend(&lists.ps),
            ks: lend(&lists.ks),
            bytes: Lent::new(bytes, ODD_BYTE),
        }
    }

    fn after(&self, code: u64) -> After {
        let guarded = self.es.guarded() && self.ps.guarded() && self.ks.guarded();
        After {
            code,
            lists: Lists {
                es: self.es.values(),
                ps: self.ps.values(),
                ks: self.ks.values(),
            },
            bytes: self.bytes.values(),
            answer: Vec::new(),
            guarded: guarded && self.bytes.guarded(),
        }
    }
}

/// Admission by lists; the counts are not lent.
pub fn admit(lists: &Lists, m: u32, answer: &[u32]) -> After {
    let loan = Loan::of(lists, &[]);
    let mut answer = lend(answer);
    // SAFETY: each pointer comes with the length of its list, and no two lists
    // overlap.
    let code = unsafe {
        door_admit(
            loan.es.pointer(),
            loan.es.length(),
            loan.ps.pointer(),
            loan.ps.length(),
            m,
            answer.pointer_mut(),
            answer.length(),
        )
    };
    with_answer(loan.after(code), &answer)
}

fn with_answer(after: After, answer: &Lent<u32>) -> After {
    After {
        answer: answer.values(),
        guarded: after.guarded && answer.guarded(),
        ..after
    }
}

pub fn compare(case: &Comparison) -> u64 {
    // SAFETY: numbers only.
    unsafe { door_compare(case.e, case.p, case.e2, case.p2, case.t) }
}

pub fn slot(lists: &Lists, bytes: &[u8], place: Place) -> After {
    let mut loan = Loan::of(lists, bytes);
    // SAFETY: as for `admit`.
    let code = unsafe {
        door_slot(
            loan.es.pointer(),
            loan.es.length(),
            loan.ps.pointer(),
            loan.ps.length(),
            loan.ks.pointer_mut(),
            loan.ks.length(),
            loan.bytes.pointer_mut(),
            loan.bytes.length(),
            place.m,
            place.t,
        )
    };
    loan.after(code)
}

pub fn run(slots: u32, lists: &Lists, log: &[u8], place: Place) -> After {
    let mut loan = Loan::of(lists, log);
    // SAFETY: as for `admit`.
    let code = unsafe {
        door_run(
            slots,
            loan.es.pointer(),
            loan.es.length(),
            loan.ps.pointer(),
            loan.ps.length(),
            loan.ks.pointer_mut(),
            loan.ks.length(),
            loan.bytes.pointer_mut(),
            loan.bytes.length(),
            place.m,
            place.t,
        )
    };
    loan.after(code)
}

pub fn list(lists: &Lists, bytes: &[u8], place: Place) -> After {
    let mut loan = Loan::of(lists, bytes);
    // SAFETY: as for `admit`.
    let code = unsafe {
        door_list(
            loan.es.pointer(),
            loan.es.length(),
            loan.ps.pointer(),
            loan.ps.length(),
            loan.ks.pointer(),
            loan.ks.length(),
            loan.bytes.pointer_mut(),
            loan.bytes.length(),
            place.m,
            place.t,
        )
    };
    loan.after(code)
}

/// Admission by records. The lists have to be of one length.
pub fn admit_records(lists: &Lists, m: u32, answer: &[u32]) -> After {
    let tasks = records(lists);
    let mut answer = lend(answer);
    // SAFETY: as for `admit`; `Task` is laid out as in C.
    let code = unsafe {
        door_admit_records(
            tasks.pointer(),
            tasks.length(),
            m,
            answer.pointer_mut(),
            answer.length(),
        )
    };
    with_answer(after_records(&tasks, code), &answer)
}

pub fn slot_records(lists: &Lists, bytes: &[u8], place: Place) -> After {
    let mut tasks = records(lists);
    let mut bytes = Lent::new(bytes, ODD_BYTE);
    // SAFETY: as for `admit_records`.
    let code = unsafe {
        door_slot_records(
            tasks.pointer_mut(),
            tasks.length(),
            bytes.pointer_mut(),
            bytes.length(),
            place.m,
            place.t,
        )
    };
    let after = after_records(&tasks, code);
    After {
        guarded: after.guarded && bytes.guarded(),
        bytes: bytes.values(),
        ..after
    }
}

fn records(lists: &Lists) -> Lent<Task> {
    let tasks: Vec<Task> = (0..lists.es.len())
        .map(|place| Task {
            e: lists.es[place],
            p: lists.ps[place],
            k: lists.ks[place],
        })
        .collect();
    Lent::new(&tasks, ODD_TASK)
}

fn after_records(tasks: &Lent<Task>, code: u64) -> After {
    let values = tasks.values();
    After {
        code,
        lists: Lists {
            es: values.iter().map(|task| task.e).collect(),
            ps: values.iter().map(|task| task.p).collect(),
            ks: values.iter().map(|task| task.k).collect(),
        },
        bytes: Vec::new(),
        answer: Vec::new(),
        guarded: tasks.guarded(),
    }
}
