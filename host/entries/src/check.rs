//! One case at the doors and in the second program.

use crate::case::{odd_bytes, odd_numbers, After, Case, Comparison, Lists, Place};
use crate::{doors, second_answers};

/// What a door and the second program made of the same case.
#[derive(Debug, Clone, PartialEq, Eq)]
pub struct Seen {
    pub door: &'static str,
    pub ours: After,
    pub second: After,
}

impl Seen {
    pub fn agree(&self) -> bool {
        self.ours == self.second
    }
}

/// Every door that can take the case. Admission and a slot have two: lists and
/// records. Lists of unequal length are cut to what records can hold, which is
/// then a case of its own; otherwise both doors get the same and have to agree.
pub fn put(case: &Case) -> Vec<Seen> {
    match case {
        Case::Admission { lists, m, room } => admission(lists, *m, *room),
        Case::Comparison(comparison) => vec![compared(comparison)],
        Case::Slot {
            lists,
            length,
            place,
        } => slot(lists, *length, *place),
        Case::Run {
            slots,
            lists,
            length,
            place,
        } => {
            let log = odd_bytes(*length);
            vec![Seen {
                door: "door_run",
                ours: doors::run(*slots, lists, &log, *place),
                second: second_answers::run(*slots, lists, &log, *place),
            }]
        }
        Case::Listing {
            lists,
            length,
            place,
        } => {
            let bytes = odd_bytes(*length);
            vec![Seen {
                door: "door_list",
                ours: doors::list(lists, &bytes, *place),
                second: second_answers::list(lists, &bytes, *place),
            }]
        }
    }
}

fn admission(lists: &Lists, m: u32, room: usize) -> Vec<Seen> {
    let answer = odd_numbers(room);
    let common = lists.common();
    vec![
        Seen {
            door: "door_admit",
            ours: doors::admit(lists, m, &answer),
            second: second_answers::admit(lists, m, &answer),
        },
        Seen {
            door: "door_admit_records",
            ours: doors::admit_records(&common, m, &answer),
            second: second_answers::admit(&common, m, &answer),
        },
    ]
}

fn slot(lists: &Lists, length: usize, place: Place) -> Vec<Seen> {
    let bytes = odd_bytes(length);
    let common = lists.common();
    vec![
        Seen {
            door: "door_slot",
            ours: doors::slot(lists, &bytes, place),
            second: second_answers::slot(lists, &bytes, place),
        },
        Seen {
            door: "door_slot_records",
            ours: doors::slot_records(&common, &bytes, place),
            second: second_answers::slot(&common, &bytes, place),
        },
    ]
}

/// A comparison lends nothing; only the code is there to be compared.
fn compared(comparison: &Comparison) -> Seen {
    let after = |code| After {
        code,
        lists: Lists::default(),
        bytes: Vec::new(),
        answer: Vec::new(),
        guarded: true,
    };
    Seen {
        door: "door_compare",
        ours: after(doors::compare(comparison)),
        second: after(second_answers::compare(comparison)),
    }
}
