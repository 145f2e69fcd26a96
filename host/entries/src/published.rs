//! Document 01's P cases for admission and a slot, put to both doors. What the
//! document says of each stands beside it, so that three answers have to agree.

use crate::case::{odd_bytes, odd_numbers, After, Case, Comparison, Lists, Place};
use crate::check::put;
use crate::report::code_text;
use crate::watch::now;

/// What document 01 says.
enum Says {
    /// M, L, spare e, spare p.
    Accepted([u32; 4]),
    /// The places that run.
    Runs(&'static [usize]),
    /// The slot is done, whichever places run.
    Passes,
    /// The number and what it carries.
    Refused(u64, u64),
    /// The comparison's second wins.
    Second,
}

struct Published {
    name: &'static str,
    case: Case,
    says: Says,
}

const P1: &[(u32, u32)] = &[(1, 2), (1, 3)];
const P2: &[(u32, u32)] = &[(1, 3), (2, 4), (5, 7), (8, 11)];
const P6: &[(u32, u32)] = &[(2, 5), (2, 5), (1, 10), (1, 10)];

fn lists(tasks: &[(u32, u32)], ks: &[u32]) -> Lists {
    Lists {
        es: tasks.iter().map(|task| task.0).collect(),
        ps: tasks.iter().map(|task| task.1).collect(),
        ks: ks.to_vec(),
    }
}

fn admission(name: &'static str, tasks: &[(u32, u32)], m: u32, says: Says) -> Published {
    let lists = lists(tasks, &vec![0; tasks.len()]);
    let case = Case::Admission { lists, m, room: 4 };
    Published { name, case, says }
}

fn slot(
    name: &'static str,
    tasks: &[(u32, u32)],
    ks: &[u32],
    place: (u32, u32),
    says: Says,
) -> Published {
    let place = Place {
        m: place.0,
        t: place.1,
    };
    let (lists, length) = (lists(tasks, ks), tasks.len());
    let case = Case::Slot {
        lists,
        length,
        place,
    };
    Published { name, case, says }
}

fn table() -> Vec<Published> {
    use Says::{Accepted, Refused, Runs};
    let halves = &[(1, 2), (1, 2)];
    let thirds = &[(2, 3), (2, 3)];
    vec![
        admission("P1", P1, 1, Accepted([1, 6, 1, 6])),
        slot("P1", P1, &[0, 0], (1, 0), Runs(&[0])),
        slot("P1", P1, &[1, 0], (1, 1), Runs(&[1])),
        slot("P1", P1, &[1, 1], (1, 2), Runs(&[0])),
        slot("P1", P1, &[2, 1], (1, 3), Runs(&[1])),
        slot("P1", P1, &[2, 2], (1, 4), Runs(&[0])),
        slot("P1", P1, &[3, 2], (1, 5), Runs(&[])),
        admission("P2", P2, 3, Accepted([3, 924, 335, 462])),
        slot("P3", P2, &[0, 0, 0, 0], (3, 0), Runs(&[2, 3])),
        slot("P3", P2, &[0, 0, 1, 1], (3, 1), Runs(&[1, 3])),
        slot("P3", P2, &[0, 1, 1, 2], (3, 2), Runs(&[0, 1, 2])),
        admission("P4", halves, 1, Accepted([1, 2, 0, 0])),
        admission("P5", thirds, 1, Refused(6, 1)),
        admission("P5", thirds, 2, Accepted([2, 3, 2, 3])),
        slot("P6", P6, &[0, 0, 1, 1], (1, 2), Refused(9, 0)),
        slot("P7", P1, &[0, 1], (1, 2), Refused(8, 0)),
        slot("P7", P1, &[1, 0], (1, 2), Says::Passes),
        p8(),
        admission("P9", &[(2, 2)], 1, Refused(4, 0)),
        admission("P9", &[(1, 2)], 1, Accepted([1, 2, 1, 2])),
    ]
}

/// A comparison has one door only.
fn p8() -> Published {
    let (e, p, e2, p2, t) = (1, 2, 1, 3, 1);
    Published {
        name: "P8",
        case: Case::Comparison(Comparison { e, p, e2, p2, t }),
        says: Says::Second,
    }
}

/// A readable line per case and door, and whether all agree.
pub fn lines() -> Vec<(String, bool)> {
    let mut lines = Vec::new();
    for Published { name, case, says } in table() {
        now(&format!("{name} {}", short(&case)));
        for seen in put(&case) {
            let right = seen.agree() && holds(&says, &case, &seen.ours);
            let verdict = if right {
                "as document 01 says"
            } else {
                "NOT as document 01 or the second program says"
            };
            let text = format!(
                "{name} {}, {}: {}, {verdict}",
                short(&case),
                seen.door,
                answer_text(&case, &seen.ours)
            );
            lines.push((text, right));
        }
    }
    lines
}

fn holds(says: &Says, case: &Case, after: &After) -> bool {
    match says {
        Says::Accepted(set) => after.code == 0 && after.answer == set,
        Says::Runs(places) => after.code == 0 && chosen(case, after) == Some(places.to_vec()),
        Says::Passes => after.code == 0 && chosen(case, after).is_some(),
        Says::Second => after.code == 1,
        Says::Refused(number, carried) => {
            after.code == (number << 32) + carried && untouched(case, after)
        }
    }
}

/// The places whose byte is 1, if all other bytes are 0 and exactly the chosen
/// tasks' counts have grown by 1.
fn chosen(case: &Case, after: &After) -> Option<Vec<usize>> {
    let Case::Slot { lists, .. } = case else {
        return None;
    };
    let fits =
        |place: &usize| lists.ks[*place] + u32::from(after.bytes[*place]) == after.lists.ks[*place];
    let all = 0..lists.es.len();
    let fit = all
        .clone()
        .all(|place| after.bytes[place] <= 1 && fits(&place));
    fit.then(|| all.filter(|place| after.bytes[*place] == 1).collect())
}

fn untouched(case: &Case, after: &After) -> bool {
    match case {
        Case::Admission { lists, room, .. } => {
            after.lists == *lists && after.answer == odd_numbers(*room)
        }
        Case::Slot { lists, length, .. } => {
            after.lists == *lists && after.bytes == odd_bytes(*length)
        }
        _ => true,
    }
}

fn short(case: &Case) -> String {
    let tasks = |lists: &Lists| {
        let fractions = lists
            .es
            .iter()
            .zip(&lists.ps)
            .map(|(e, p)| format!("{e}/{p}"));
        fractions.collect::<Vec<String>>().join(" ")
    };
    match case {
        Case::Admission { lists, m, .. } => format!("admission of {} on {m}", tasks(lists)),
        Case::Slot { lists, place, .. } => {
            format!(
                "slot {} of {} on {}, counts {:?}",
                place.t,
                tasks(lists),
                place.m,
                lists.ks
            )
        }
        other => crate::report::case_text(other),
    }
}

fn answer_text(case: &Case, after: &After) -> String {
    match (case, after.code) {
        (Case::Admission { .. }, 0) => {
            let [m, l, e, p] = [0, 1, 2, 3].map(|place| after.answer[place]);
            let spare = if p == 0 {
                "no spare".to_string()
            } else {
                format!("spare {e}/{p}")
            };
            format!("M {m}, L {l}, {spare}")
        }
        (Case::Slot { .. }, 0) => format!("bytes {:?}, counts {:?}", after.bytes, after.lists.ks),
        (Case::Comparison(_), 0..=2) => ["first", "second", "tie"][after.code as usize].to_string(),
        (_, code) => code_text(code),
    }
}
