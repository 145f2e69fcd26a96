//! Standings, shares, spares and refusals in plain words.

use crate::answered::Standing;
use crate::asked::{Asked, Task};
use crate::night::{Refused, Set};

/// What the page, the picture and the help all say.
pub const VIEW_ONLY: &str = "A view only: nothing proved depends on it.";

/// A task's names by place, as far as they were given.
#[derive(Clone, Debug, Default, PartialEq, Eq)]
pub struct Names(pub Vec<String>);

impl Names {
    pub fn of(&self, place: usize) -> String {
        match self.0.get(place) {
            Some(name) if !name.is_empty() => name.clone(),
            _ => format!("task {place}"),
        }
    }
}

/// "1 slot", "2,048 slots".
pub fn many(number: u64, what: &str) -> String {
    format!(
        "{} {what}{}",
        thousands(number),
        if number == 1 { "" } else { "s" }
    )
}

fn thousands(number: u64) -> String {
    if number < 1000 {
        return number.to_string();
    }
    format!("{},{:03}", thousands(number / 1000), number % 1000)
}

pub fn fraction(task: &Task) -> String {
    format!("{}/{}", task.requirement, task.period)
}

pub fn fractions(tasks: &[Task]) -> String {
    tasks.iter().map(fraction).collect::<Vec<_>>().join(", ")
}

fn greatest_common_divisor(a: u64, b: u64) -> u64 {
    if b == 0 {
        a
    } else {
        greatest_common_divisor(b, a % b)
    }
}

/// A task's share by a time, e·t/p, as a whole number and a fraction in lowest terms.
pub fn share(task: &Task, time: u32) -> String {
    let (product, period) = (
        u64::from(task.requirement) * u64::from(time),
        u64::from(task.period),
    );
    if period == 0 {
        return "unknown".to_string();
    }
    let (whole, rest) = (product / period, product % period);
    let common = greatest_common_divisor(period, rest);
    match (whole, rest) {
        (_, 0) => whole.to_string(),
        (0, _) => format!("{}/{}", rest / common, period / common),
        _ => format!("{whole} {}/{}", rest / common, period / common),
    }
}

/// Document 01's listing calls a task that is behind "late"; the board says both words.
pub fn standing(standing: Standing) -> &'static str {
    match standing {
        Standing::Ahead => "ahead",
        Standing::Punctual => "punctual",
        Standing::Behind => "late (behind)",
    }
}

/// The listing's own letter, as it stands in a column.
pub fn letter(standing: Standing) -> char {
    match standing {
        Standing::Ahead => 'A',
        Standing::Punctual => 'P',
        Standing::Behind => 'L',
    }
}

/// How many units the set leaves idle, and why: a sentence each for M, L and the spare.
pub fn of_set(set: &Set) -> Vec<String> {
    let in_use = many(u64::from(set.units_in_use), "unit");
    let always = match set.always_idle() {
        0 => "no unit is always idle".to_string(),
        1 => "1 unit is always idle".to_string(),
        idle => format!("{idle} units are always idle"),
    };
    vec![
        format!(
            "Units: {} of {} in use (M = {}); {always}.",
            set.units_in_use, set.units, set.units_in_use
        ),
        format!(
            "Shares: every task has had exactly its share after every {} (L).",
            many(set.l.into(), "slot")
        ),
        match &set.spare {
            None => format!("Spare: none; the {in_use} in use never idle."),
            Some(spare) => spare_in_words(set, spare),
        },
    ]
}

fn spare_in_words(set: &Set, spare: &Task) -> String {
    let all = u64::from(set.units_in_use) * u64::from(spare.period);
    let (idle, are) = (
        thousands(spare.requirement.into()),
        if spare.requirement == 1 { "is" } else { "are" },
    );
    let in_use = many(set.units_in_use.into(), "unit");
    format!(
        "Spare: {}, so {idle} of every {} of the {in_use} in use {are} idle.",
        fraction(spare),
        many(all, "unit-slot")
    )
}

/// Why a line was refused, as exactly as the line itself tells it.
pub fn why(refused: &Refused, names: &Names, tasks_in_force: usize) -> String {
    match (refused.refusal.number, &refused.asked) {
        (11, Asked::NoFrame { fault }) => format!("the line is no frame: {fault}"),
        (11, Asked::Run { .. } | Asked::Listing) => "no set was accepted before it".to_string(),
        (number, _) => of_number(number, &who(refused, names, tasks_in_force)),
    }
}

/// A set under which nothing was asked has no rows to name its tasks.
pub fn unused(set: &Set, names: &Names) -> String {
    let of_task = |(place, task): (usize, &Task)| format!("{} {}", names.of(place), fraction(task));
    let tasks: Vec<String> = set.tasks.iter().enumerate().map(of_task).collect();
    format!(
        "Nothing was asked under this set yet. Tasks: {}.",
        tasks.join(", ")
    )
}

/// What each refusal means. `who` names the place that refusals 4 and 8 carry.
pub fn of_number(number: u8, who: &str) -> String {
    match number {
        1 => "lent lists differ in length; a frame cannot cause this".to_string(),
        2 => "the set has no task, or more than 64".to_string(),
        3 => "there are 0 units, or more than 32".to_string(),
        4 => format!("the requirement or the period of {who} is outside its limits"),
        5 => "the periods have no common multiple up to 1,048,576".to_string(),
        6 => "overloaded: the shares add up to more than the units can give".to_string(),
        7 => "the calendar has ended: the time is above 16,777,215".to_string(),
        8 => format!(
            "the counts do not fit the time, at {who}: a whole slot or more too many or too few"
        ),
        9 => "too many tasks must run now, or too few may".to_string(),
        10 => "the run asks more than 1,024 slots".to_string(),
        11 => "the line is no frame, or it asks a run or a listing before any set is accepted"
            .to_string(),
        _ => "this number is not in document 01's table".to_string(),
    }
}

/// What the person who sent the line can do about it.
pub fn what_to_do(refused: &Refused) -> &'static str {
    match (refused.refusal.number, &refused.asked) {
        (11, Asked::Run { .. } | Asked::Listing) => {
            "send a set (01) first; once it is accepted, send this line again"
        }
        (number, _) => remedy(number),
    }
}

pub fn remedy(number: u8) -> &'static str {
    match number {
        2 => "name 1 to 64 tasks (third byte of the frame, then e and p for each) and send the set again",
        3 => "give 1 to 32 units (second byte of the frame) and send the set again",
        4 => "mend that task: a period of 2 to 65,535, a requirement of 1 to one less than the period; send the whole set again",
        5 => "choose periods that share factors, such as 12, 20 and 60, and send the set again",
        6 => "take slots from a task, leave one out or give more units, and send the whole set again",
        7 => "send the set again: time and counts start from 0",
        10 => "ask for at most 1,024 slots (0400) at once, and mind the digits: 10 slots are 000A",
        11 => "type the line again: 01, 02 or 03, digits 0 to 9 and capitals A to F, no blanks",
        1 | 8 | 9 => "do not go on: no set that was accepted and run from time 0 comes to this. Keep both files and call the engineers",
        _ => "keep both files and call the engineers",
    }
}

/// The place that a refusal carries, by number and name; above the last task it is the spare or the sum.
fn who(refused: &Refused, names: &Names, tasks_in_force: usize) -> String {
    let place = usize::from(refused.refusal.place);
    let (n, record) = match &refused.asked {
        Asked::Set { tasks, .. } => (tasks.len(), tasks.get(place)),
        _ => (tasks_in_force, None),
    };
    match record {
        Some(task) => format!("place {place} ({}, {})", names.of(place), fraction(task)),
        None if place < n => format!("place {place} ({})", names.of(place)),
        None if place == n => format!("place {place} (the spare, or the sum of the counts)"),
        None => format!("place {place} (no task has it)"),
    }
}

/// What the refused line asked.
pub fn asked(refused: &Refused) -> String {
    match &refused.asked {
        Asked::Set { units, tasks } if tasks.is_empty() => {
            format!("a set of no tasks on {}", many((*units).into(), "unit"))
        }
        Asked::Set { units, tasks } => {
            let (n, units) = (
                many(tasks.len() as u64, "task"),
                many((*units).into(), "unit"),
            );
            format!("a set of {n} ({}) on {units}", fractions(tasks))
        }
        Asked::Run { slots } => format!("a run of {}", many((*slots).into(), "slot")),
        Asked::Listing => "a listing".to_string(),
        Asked::NoFrame { .. } => format!("the line \"{}\"", refused.text),
    }
}

/// How things stand after the refusal.
pub fn now(refused: &Refused, in_force: bool) -> String {
    match (&refused.asked, in_force) {
        (Asked::Set { .. }, true) => format!(
            "the former set stays in force and goes on from time {}",
            refused.time
        ),
        (_, false) => "there is still no set in force".to_string(),
        (Asked::Run { .. }, true) if refused.slots_done > 0 => {
            format!(
                "done before it: {} of the run; the time is {}",
                many(refused.slots_done.into(), "slot"),
                refused.time
            )
        }
        (Asked::Run { .. }, true) => format!("no slot was run; the time is still {}", refused.time),
        (Asked::Listing | Asked::NoFrame { .. }, true) => {
            format!("nothing changed; the time is still {}", refused.time)
        }
    }
}
