//! Cases and answers in words.

use crate::case::{After, Case, Comparison, Lists, Place};
use crate::check::Seen;
use crate::tally::refusal_number;

pub fn difference(case: &Case, seen: &Seen) -> String {
    format!(
        "DIFFERENCE at {}\n{}\n  our library    {}\n  second program {}",
        seen.door,
        case_text(case),
        after_text(&seen.ours),
        after_text(&seen.second),
    )
}

pub fn case_text(case: &Case) -> String {
    match case {
        Case::Admission { lists, m, room } => {
            format!("admission on {m} units, room {room}: {}", lists_text(lists))
        }
        Case::Comparison(Comparison { e, p, e2, p2, t }) => {
            format!("comparison of {e}/{p} with {e2}/{p2} at time {t}")
        }
        Case::Slot {
            lists,
            length,
            place,
        } => lent_text("slot", lists, *length, *place),
        Case::Listing {
            lists,
            length,
            place,
        } => lent_text("listing", lists, *length, *place),
        Case::Run {
            slots,
            lists,
            length,
            place,
        } => lent_text(&format!("run of {slots} slots"), lists, *length, *place),
    }
}

fn lent_text(entry: &str, lists: &Lists, length: usize, Place { m, t }: Place) -> String {
    let lists = lists_text(lists);
    format!("{entry} on {m} units at time {t}, {length} bytes lent: {lists}")
}

fn lists_text(Lists { es, ps, ks }: &Lists) -> String {
    format!("requirements {es:?} periods {ps:?} counts {ks:?}")
}

fn after_text(after: &After) -> String {
    let beside = if after.guarded {
        ""
    } else {
        ", WROTE BESIDE A LIST"
    };
    let lists = lists_text(&after.lists);
    let (answer, bytes) = (&after.answer, &after.bytes);
    format!(
        "{}{beside}; {lists} answer {answer:x?} bytes {bytes:x?}",
        code_text(after.code)
    )
}

pub fn code_text(code: u64) -> String {
    let done = code >> 40;
    let slots = if done > 0 {
        format!("{done} slots done, ")
    } else {
        String::new()
    };
    let low = code as u32;
    match refusal_number(code) {
        0 => format!("{slots}code {low}"),
        number => format!("{slots}refusal {number} carrying {low}"),
    }
}
