//! The order of contenders, two strings at a time, as the comparison entry of
//! document 01 takes them.

use crate::field::Marks;
use crate::record::Record;
use std::cmp::Ordering;

/// Marks "the first contenders in that order", so many as are wanted. They are
/// parted by comparisons, not sorted.
pub fn first_contenders(contenders: &mut [Record], wanted: usize, chosen: &mut Marks) {
    if wanted < contenders.len() {
        contenders.select_nth_unstable_by(wanted, order);
    }
    for record in &contenders[..wanted] {
        chosen[record.place as usize] = 1;
    }
}

/// `Less` if the first goes before the second: the greater string goes first.
/// "Equal strings tie, and the lower place goes first."
fn order(first: &Record, second: &Record) -> Ordering {
    compare(*first, *second).then(first.place.cmp(&second.place))
}

/// Symbol by symbol; equal records tie at once.
fn compare(mut first: Record, mut second: Record) -> Ordering {
    if first.same(&second) {
        return Ordering::Equal;
    }
    loop {
        let symbols = (first.sign.signum(), second.sign.signum());
        if symbols.0 != symbols.1 {
            return symbols.1.cmp(&symbols.0);
        }
        if symbols.0 == 0 {
            return Ordering::Equal;
        }
        first = first.further();
        second = second.further();
    }
}
