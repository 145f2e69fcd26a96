//! The order of contenders: their strings side by side.
//!
//! The strings of all contenders are read at once, one symbol of each at a time,
//! and only those are read on among which the last wanted place still lies. So
//! nothing is sorted, and no string is read further than it must be.

use crate::field::Marks;
use crate::record::Record;

/// Marks "the first contenders in that order", so many as are wanted.
pub fn first_contenders(contenders: &mut [Record], mut wanted: usize, chosen: &mut Marks) {
    // Their strings have been the same so far, and they stand in rising order.
    let mut left = contenders;
    while wanted < left.len() && !one_record(left) {
        let (plus, not_minus) = count(left);
        if plus >= wanted {
            left = keep(left, |sign| sign > 0);
        } else if not_minus < wanted {
            mark(left, chosen, |sign| sign >= 0);
            wanted -= not_minus;
            left = keep(left, |sign| sign < 0);
        } else {
            // Strings end with 0, so those that do are equal.
            mark(left, chosen, |sign| sign > 0);
            wanted -= plus;
            left = keep(left, |sign| sign == 0);
            break;
        }
    }
    // "Equal strings tie, and the lower place goes first."
    mark(&left[..wanted], chosen, |_| true);
}

/// Equal records have equal strings. The last is looked at first, since the
/// first and the last settle most cases.
fn one_record(left: &[Record]) -> bool {
    left.iter().rev().all(|record| record.same(&left[0]))
}

/// How many have the symbol +, and how many another than -.
fn count(left: &[Record]) -> (usize, usize) {
    let (mut plus, mut not_minus) = (0, 0);
    for record in left {
        plus += u32::from(record.sign > 0);
        not_minus += u32::from(record.sign >= 0);
    }
    (plus as usize, not_minus as usize)
}

fn mark(left: &[Record], chosen: &mut Marks, symbol: impl Fn(i32) -> bool) {
    for record in left {
        chosen[record.place as usize] |= u8::from(symbol(record.sign));
    }
}

/// Those with the symbol, in their order and one time further. Each is written
/// as if it were kept, and the next one overwrites it if it is not.
fn keep(left: &mut [Record], symbol: impl Fn(i32) -> bool) -> &mut [Record] {
    let mut kept = 0;
    for i in 0..left.len() {
        let record = left[i];
        left[kept] = record.further();
        kept += usize::from(symbol(record.sign));
    }
    &mut left[..kept]
}
