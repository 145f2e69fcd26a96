//! What a line answered: 81, 82, 83 or 8F of document 01's frames.

use crate::asked::Task;
use crate::lines;

/// A mark of the listing.
#[derive(Clone, Copy, Debug, PartialEq, Eq)]
pub enum Standing {
    Ahead,
    Punctual,
    Behind,
}

#[derive(Clone, Copy, Debug, PartialEq, Eq)]
pub struct Refusal {
    pub number: u8,
    /// The place that refusals 4 and 8 carry; FF for the others.
    pub place: u8,
}

#[derive(Clone, Debug, PartialEq, Eq)]
pub enum Answer {
    /// 81: M, L and the spare, if there is one.
    Accepted {
        units_in_use: u32,
        l: u32,
        spare: Option<Task>,
    },
    /// 82: the chosen places of the slot at a time, one bit for each place.
    Slot {
        time: u32,
        chosen: u64,
    },
    /// 83: one mark for each task.
    Listing {
        time: u32,
        standings: Vec<Standing>,
    },
    Refusal(Refusal),
}

/// The answer that a line holds, or none if it is no answer line.
pub fn read(line: &[u8]) -> Option<Answer> {
    let bytes = lines::bytes_of(line)?;
    match bytes.as_slice() {
        [0x81, units, rest @ ..] if rest.len() == 12 => Some(accepted(*units, rest)),
        [0x82, t0, t1, t2, t3, count, places @ ..] if places.len() == usize::from(*count) => {
            let time = lines::number(&[*t0, *t1, *t2, *t3]);
            Some(Answer::Slot {
                time,
                chosen: rising(places)?,
            })
        }
        [0x83, t0, t1, t2, t3, marks @ ..] => {
            let standings = marks
                .iter()
                .map(|&mark| standing(mark))
                .collect::<Option<_>>()?;
            Some(Answer::Listing {
                time: lines::number(&[*t0, *t1, *t2, *t3]),
                standings,
            })
        }
        [0x8F, number, place] => Some(Answer::Refusal(Refusal {
            number: *number,
            place: *place,
        })),
        _ => None,
    }
}

fn accepted(units: u8, rest: &[u8]) -> Answer {
    let [l, requirement, period] = [0, 4, 8].map(|from| lines::number(&rest[from..from + 4]));
    let spare = (requirement != 0).then_some(Task {
        requirement,
        period,
    });
    Answer::Accepted {
        units_in_use: u32::from(units),
        l,
        spare,
    }
}

/// Places that rise and are below 64, as bits.
fn rising(places: &[u8]) -> Option<u64> {
    let rises = places.windows(2).all(|pair| pair[0] < pair[1]);
    let small = places.iter().all(|&place| place < 64);
    (rises && small).then(|| places.iter().fold(0, |bits, &place| bits | 1 << place))
}

fn standing(mark: u8) -> Option<Standing> {
    match mark {
        0x41 => Some(Standing::Ahead),
        0x50 => Some(Standing::Punctual),
        0x4C => Some(Standing::Behind),
        _ => None,
    }
}
