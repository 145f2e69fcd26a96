//! Which frame a line is, or that it is malformed.

use crate::hex::{all_digits, number};

/// "at most 518 digits"
pub const MOST_DIGITS: usize = 518;

/// A well-formed frame, with its digits where they stand in the line.
pub enum Frame<'a> {
    /// m, and eight digits for each of the n tasks
    Admission {
        m: u32,
        tasks: &'a [u8],
    },
    Run {
        slots: u32,
    },
    Listing,
}

/// Nothing for "odd digits, other characters, an empty line, unknown kind, wrong
/// length for the kind, over 518 digits". The length is judged before the
/// digits are looked at, since most malformed lines fail there.
pub fn frame(line: &[u8]) -> Option<Frame<'_>> {
    let frame = match line {
        [b'0', b'1', rest @ ..] => admission(rest)?,
        [b'0', b'2', slots @ ..] if slots.len() == 4 => Frame::Run {
            slots: number(slots),
        },
        b"03" => Frame::Listing,
        _ => return None,
    };
    all_digits(line).then_some(frame)
}

/// "01, m (1 byte), n (1), then n times e (2) and p (2)". Where m or n are no
/// digits the frame means nothing; `frame` drops it then.
fn admission(rest: &[u8]) -> Option<Frame<'_>> {
    if rest.len() < 4 || rest.len() > MOST_DIGITS - 2 {
        return None;
    }
    let (head, tasks) = rest.split_at(4);
    let n = number(&head[2..]) as usize;
    (tasks.len() == 8 * n).then(|| Frame::Admission {
        m: number(&head[..2]),
        tasks,
    })
}
