//! What a line asked: document 01's frames 01, 02 and 03, or none of them.

use crate::lines;

/// Above this many digits a line is no frame.
const MOST_DIGITS: usize = 518;

/// A task of a set: `requirement` slots in every `period`.
#[derive(Clone, Copy, Debug, PartialEq, Eq)]
pub struct Task {
    pub requirement: u32,
    pub period: u32,
}

#[derive(Clone, Debug, PartialEq, Eq)]
pub enum Asked {
    /// 01: admission of a set on so many units.
    Set { units: u32, tasks: Vec<Task> },
    /// 02: a run of so many slots.
    Run { slots: u32 },
    /// 03: the standings.
    Listing,
    /// Anything else, and what is wrong with it; the answer has to be a refusal.
    NoFrame { fault: String },
}

pub fn what(line: &[u8]) -> Asked {
    let bytes = if line.len() > MOST_DIGITS {
        None
    } else {
        lines::bytes_of(line)
    };
    match bytes.as_deref() {
        Some([0x01, units, n, records @ ..]) if records.len() == 4 * usize::from(*n) => {
            let tasks = records.chunks(4).map(task).collect();
            Asked::Set {
                units: u32::from(*units),
                tasks,
            }
        }
        Some([0x02, slots @ ..]) if slots.len() == 2 => Asked::Run {
            slots: lines::number(slots),
        },
        Some([0x03]) => Asked::Listing,
        _ => Asked::NoFrame { fault: fault(line) },
    }
}

/// What keeps a line from being a frame. A letter O in place of a zero is hard to see, so the character is pointed at.
fn fault(line: &[u8]) -> String {
    let is_digit = |byte: &u8| matches!(byte, b'0'..=b'9' | b'A'..=b'F');
    if line.is_empty() {
        return "the line is empty".to_string();
    }
    if line.len() > MOST_DIGITS {
        return format!(
            "the line has {} characters; {MOST_DIGITS} are the most",
            line.len()
        );
    }
    if let Some(at) = line.iter().position(|byte| !is_digit(byte)) {
        return format!(
            "character {} is {}, not one of 0 to 9 and A to F",
            at + 1,
            character(line[at])
        );
    }
    if line.len() % 2 != 0 {
        return format!("the number of digits, {}, is odd", line.len());
    }
    match &line[..2] {
        b"01" => "a set needs 01, m, n and then 8 digits for each of its n tasks".to_string(),
        b"02" => "a run is 02 and 4 digits".to_string(),
        b"03" => "a listing is 03 and nothing else".to_string(),
        _ => "the first two digits are not 01, 02 or 03".to_string(),
    }
}

fn character(byte: u8) -> String {
    match byte {
        b' ' => "a blank".to_string(),
        b'\r' => "a carriage return".to_string(),
        b'a'..=b'f' => format!("a small '{}'", char::from(byte)),
        b'A'..=b'Z' | b'a'..=b'z' => format!("the letter '{}'", char::from(byte)),
        b'!'..=b'~' => format!("'{}'", char::from(byte)),
        _ => format!("the byte {byte:02X}"),
    }
}

fn task(record: &[u8]) -> Task {
    Task {
        requirement: lines::number(&record[..2]),
        period: lines::number(&record[2..]),
    }
}
