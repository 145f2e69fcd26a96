//! Why a line is no frame, and what to do about it.

use crate::frame;
use crate::kinds::{self, KINDS};
use crate::lines;

/// Above this many digits a line is no frame.
pub const MOST_DIGITS: usize = 518;

#[derive(Clone, Debug, PartialEq, Eq)]
pub struct Malformed {
    pub why: String,
    pub cure: &'static str,
}

const AGAIN: &str = "type the line again: digits 0 to 9 and capitals A to F, no blanks; or write it in words and let ./plan make the frame";
/// What to do about carriage returns. The blanks of the command do not break.
pub const WINDOWS_ENDS: &str = "the file has Windows line ends; take them out, and use what comes of it: tr\u{A0}-d\u{A0}'\\r'\u{A0}<\u{A0}FILE\u{A0}>\u{A0}MENDED";
const FEWER_TASKS: &str =
    "send a set of at most 64 tasks: leave some out, or make one task of several";

/// What is wrong with a line, if it is no frame.
pub fn judge(line: &[u8]) -> Option<Malformed> {
    let frame = frame::read(line);
    if line.len() > MOST_DIGITS {
        return Some(too_long(line, frame.map(|frame| frame.tasks.len())));
    }
    if frame.is_some() {
        return None;
    }
    let cure = if line.last() == Some(&b'\r') {
        WINDOWS_ENDS
    } else {
        AGAIN
    };
    Some(Malformed {
        why: fault(line),
        cure,
    })
}

fn too_long(line: &[u8], tasks: Option<usize>) -> Malformed {
    match tasks {
        Some(tasks) if tasks > 0 => Malformed {
            why: format!("a set of {tasks} tasks is too long for a frame; 64 are the most"),
            cure: FEWER_TASKS,
        },
        _ => Malformed {
            why: format!(
                "the line has {} characters; {MOST_DIGITS} are the most",
                line.len()
            ),
            cure: AGAIN,
        },
    }
}

/// A letter O in place of a zero is hard to see, so the character is pointed at.
fn fault(line: &[u8]) -> String {
    if line.is_empty() {
        return "the line is empty".to_string();
    }
    if let Some(at) = line.iter().position(|&byte| lines::digit(byte).is_none()) {
        return format!(
            "character {} is {}, not one of 0 to 9 and A to F",
            at + 1,
            character(line[at])
        );
    }
    if line.len() % 2 != 0 {
        return format!("the number of digits, {}, is odd", line.len());
    }
    let code = lines::bytes_of(&line[..2]).map(|bytes| bytes[0]);
    match code.and_then(kinds::of_code) {
        Some(kind) => format!("a frame of this kind {}", kind.layout()),
        None => format!("the first two digits are not {}", codes()),
    }
}

/// "01, 02 or 03".
fn codes() -> String {
    let codes: Vec<String> = KINDS
        .iter()
        .map(|kind| format!("{:02X}", kind.code))
        .collect();
    let (last, others) = codes
        .split_last()
        .map_or(("", &[][..]), |(last, others)| (last.as_str(), others));
    format!("{} or {last}", others.join(", "))
}

fn character(byte: u8) -> String {
    match byte {
        b' ' => "a blank".to_string(),
        b'\r' => "a carriage return".to_string(),
        b'\t' => "a tab".to_string(),
        b'a'..=b'f' => format!("a small '{}'", char::from(byte)),
        b'A'..=b'Z' | b'a'..=b'z' => format!("the letter '{}'", char::from(byte)),
        b'!'..=b'~' => format!("'{}'", char::from(byte)),
        _ => format!("the byte {byte:02X}"),
    }
}
