//! A frame as numbers, and as a line of hexadecimal. Only layouts are looked at, never whether the numbers are admissible.

use crate::kinds::{self, Field, Kind, HOW_MANY_TASKS, PERIOD, REQUIREMENT};
use crate::lines;

/// A task of a set: `requirement` slots in every `period`.
#[derive(Clone, Copy, Debug, PartialEq, Eq)]
pub struct Task {
    pub requirement: u32,
    pub period: u32,
}

/// The numbers are as many as the kind's fields, and each fits its field.
#[derive(Clone, Debug, PartialEq, Eq)]
pub struct Frame {
    pub kind: &'static Kind,
    pub numbers: Vec<u32>,
    pub tasks: Vec<Task>,
}

/// The line to send, without its line feed.
pub fn write(frame: &Frame) -> String {
    let mut line = format!("{:02X}", frame.kind.code);
    let mut put = |field: &Field, number: u32| {
        line.push_str(&format!(
            "{number:0width$X}",
            width = 2 * field.bytes as usize
        ));
    };
    for (field, number) in frame.kind.fields.iter().zip(&frame.numbers) {
        put(field, *number);
    }
    if frame.kind.has_tasks() {
        put(&HOW_MANY_TASKS, frame.tasks.len() as u32);
        for task in &frame.tasks {
            put(&REQUIREMENT, task.requirement);
            put(&PERIOD, task.period);
        }
    }
    line
}

/// The frame that a line holds, if it has some kind's layout.
pub fn read(line: &[u8]) -> Option<Frame> {
    let bytes = lines::bytes_of(line)?;
    let (code, mut rest) = bytes.split_first()?;
    let kind = kinds::of_code(*code)?;
    let numbers = kind
        .fields
        .iter()
        .map(|field| take(&mut rest, field))
        .collect::<Option<_>>()?;
    let how_many = if kind.has_tasks() {
        take(&mut rest, &HOW_MANY_TASKS)?
    } else {
        0
    };
    let tasks = (0..how_many)
        .map(|_| {
            Some(Task {
                requirement: take(&mut rest, &REQUIREMENT)?,
                period: take(&mut rest, &PERIOD)?,
            })
        })
        .collect::<Option<_>>()?;
    let frame = Frame {
        kind,
        numbers,
        tasks,
    };
    rest.is_empty().then_some(frame)
}

/// The next field's number, taken off the front.
fn take(rest: &mut &[u8], field: &Field) -> Option<u32> {
    let (number, behind) = rest.split_at_checked(field.bytes as usize)?;
    *rest = behind;
    Some(lines::number(number))
}
