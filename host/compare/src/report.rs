//! A difference as it is printed: lines that can be fed to both programs, and
//! both answers side by side.

use crate::check::Difference;
use crate::program::{End, Outcome};
use std::fmt::Write;

/// How many lines of answers are shown around the first that differs.
const BEFORE: usize = 6;
const AFTER: usize = 12;
/// A longer script is not printed as a command.
const MOST_COMMAND: usize = 20_000;

pub fn difference(difference: &Difference) -> String {
    let script = &difference.script;
    let mut text = String::new();
    let _ = writeln!(text, "DIFFERENCE, script of {} lines:", script.lines.len());
    for line in &script.lines {
        let _ = writeln!(text, "{}", line.escape_ascii());
    }
    if !difference.fed.is_empty() {
        let _ = writeln!(text, "fed {}", difference.fed);
    }
    let bytes = script.bytes();
    if bytes.len() <= MOST_COMMAND {
        let _ = writeln!(
            text,
            "to feed it: printf '{}' | PROGRAM",
            for_printf(&bytes)
        );
    }
    text + &side_by_side(&difference.ours, &difference.second)
}

/// printf takes octal numbers after a backslash, in every shell.
fn for_printf(bytes: &[u8]) -> String {
    bytes
        .iter()
        .map(|&byte| match byte {
            b'\n' => "\\n".to_string(),
            b'\\' | b'%' | b'\'' => format!("\\{byte:03o}"),
            b' '..=b'~' => char::from(byte).to_string(),
            _ => format!("\\{byte:03o}"),
        })
        .collect()
}

pub fn side_by_side(ours: &Outcome, second: &Outcome) -> String {
    let (left, right) = (lines(&ours.output), lines(&second.output));
    let first = (0..left.len().max(right.len())).find(|&i| left.get(i) != right.get(i));
    let around = first.unwrap_or(left.len());
    let (start, end) = (around.saturating_sub(BEFORE), around + AFTER);
    let width = left
        .iter()
        .map(String::len)
        .max()
        .unwrap_or(0)
        .clamp(20, 60);
    let mut text = format!("  answer  {:width$}  second program\n", "our program");
    for place in start..end.min(left.len().max(right.len())) {
        let (a, b) = (left.get(place), right.get(place));
        let mark = if a == b { ' ' } else { '*' };
        let shown = |line: Option<&String>| line.cloned().unwrap_or("(nothing)".to_string());
        let _ = writeln!(text, "{mark} {place:6}  {:width$}  {}", shown(a), shown(b));
    }
    let _ = writeln!(
        text,
        "ended: our program {}, second program {}",
        how(&ours.end),
        how(&second.end)
    );
    text
}

/// The answers with their line feeds made visible where one lacks.
fn lines(output: &[u8]) -> Vec<String> {
    output
        .split_inclusive(|&byte| byte == b'\n')
        .map(|line| match line.split_last() {
            Some((b'\n', line)) => line.escape_ascii().to_string(),
            _ => format!("{} (no line feed)", line.escape_ascii()),
        })
        .collect()
}

fn how(end: &End) -> String {
    match end {
        End::Code(code) => format!("with code {code}"),
        End::Signal(signal) => format!("by signal {signal}"),
        End::TimeOut => "not in time".to_string(),
        End::Flood => "not: it wrote without end".to_string(),
    }
}

#[cfg(test)]
mod tests {
    use super::*;

    #[test]
    fn any_byte_can_be_fed_by_printf() {
        assert_eq!(
            for_printf(b"03\r\n%\\'\xff"),
            "03\\015\\n\\045\\134\\047\\377"
        );
    }

    #[test]
    fn the_first_line_that_differs_is_marked() {
        let outcome = |output: &[u8]| Outcome {
            output: output.to_vec(),
            end: End::Code(0),
        };
        let text = side_by_side(&outcome(b"81\n82\n"), &outcome(b"81\n83"));
        assert!(text.contains("\n*      1  82"));
        assert!(text.contains("83 (no line feed)"));
    }
}
