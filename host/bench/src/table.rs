//! The table of figures, in markdown.

use crate::program::Program;
use crate::rows::{Counted, Row};
use crate::timing::Cell;

pub const OURS: &str = "prettavorn";

/// The two lines above the rows.
pub fn head(programs: &[Program]) -> String {
    let names: String = programs
        .iter()
        .map(|program| format!(" {} |", program.name))
        .collect();
    let rules = "---:|".repeat(programs.len() + 1);
    format!("| script |{names} ours/plain |\n|---|{rules}\n")
}

pub fn line(row: &Row, programs: &[Program], cells: &[Cell]) -> String {
    let figures: String = cells
        .iter()
        .map(|cell| format!(" {} |", figure(row, cell)))
        .collect();
    format!("| {} |{figures} {} |\n", row.name, ratio(programs, cells))
}

fn figure(row: &Row, cell: &Cell) -> String {
    let Cell::Speed(speed) = *cell else {
        return "differs".to_string();
    };
    match row.counted {
        Counted::Megabytes => format!("{speed:.0} MB/s"),
        Counted::Sets => format!("{} sets/s", thousands(speed)),
        Counted::Slots => thousands(speed),
    }
}

/// A whole number with a comma before each three digits.
fn thousands(number: f64) -> String {
    let digits = format!("{number:.0}");
    let mut text = String::new();
    for (i, digit) in digits.chars().enumerate() {
        if i > 0 && (digits.len() - i).is_multiple_of(3) {
            text.push(',');
        }
        text.push(digit);
    }
    text
}

/// Ours by plain: 1.00 or more means at least as fast.
fn ratio(programs: &[Program], cells: &[Cell]) -> String {
    let ours = programs.iter().position(|program| program.name == OURS);
    match (ours.map(|i| cells[i]), cells.last()) {
        (Some(Cell::Speed(ours)), Some(Cell::Speed(plain))) => format!("{:.2}", ours / plain),
        _ => "-".to_string(),
    }
}
