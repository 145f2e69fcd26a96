//! The rows of the table: a name, a script and what is counted.

use crate::sets::{long_periods, short_periods, ties, Set, Spare};

#[derive(Debug, Clone, Copy, PartialEq, Eq)]
pub enum Counted {
    Slots,
    Megabytes,
    Sets,
}

/// A script is its head and then its piece again and again, and the head again
/// after so many pieces. So a shorter script is the beginning of a longer one.
pub struct Row {
    pub name: String,
    pub counted: Counted,
    /// How many of those a piece has
    pub amount: f64,
    head: Vec<u8>,
    piece: Vec<u8>,
    pieces_to_a_head: usize,
}

/// "slots in one run", at most
const SLOTS: usize = 1_024;
/// Then time is at its end, 16,777,216 slots, and the set is admitted anew.
const RUNS: usize = 16_384;

impl Row {
    pub fn script(&self, pieces: usize) -> Vec<u8> {
        let mut script = Vec::with_capacity(self.piece.len() * pieces + self.head.len());
        for i in 0..pieces {
            if i % self.pieces_to_a_head == 0 {
                script.extend(&self.head);
            }
            script.extend(&self.piece);
        }
        script
    }

    pub fn most_pieces(&self) -> usize {
        const MOST_BYTES: usize = 400_000_000;
        MOST_BYTES / self.piece.len()
    }

    /// Lines and nothing before them.
    fn of_lines(name: &str, counted: Counted, amount: f64, piece: Vec<u8>) -> Row {
        Row {
            name: name.to_string(),
            counted,
            amount,
            head: Vec::new(),
            piece,
            pieces_to_a_head: usize::MAX,
        }
    }

    fn of_slots(kind: &str, spare: Spare, set: &Set) -> Row {
        let with = match spare {
            Spare::With => "with a spare",
            Spare::Without => "no spare",
        };
        Row {
            name: format!("{} tasks, {kind}, {with}", set.len()),
            counted: Counted::Slots,
            amount: SLOTS as f64,
            head: admission(set).into_bytes(),
            piece: format!("02{SLOTS:04X}\n").into_bytes(),
            pieces_to_a_head: RUNS,
        }
    }
}

pub fn rows() -> Vec<Row> {
    let mut rows = Vec::new();
    for n in [8, 32, 64] {
        for spare in [Spare::With, Spare::Without] {
            let short = short_periods(n, spare, 1);
            rows.push(Row::of_slots("short periods", spare, &short));
            let long = long_periods(n, spare, 1);
            rows.push(Row::of_slots("long periods", spare, &long));
            rows.push(Row::of_slots("all equal", spare, &ties(n, spare)));
        }
    }
    rows.extend([admissions(), malformed(), longest_malformed()]);
    rows
}

/// The line of a set on 32 units.
fn admission(set: &Set) -> String {
    let tasks: String = set.iter().map(|(e, p)| format!("{e:04X}{p:04X}")).collect();
    format!("0120{:02X}{tasks}\n", set.len())
}

/// Sixteen accepted sets of 64 tasks with long periods and a spare.
fn admissions() -> Row {
    let sets = (1..=16).map(|seed| admission(&long_periods(64, Spare::With, seed)));
    let piece = sets.collect::<String>().into_bytes();
    Row::of_lines(
        "admissions of 64 tasks, long periods",
        Counted::Sets,
        16.0,
        piece,
    )
}

/// Lines of 36 to 44 characters, each malformed in its own way: odd digits, a
/// small letter at the end, an unknown kind, a wrong length, other characters.
fn malformed() -> Row {
    let lines = [
        "012004000100020001000300010004000100050",
        "01200400010002000100030001000400010000000a",
        "0400040001000200010003000100040001000500",
        "01200500010002000100030001000400010005",
        "02040000000000000000000000000000000000",
        "0120040001000200010003 0001000400010005",
        "this is not hexadecimal in any way at all",
        "03000000000000000000000000000000000000",
    ];
    let piece = format!("{}\n", lines.join("\n")).repeat(1_000).into_bytes();
    let amount = piece.len() as f64 / 1e6;
    Row::of_lines(
        "malformed lines of about 40",
        Counted::Megabytes,
        amount,
        piece,
    )
}

/// Lines of 518 characters whose last alone is no digit, so that all have to be
/// looked at.
fn longest_malformed() -> Row {
    let mut line = admission(&ties(64, Spare::With));
    line.replace_range(517..518, "G");
    let piece = line.repeat(500).into_bytes();
    let amount = piece.len() as f64 / 1e6;
    Row::of_lines("malformed lines of 518", Counted::Megabytes, amount, piece)
}
