//! Answer lines: "in the same form", each ended with a line feed.

use crate::admission::{Admitted, MOST_TASKS};
use crate::hex::PAIRS;
use crate::refusal::Refusal;
use std::io::{self, Write};

/// Beyond this many bytes the answers are written out.
const MANY: usize = 64 * 1024;
/// Room for those and for the longest answer to one line: 1,024 slots of at
/// most 32 places, 77 bytes each. So the block never has to grow.
const ROOM: usize = MANY + 1_024 * 77;

/// "82, t (4), number of chosen tasks (1)", all in digits.
const SLOT_HEAD: usize = 12;
const SLOT_LINE: usize = SLOT_HEAD + 2 * MOST_TASKS + 1;

/// The answers that are not written out yet.
pub struct Answers {
    block: Vec<u8>,
    slot_line: [u8; SLOT_LINE],
}

impl Answers {
    pub fn new() -> Answers {
        let mut slot_line = [0; SLOT_LINE];
        slot_line[..2].copy_from_slice(&PAIRS[0x82]);
        Answers {
            block: Vec::with_capacity(ROOM),
            slot_line,
        }
    }

    pub fn write_many(&mut self, output: &mut impl Write) -> io::Result<()> {
        if self.block.len() < MANY {
            return Ok(());
        }
        self.write_all(output)
    }

    pub fn write_all(&mut self, output: &mut impl Write) -> io::Result<()> {
        output.write_all(&self.block)?;
        self.block.clear();
        output.flush()
    }

    /// "82, t (4), number of chosen tasks (1), their places (1 each) rising".
    /// Each place is written as if it were chosen, and the next one overwrites
    /// it if it is not: that is quicker than to ask.
    pub fn slot(&mut self, t: u32, chosen: &[u8]) {
        let line = &mut self.slot_line;
        for (pair, byte) in line[2..10].chunks_exact_mut(2).zip(t.to_be_bytes()) {
            pair.copy_from_slice(&PAIRS[byte as usize]);
        }
        let mut end = SLOT_HEAD;
        for (&mark, pair) in chosen.iter().zip(&PAIRS) {
            line[end..end + 2].copy_from_slice(pair);
            end += 2 * usize::from(mark);
        }
        line[10..12].copy_from_slice(&PAIRS[(end - SLOT_HEAD) / 2]);
        line[end] = b'\n';
        self.block.extend_from_slice(&line[..=end]);
    }

    /// "81, M (1), L (4), spare e (4), spare p (4)"
    pub fn admitted(&mut self, answer: &Admitted) {
        self.bytes(&[0x81, answer.units as u8]);
        for number in [answer.l, answer.spare.0, answer.spare.1] {
            self.bytes(&number.to_be_bytes());
        }
        self.block.push(b'\n');
    }

    /// "83, t (4), the n bytes"
    pub fn listing(&mut self, t: u32, standings: impl Iterator<Item = u8>) {
        self.bytes(&[0x83]);
        self.bytes(&t.to_be_bytes());
        for byte in standings {
            self.bytes(&[byte]);
        }
        self.block.push(b'\n');
    }

    /// "8F, number (1), place (1) for 4 and 8, FF for the others"
    pub fn refusal(&mut self, refusal: Refusal) {
        self.bytes(&[0x8F, refusal.number, refusal.place]);
        self.block.push(b'\n');
    }

    fn bytes(&mut self, bytes: &[u8]) {
        for &byte in bytes {
            self.block.extend_from_slice(&PAIRS[byte as usize]);
        }
    }
}
