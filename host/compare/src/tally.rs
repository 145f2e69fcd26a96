//! What was fed and what was answered, counted.

use crate::frames::{read, Frame};
use crate::scripts::Script;
use std::fmt;

#[derive(Debug, Clone, Default, PartialEq, Eq)]
pub struct Tally {
    pub scripts: u64,
    pub lines: u64,
    pub bytes: u64,
    /// Admissions, runs, listings and malformed lines.
    pub frames: [u64; 4],
    pub answers: Answers,
}

/// The answers, line by line. A line may come in several parts.
#[derive(Debug, Clone, Default, PartialEq, Eq)]
pub struct Answers {
    pub bytes: u64,
    /// By the last digit of the kind: 81, 82, 83.
    pub kinds: [u64; 4],
    /// By the number of the refusal, and under 0 what is no answer at all.
    pub refusals: [u64; 12],
    begun: Vec<u8>,
}

impl Tally {
    pub fn script(&mut self, script: &Script, output: &[u8]) {
        self.scripts += 1;
        self.bytes += script.bytes().len() as u64;
        for line in &script.lines {
            self.line(line);
        }
        self.answers.part(output);
    }

    pub fn line(&mut self, line: &[u8]) {
        self.lines += 1;
        let kind = match read(line) {
            Frame::Admission(_) => 0,
            Frame::Run(_) => 1,
            Frame::Listing => 2,
            Frame::Malformed => 3,
        };
        self.frames[kind] += 1;
    }
}

impl Answers {
    /// Counts the lines of a part; what follows the last line feed is kept. Of
    /// each line the first six digits are enough.
    pub fn part(&mut self, part: &[u8]) {
        self.bytes += part.len() as u64;
        let mut pieces = part.split(|&byte| byte == b'\n').peekable();
        while let Some(piece) = pieces.next() {
            let missing = 6usize.saturating_sub(self.begun.len());
            self.begun.extend(&piece[..piece.len().min(missing)]);
            if pieces.peek().is_some() {
                self.line();
            }
        }
    }

    fn line(&mut self) {
        let line = std::mem::take(&mut self.begun);
        match (line.get(..2), line.get(2..4)) {
            (Some(b"81"), _) => self.kinds[1] += 1,
            (Some(b"82"), _) => self.kinds[2] += 1,
            (Some(b"83"), _) => self.kinds[3] += 1,
            (Some(b"8F"), Some(number)) => self.refusals[refusal_number(number)] += 1,
            _ => self.refusals[0] += 1,
        }
    }
}

fn refusal_number(digits: &[u8]) -> usize {
    std::str::from_utf8(digits)
        .ok()
        .and_then(|text| usize::from_str_radix(text, 16).ok())
        .filter(|number| *number <= 11)
        .unwrap_or(0)
}

impl fmt::Display for Tally {
    fn fmt(&self, f: &mut fmt::Formatter) -> fmt::Result {
        let [admissions, runs, listings, malformed] = self.frames;
        let [_, accepted, slots, listed] = self.answers.kinds;
        writeln!(
            f,
            "scripts {}, lines {}, bytes {}",
            self.scripts, self.lines, self.bytes
        )?;
        writeln!(
            f,
            "frames: 01 {admissions}, 02 {runs}, 03 {listings}, malformed {malformed}"
        )?;
        write!(
            f,
            "answers: 81 {accepted}, 82 {slots}, 83 {listed}, 8F by refusal"
        )?;
        for (number, count) in self.answers.refusals.iter().enumerate() {
            if *count > 0 && number > 0 {
                write!(f, " {number}:{count}")?;
            }
        }
        if self.answers.refusals[0] > 0 {
            write!(f, ", no answer's form {}", self.answers.refusals[0])?;
        }
        write!(f, ", bytes {}", self.answers.bytes)
    }
}

#[cfg(test)]
mod tests {
    use super::*;

    #[test]
    fn answers_are_counted_whatever_the_parts() {
        let output = b"8101000000060000000100000006\n82000000000100\n8F0BFF\n830000000150\n";
        let mut whole = Answers::default();
        whole.part(output);
        assert_eq!((whole.kinds, whole.refusals[11]), ([0, 1, 1, 1], 1));
        let mut bytes = Answers::default();
        output.chunks(1).for_each(|part| bytes.part(part));
        assert_eq!(bytes, whole);
    }

    #[test]
    fn what_is_no_answer_is_counted_apart() {
        let mut answers = Answers::default();
        answers.part(b"\n8F\n8F63FF\n99\n");
        assert_eq!(answers.refusals[0], 4);
    }
}
