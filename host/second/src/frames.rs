//! Document 01, "Frames".

use crate::entries::{admission, listing, run, Admitted};
use crate::refusal::Refusal;
use std::io::{self, BufRead, Write};

/// "at most 518 digits"
const MOST_DIGITS: usize = 518;

/// The set in force, with its time and counts.
#[derive(Debug, Clone)]
struct Set {
    es: Vec<u32>,
    ps: Vec<u32>,
    ks: Vec<u32>,
    m: u32,
    t: u32,
}

/// A well-formed frame.
enum Frame {
    Admission { m: u32, es: Vec<u32>, ps: Vec<u32> },
    Run { slots: u32 },
    Listing,
}

/// What is kept from one line to the next.
#[derive(Debug, Clone, Default)]
pub struct Session {
    set: Option<Set>,
}

/// "The program reads standard input: lines of hexadecimal, capitals, one frame
/// a line, ended by a line feed (the last may lack it)". The answers of a line
/// are flushed before more input is read.
pub fn serve(mut input: impl BufRead, mut output: impl Write) -> io::Result<()> {
    let mut session = Session::default();
    let mut line = Vec::new();
    loop {
        line.clear();
        // "Empty input gives no output."
        if input.read_until(b'\n', &mut line)? == 0 {
            return Ok(());
        }
        if line.last() == Some(&b'\n') {
            line.pop();
        }
        for answer in session.answer(&line) {
            output.write_all(&answer_line(&answer))?;
        }
        output.flush()?;
    }
}

impl Session {
    /// The answers to one line (without its line feed), each as plain bytes.
    pub fn answer(&mut self, line: &[u8]) -> Vec<Vec<u8>> {
        match (read_frame(line), &mut self.set) {
            (Some(Frame::Admission { m, es, ps }), _) => vec![self.admit(m, es, ps)],
            (Some(Frame::Run { slots }), Some(set)) => set.run(slots),
            (Some(Frame::Listing), Some(set)) => vec![set.list()],
            // "02 or 03 before any set is accepted"
            (Some(_), None) => vec![refused(Refusal::Malformed)],
            (None, _) => vec![refused(Refusal::Malformed)],
        }
    }

    /// "admission, with time and counts set to 0"; "A refused set leaves the
    /// former one in force."
    fn admit(&mut self, m: u32, es: Vec<u32>, ps: Vec<u32>) -> Vec<u8> {
        match admission(&es, &ps, m) {
            Err(refusal) => refused(refusal),
            Ok(admitted) => {
                let ks = vec![0; es.len()];
                self.set = Some(Set {
                    es,
                    ps,
                    ks,
                    m,
                    t: 0,
                });
                accepted(&admitted)
            }
        }
    }
}

impl Set {
    /// "One line a slot: 82, t (4), number of chosen tasks (1), their places (1
    /// each) rising. After a refusal within the run its line follows."
    fn run(&mut self, slots: u32) -> Vec<Vec<u8>> {
        let n = self.es.len();
        let mut log = vec![0; slots as usize * n];
        let answer = run(
            slots,
            &self.es,
            &self.ps,
            &mut self.ks,
            &mut log,
            self.m,
            self.t,
        );
        let done = log.chunks(n).take(answer.done as usize);
        let mut lines: Vec<Vec<u8>> = (self.t..).zip(done).map(|(t, b)| slot_done(t, b)).collect();
        lines.extend(answer.refusal.map(refused));
        self.t += answer.done;
        lines
    }

    /// "Answer 83, t (4), the n bytes."
    fn list(&self) -> Vec<u8> {
        let mut bytes = vec![0; self.es.len()];
        match listing(&self.es, &self.ps, &self.ks, &mut bytes, self.m, self.t) {
            Err(refusal) => refused(refusal),
            Ok(()) => [&[0x83][..], &self.t.to_be_bytes(), &bytes].concat(),
        }
    }
}

/// "Answer 81, M (1), L (4), spare e (4), spare p (4); spare 0 and 0 if none."
fn accepted(admitted: &Admitted) -> Vec<u8> {
    let (e, p) = admitted.spare.unwrap_or((0, 0));
    let mut answer = vec![0x81, admitted.units as u8];
    answer.extend(admitted.l.to_be_bytes());
    answer.extend(e.to_be_bytes());
    answer.extend(p.to_be_bytes());
    answer
}

/// The line of a done slot: "82, t (4), number of chosen tasks (1), their places".
fn slot_done(t: u32, bytes: &[u8]) -> Vec<u8> {
    let chosen: Vec<u8> = (0..bytes.len())
        .filter(|&place| bytes[place] == 1)
        .map(|place| place as u8)
        .collect();
    let mut answer = vec![0x82];
    answer.extend(t.to_be_bytes());
    answer.push(chosen.len() as u8);
    answer.extend(chosen);
    answer
}

/// "Refusal: 8F, number (1), place (1) for 4 and 8, FF for the others."
fn refused(refusal: Refusal) -> Vec<u8> {
    let place = refusal.place().map_or(0xFF, |place| place as u8);
    vec![0x8F, refusal.number(), place]
}

/// The frame of a line, or nothing for "unknown kind, wrong length for the kind"
/// and for all that is not hexadecimal. "big-endian".
fn read_frame(line: &[u8]) -> Option<Frame> {
    let bytes = read_hexadecimal(line)?;
    match bytes[..] {
        [0x01, m, n, ref tasks @ ..] if tasks.len() == 4 * n as usize => Some(Frame::Admission {
            m: m.into(),
            es: tasks.chunks(4).map(|b| number(b[0], b[1])).collect(),
            ps: tasks.chunks(4).map(|b| number(b[2], b[3])).collect(),
        }),
        [0x02, high, low] => Some(Frame::Run {
            slots: number(high, low),
        }),
        [0x03] => Some(Frame::Listing),
        _ => None,
    }
}

fn number(high: u8, low: u8) -> u32 {
    u32::from(u16::from_be_bytes([high, low]))
}

/// Nothing for "odd digits, other characters, an empty line, [...] over 518
/// digits".
fn read_hexadecimal(line: &[u8]) -> Option<Vec<u8>> {
    if line.is_empty() || line.len() > MOST_DIGITS || !line.len().is_multiple_of(2) {
        return None;
    }
    line.chunks(2)
        .map(|pair| Some(digit(pair[0])? * 16 + digit(pair[1])?))
        .collect()
}

/// "hexadecimal, capitals"
fn digit(character: u8) -> Option<u8> {
    match character {
        b'0'..=b'9' => Some(character - b'0'),
        b'A'..=b'F' => Some(character - b'A' + 10),
        _ => None,
    }
}

/// "Answers are written in the same form, and each answer line, the last
/// included, ends with a line feed."
fn answer_line(bytes: &[u8]) -> Vec<u8> {
    let mut line: String = bytes.iter().map(|byte| format!("{byte:02X}")).collect();
    line.push('\n');
    line.into_bytes()
}
