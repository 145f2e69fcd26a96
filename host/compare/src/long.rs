//! The long check: a set run to the calendar's end. Both outputs are compared as
//! they come, and nothing but the last answers is kept.

use crate::check::Pair;
use crate::frames::{listing, run, Set};
use crate::program::{End, Program, Running};
use crate::scripts::Script;
use crate::tally::Tally;
use std::io;
use std::sync::mpsc::RecvTimeoutError;
use std::time::{Duration, Instant};

/// A program that writes nothing for so long hangs.
const WAIT: Duration = Duration::from_secs(60);
/// How much of the common answers is kept to be looked at.
const KEPT: usize = 1_024;

/// Slots 0 to 16,777,215 by runs of 1,024, the last one in two parts: 1,023
/// slots up to the listing at 16,777,215, then two, of which the second is
/// refused. After that only a new set gives slots again.
pub fn script() -> Script {
    let set = Set::new(1, &[(1, 2), (1, 3)]).line();
    let mut lines = vec![set.clone()];
    lines.extend(vec![run(1_024); 16_383]);
    lines.extend([
        run(1_023),
        listing(),
        run(2),
        listing(),
        run(1),
        run(0),
        run(1_025),
    ]);
    lines.extend([set, listing(), run(1)]);
    Script::new(lines)
}

/// The last answers by document 01: the slot at 16,777,215 is slot 3 of a round
/// of 6 and so the case's "one task, place 1"; then refusal 7 in the run, for the
/// listing and for another slot, nothing for a run of 0, refusal 10, and the new
/// set's answers.
const LAST: &str = "8200FFFFFF0101
8F07FF
8F07FF
8F07FF
8F0AFF
8101000000060000000100000006
83000000005050
82000000000100
";

/// What was seen, or where the outputs part, in words.
pub fn check(pair: &Pair) -> io::Result<Result<Tally, String>> {
    let script = script();
    let mut tally = Tally::default();
    tally.script(&script, b"");
    let input = script.bytes();
    let mut ours = Stream::start(&pair.ours, &input)?;
    let mut second = Stream::start(&pair.second, &input)?;
    let mut kept = Vec::new();
    let same = common(&mut ours, &mut second, |part| {
        tally.answers.part(part);
        keep(&mut kept, part);
    });
    if let Err(what) = same {
        return Ok(Err(parted(&what, &tally, &kept, &mut ours, &mut second)));
    }
    if !kept.ends_with(LAST.as_bytes()) {
        let last = kept.escape_ascii();
        return Ok(Err(format!(
            "both agree, but the last answers are not those of document 01: {last}"
        )));
    }
    Ok(ended_well(&mut ours, &mut second).map(|()| tally))
}

/// A program's output as it comes.
struct Stream {
    running: Running,
    part: Vec<u8>,
    at: usize,
}

impl Stream {
    fn start(program: &Program, input: &[u8]) -> io::Result<Stream> {
        let mut running = Running::start(program)?;
        running.write(input);
        running.close();
        Ok(Stream {
            running,
            part: Vec::new(),
            at: 0,
        })
    }

    /// What has come and was not looked at; nothing at the end of the output.
    fn rest(&mut self) -> Result<&[u8], String> {
        if self.at == self.part.len() {
            self.part = match self.running.next_part(Instant::now() + WAIT) {
                Ok(part) => part,
                Err(RecvTimeoutError::Disconnected) => Vec::new(),
                Err(RecvTimeoutError::Timeout) => return Err("wrote nothing for a minute".into()),
            };
            self.at = 0;
        }
        Ok(&self.part[self.at..])
    }

    /// The rest of the line, for a report.
    fn line(&mut self) -> Vec<u8> {
        let mut line = Vec::new();
        while let Ok(&[first, ..]) = self.rest() {
            self.at += 1;
            if first == b'\n' || line.len() > KEPT {
                break;
            }
            line.push(first);
        }
        line
    }
}

/// Hands over what both outputs begin with; an error where they part.
fn common(a: &mut Stream, b: &mut Stream, mut each: impl FnMut(&[u8])) -> Result<(), String> {
    loop {
        let left = a.rest().map_err(|what| format!("our program {what}"))?;
        let right = b
            .rest()
            .map_err(|what| format!("the second program {what}"))?;
        if left.is_empty() && right.is_empty() {
            return Ok(());
        }
        let most = left.len().min(right.len());
        let same = (0..most).find(|&i| left[i] != right[i]).unwrap_or(most);
        each(&left[..same]);
        a.at += same;
        b.at += same;
        if same < most || most == 0 {
            return Err("the outputs part".to_string());
        }
    }
}

fn keep(kept: &mut Vec<u8>, part: &[u8]) {
    kept.extend(part);
    if kept.len() > 64 * KEPT {
        kept.drain(..kept.len() - KEPT);
    }
}

/// Names the answer and shows both lines. The script is the long one; it cannot
/// be shorter than the slot that differs, so it is told and not printed.
fn parted(what: &str, tally: &Tally, kept: &[u8], a: &mut Stream, b: &mut Stream) -> String {
    let begun = kept
        .rsplit(|byte| *byte == b'\n')
        .next()
        .unwrap_or(b"")
        .escape_ascii();
    format!(
        "{what} after {} slots (--save FILE keeps the script)\n  our program    {begun}{}\n  second program {begun}{}",
        tally.answers.kinds[2],
        a.line().escape_ascii(),
        b.line().escape_ascii(),
    )
}

fn ended_well(a: &mut Stream, b: &mut Stream) -> Result<(), String> {
    let until = Instant::now() + WAIT;
    let ends = [a.running.end(until), b.running.end(until)];
    if ends == [End::Code(0), End::Code(0)] {
        Ok(())
    } else {
        Err(format!(
            "same answers, but ended by {:?} and {:?}",
            ends[0], ends[1]
        ))
    }
}
