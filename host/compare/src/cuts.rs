//! Input that comes in parts. However it is cut, the answers are those to the
//! whole input.

use crate::check::{differ, Difference, Pair};
use crate::frames::{listing, run, Set};
use crate::program::{Outcome, Program, Running};
use crate::scripts::Script;
use std::io;
use std::thread;
use std::time::Duration;

/// How long answers to the lines before the cut are waited for. A program that
/// keeps them back is no difference here; `pipe` looks at that.
const WAIT: Duration = Duration::from_millis(100);
/// After the answers the program is given this long to read the begun line.
const SETTLE: Duration = Duration::from_millis(1);
const SETTLE_BYTE: Duration = Duration::from_micros(100);

/// A script with the answers to the whole of it and to its first lines.
pub struct Expected {
    script: Script,
    input: Vec<u8>,
    whole: Outcome,
    /// The number of bytes answered after so many lines.
    answered: Vec<usize>,
}

impl Expected {
    pub fn new(second: &Program, script: Script) -> io::Result<Expected> {
        let answered = (0..=script.lines.len())
            .map(|count| Ok(second.answer(&script.first(count).bytes())?.output.len()))
            .collect::<io::Result<Vec<usize>>>()?;
        let input = script.bytes();
        Ok(Expected {
            whole: second.answer(&input)?,
            input,
            answered,
            script,
        })
    }

    pub fn length(&self) -> usize {
        self.input.len()
    }

    /// How many bytes are answered before a cut at this place.
    fn before(&self, place: usize) -> usize {
        let feeds = self.input[..place].iter().filter(|byte| **byte == b'\n');
        self.answered[feeds.count()]
    }

    /// Feeds the input in parts that end at these places and at its end.
    fn answer(&self, program: &Program, places: &[usize], settle: Duration) -> io::Result<Outcome> {
        let mut running = Running::start(program)?;
        let mut start = 0;
        // A program that kept one answer back is not waited for again.
        let mut waits = true;
        for &place in places {
            running.write(&self.input[start..place]);
            waits = waits && running.wait_for(self.before(place), WAIT);
            thread::sleep(settle);
            start = place;
        }
        running.write(&self.input[start..]);
        Ok(running.finish())
    }

    /// Both programs on the input cut at these places.
    fn check(&self, pair: &Pair, places: &[usize], settle: Duration) -> io::Result<Found> {
        let (ours, second) = pair.both(|program| self.answer(program, places, settle))?;
        let wrong = if differ(&ours, &self.whole) {
            &ours
        } else {
            &second
        };
        if !differ(wrong, &self.whole) {
            return Ok(None);
        }
        Ok(Some(Box::new(Difference {
            script: self.script.clone(),
            fed: fed(places),
            ours: wrong.clone(),
            second: self.whole.clone(),
        })))
    }

    /// One cut at each place, `step` bytes apart.
    pub fn each_place(&self, pair: &Pair, step: usize) -> io::Result<Found> {
        self.at(pair, (0..=self.length()).step_by(step))
    }

    /// One cut at each of these places.
    pub fn at(&self, pair: &Pair, places: impl Iterator<Item = usize>) -> io::Result<Found> {
        for place in places.filter(|place| *place <= self.length()) {
            let found = self.check(pair, &[place], SETTLE)?;
            if found.is_some() {
                return Ok(found);
            }
        }
        Ok(None)
    }

    pub fn byte_by_byte(&self, pair: &Pair) -> io::Result<Found> {
        let places: Vec<usize> = (1..self.length()).collect();
        self.check(pair, &places, SETTLE_BYTE)
    }

    pub fn output(&self) -> &[u8] {
        &self.whole.output
    }
}

pub type Found = Option<Box<Difference>>;

/// How it was fed, for the report. What stands on our side there may be the
/// second program cut, if ours agreed.
fn fed(places: &[usize]) -> String {
    let parts = match places {
        [place] => format!("in two parts, cut after {place} bytes"),
        _ => "one byte at a time".to_string(),
    };
    parts + "; against the second program's answer to the whole"
}

/// A short script with every kind of frame, a refused set, an empty line and a
/// carriage return, its last line without a line feed.
pub fn short_script() -> Script {
    let set = Set::new(1, &[(1, 2), (1, 3)]);
    let refused = Set::new(1, &[(2, 3), (2, 3)]);
    let mut lines = vec![listing(), set.line(), run(6), listing(), Vec::new(), run(0)];
    lines.extend([
        b"03\r".to_vec(),
        refused.line(),
        b"0".to_vec(),
        run(2),
        run(1_025),
        listing(),
    ]);
    Script::unended(lines)
}

/// The longest good line, and lines that are too long by one digit and by more.
pub fn wide_script() -> Script {
    let set = Set::new(32, &[(1, 2); 64]);
    let lines = vec![
        set.line(),
        run(1),
        vec![b'0'; 519],
        run(1),
        vec![b'A'; 700],
        listing(),
    ];
    Script::new(lines)
}

/// A line longer than the usual buffers, with a frame behind it, and the places
/// around the ends of those buffers.
pub fn deep_script() -> (Script, Vec<usize>) {
    let set = Set::new(1, &[(1, 2), (1, 3)]);
    let long = [&b"03"[..], &vec![b'0'; 70_000]].concat();
    let script = Script::new(vec![set.line(), run(1), long, run(1), listing()]);
    let ends = [512, 518, 519, 1_024, 4_096, 8_192, 65_536, 70_002];
    // 30 bytes stand before the long line.
    let places = ends
        .into_iter()
        .flat_map(|end| [end - 1, end, end + 1, end + 29, end + 30, end + 31]);
    (script, places.collect())
}
