//! Scripts: lines that are fed to both programs, and how a seed makes them.

use crate::frames::{listing, run, Set};
use crate::generator::Generator;
use crate::{malformed, sets};

/// Lines without their line feeds.
pub type Lines = Vec<Vec<u8>>;

/// What is fed. The last line may lack its line feed.
#[derive(Debug, Clone, PartialEq, Eq, Default)]
pub struct Script {
    pub lines: Lines,
    pub last_feed: bool,
}

impl Script {
    pub fn new(lines: Lines) -> Script {
        Script {
            lines,
            last_feed: true,
        }
    }

    /// The same lines, the last one without its line feed.
    pub fn unended(lines: Lines) -> Script {
        Script {
            lines,
            last_feed: false,
        }
    }

    /// The input. An empty last line is there only by its line feed, so it
    /// always gets one.
    pub fn bytes(&self) -> Vec<u8> {
        let mut bytes = self.lines.join(&b'\n');
        let empty_last = self.lines.last().is_some_and(|line| line.is_empty());
        if !self.lines.is_empty() && (self.last_feed || empty_last) {
            bytes.push(b'\n');
        }
        bytes
    }

    /// The first lines, each with its line feed.
    pub fn first(&self, count: usize) -> Script {
        Script::new(self.lines[..count].to_vec())
    }
}

/// About how many symbols the runs of one script may read. Strings that tie are
/// read to their end for each pair of tasks and each slot; this keeps a script
/// well below a second also for a program that keeps no strings.
const ROOM: u64 = 12_000_000;

/// One script is made of this many lines at most.
pub const MOST_LINES: usize = 120;

/// The scripts of a seed with `lines` lines in all.
pub fn of_seed(seed: u64, lines: usize) -> impl Iterator<Item = Script> {
    let mut left = lines;
    (0..).map_while(move |number| {
        let mut maker = Maker::new(Generator::of_script(seed, number));
        let count = maker.length().min(left);
        left -= count;
        (count > 0).then(|| maker.script(count))
    })
}

/// Makes one script, line by line.
struct Maker {
    g: Generator,
    /// The set in force, if one was accepted.
    set: Option<Set>,
    room: u64,
}

impl Maker {
    fn new(g: Generator) -> Maker {
        Maker {
            g,
            set: None,
            room: ROOM,
        }
    }

    /// Mostly short, so that a difference is found in few lines.
    fn length(&mut self) -> usize {
        match self.g.below(8) {
            0 => self.g.between(1, 4) as usize,
            7 => self.g.between(41, MOST_LINES as u32) as usize,
            _ => self.g.between(5, 40) as usize,
        }
    }

    fn script(mut self, count: usize) -> Script {
        let lines = (0..count).map(|_| self.line()).collect();
        Script {
            lines,
            last_feed: !self.g.one_in(3),
        }
    }

    fn line(&mut self) -> Vec<u8> {
        match self.g.below(20) {
            0..=3 => self.accepted(),
            4..=5 => sets::refused(&mut self.g).line(),
            6..=8 => malformed::any(&mut self.g),
            9..=11 => listing(),
            _ => self.run(),
        }
    }

    fn accepted(&mut self) -> Vec<u8> {
        let set = sets::accepted(&mut self.g);
        let line = set.line();
        self.set = Some(set);
        line
    }

    /// A run of any length, cut to what the room still allows. Without a set it
    /// is malformed and costs nothing.
    fn run(&mut self) -> Vec<u8> {
        let slots = self.slots();
        let Some(set) = &self.set else {
            return run(slots);
        };
        if slots > 1_024 {
            return run(slots);
        }
        let cost = Cost::of(set);
        let affordable = self.room.saturating_sub(cost.start) / cost.slot;
        let slots = u64::from(slots).min(affordable);
        if slots == 0 {
            return listing();
        }
        self.room -= cost.start + slots * cost.slot;
        run(slots as u16)
    }

    fn slots(&mut self) -> u16 {
        match self.g.below(16) {
            0 => 0,
            1..=4 => 1,
            5..=9 => self.g.between(2, 12) as u16,
            10..=11 => self.g.between(13, 200) as u16,
            12 => self.g.between(201, 1_023) as u16,
            13 => 1_024,
            14 => 1_025,
            _ => self.g.pick(&[1_026, 2_048, 32_768, 65_535]),
        }
    }
}

/// About how many symbols are read at the start of a run and in each slot.
struct Cost {
    start: u64,
    slot: u64,
}

impl Cost {
    fn of(set: &Set) -> Cost {
        let l = sets::multiple(&set.tasks).unwrap_or(sets::MOST_L);
        let load = sets::load(&set.tasks, l);
        let spare = l / sets::gcd(load, l);
        let periods = set.tasks.iter().map(|&(_, p)| u64::from(p)).sum::<u64>();
        Cost {
            start: periods + spare,
            slot: 40 * set.tasks.len() as u64 + tied(set),
        }
    }
}

/// For each pair of tasks of equal weight, the length of their common string.
fn tied(set: &Set) -> u64 {
    let lowest = |(e, p): (u16, u16)| {
        let divisor = sets::gcd(e.into(), p.into());
        (u64::from(e) / divisor, u64::from(p) / divisor)
    };
    let mut weights: Vec<(u64, u64)> = set.tasks.iter().map(|&task| lowest(task)).collect();
    weights.sort();
    weights
        .chunk_by(|a, b| a == b)
        .filter(|equal| equal.len() > 1)
        .map(|equal| equal.len() as u64 * equal.len() as u64 * equal[0].1)
        .sum()
}
