//! Both programs on one script, and what counts as a difference.

use crate::program::{End, Outcome, Program};
use crate::scripts::Script;
use crate::shrink::shrink;
use std::io;
use std::path::Path;
use std::thread;
use std::time::{Duration, Instant};

/// How long and how often smaller scripts are tried.
const SHRINK_TIME: Duration = Duration::from_secs(60);
const SHRINK_TRIES: usize = 4_000;
/// A program that hangs would cost the whole limit at each try.
const SHRINK_LIMIT: Duration = Duration::from_secs(2);

/// The two programs.
#[derive(Debug, Clone)]
pub struct Pair {
    pub ours: Program,
    pub second: Program,
}

/// A script and what both programs made of it.
#[derive(Debug, Clone)]
pub struct Difference {
    pub script: Script,
    pub ours: Outcome,
    pub second: Outcome,
    /// How the script was fed, if not at once.
    pub fed: String,
}

/// What is wrong: a shrunk script must show the same, and not just run out of
/// time where the first one gave a wrong answer.
#[derive(Debug, Clone, PartialEq, Eq)]
enum Wrong {
    Nothing,
    Answers,
    Time,
    End,
}

fn wrong(ours: &Outcome, second: &Outcome) -> Wrong {
    match (&ours.end, &second.end) {
        (End::TimeOut | End::Flood, _) | (_, End::TimeOut | End::Flood) => Wrong::Time,
        (End::Code(0), End::Code(0)) if ours.output == second.output => Wrong::Nothing,
        (End::Code(0), End::Code(0)) => Wrong::Answers,
        _ => Wrong::End,
    }
}

/// A program that crashes, hangs or ends with a signal is a difference, even if
/// both do.
pub fn differ(ours: &Outcome, second: &Outcome) -> bool {
    wrong(ours, second) != Wrong::Nothing
}

impl Pair {
    pub fn new(ours: &Path, second: &Path, limit: Duration) -> Pair {
        Pair {
            ours: Program::new(ours, limit),
            second: Program::new(second, limit),
        }
    }

    /// Both at the same time, on the same input.
    pub fn answers(&self, input: &[u8]) -> io::Result<(Outcome, Outcome)> {
        self.both(|program| program.answer(input))
    }

    /// The same use of each program, at the same time.
    pub fn both<T: Send>(
        &self,
        use_of: impl Fn(&Program) -> io::Result<T> + Sync,
    ) -> io::Result<(T, T)> {
        thread::scope(|scope| {
            let ours = scope.spawn(|| use_of(&self.ours));
            let second = use_of(&self.second);
            let ours = ours.join().expect("the thread of our program");
            Ok((ours?, second?))
        })
    }

    /// The answers if they agree, the shrunk difference if they do not.
    pub fn compare(&self, script: &Script) -> io::Result<Result<Vec<u8>, Box<Difference>>> {
        let (ours, second) = self.answers(&script.bytes())?;
        match wrong(&ours, &second) {
            Wrong::Nothing => Ok(Ok(second.output)),
            wrong => Ok(Err(Box::new(self.shortest(script.clone(), wrong)?))),
        }
    }

    fn with_limit(&self, limit: Duration) -> Pair {
        Pair::new(&self.ours.path, &self.second.path, limit)
    }

    fn shortest(&self, script: Script, kind: Wrong) -> io::Result<Difference> {
        let limit = self.ours.limit;
        let quick = self.with_limit(if kind == Wrong::Time {
            SHRINK_LIMIT
        } else {
            limit
        });
        let until = Instant::now() + SHRINK_TIME;
        let script = shrink(script, SHRINK_TRIES, &mut |script| {
            Instant::now() < until
                && quick
                    .answers(&script.bytes())
                    .is_ok_and(|(ours, second)| wrong(&ours, &second) == kind)
        });
        let (ours, second) = self.answers(&script.bytes())?;
        Ok(Difference {
            script,
            ours,
            second,
            fed: String::new(),
        })
    }
}
