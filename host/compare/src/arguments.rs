//! The command line.

use std::path::PathBuf;
use std::time::Duration;

pub const HELP: &str = "\
compare: feeds the same frames to two programs and compares what they write, byte for byte.

Usage: compare WHAT [OPTION]..., from the repository's root. WHAT is one of
  --seed N          scripts made from a seed; any number of times
  --seeds A..B      every seed from A to B, both included
  --gate            fixed scripts, fixed seeds, named pipes and cuts, in short
  --cuts            input cut at every place, and one byte at a time
  --pipe            named pipes: the next frame only after the answer to the last
  --long            a set run to the calendar's end
Options
  --lines COUNT     lines of each seed (1000; with --cuts 20, with --pipe 60)
  --limit SECONDS   the time that one script may take (20)
  --save FILE       keeps the script that differs
  --ours PATH       our program (crates/prettavorn/out/prettavorn, which ./prettavorn builds)
  --second PATH     the second program (host/second/target/release/second)
  --help            this text
--cuts and --pipe take seeds too; --gate and --long have their own, and their own lines.

Codes: 0 no difference; 1 a difference, shown as the shortest script that was found;
2 a wrong command line, or a program that cannot be run.

Example: host/compare/target/release/compare --seed 7 --lines 200
";

/// Lines of each seed where `--lines` is not given.
const SEED_LINES: usize = 1_000;
const CUT_LINES: usize = 20;
const PIPE_LINES: usize = 60;

#[derive(Debug, Clone, Copy, PartialEq, Eq)]
pub enum Work {
    Seeds,
    Gate,
    Cuts,
    Pipe,
    Long,
    Help,
}

#[derive(Debug, Clone, PartialEq, Eq)]
pub struct Arguments {
    pub ours: PathBuf,
    pub second: PathBuf,
    pub limit: Duration,
    pub seeds: Vec<u64>,
    pub lines: usize,
    pub work: Work,
    pub save: Option<PathBuf>,
}

/// What was said, word by word.
#[derive(Default)]
struct Said {
    ours: Option<PathBuf>,
    second: Option<PathBuf>,
    limit: Option<u64>,
    seeds: Vec<u64>,
    lines: Option<u64>,
    work: Option<Work>,
    save: Option<PathBuf>,
    help: bool,
}

/// The arguments, or what is wrong with them.
pub fn read(mut words: impl Iterator<Item = String>) -> Result<Arguments, String> {
    let mut said = Said::default();
    while let Some(word) = words.next() {
        said.word(&word, &mut words)?;
    }
    said.arguments()
}

impl Said {
    fn word(&mut self, word: &str, words: &mut impl Iterator<Item = String>) -> Result<(), String> {
        let mut value = || words.next().ok_or(format!("{word} needs a value"));
        match word {
            "--help" => self.help = true,
            "--ours" => self.ours = Some(value()?.into()),
            "--second" => self.second = Some(value()?.into()),
            "--save" => self.save = Some(value()?.into()),
            "--limit" => self.limit = Some(above_0(word, &value()?)?),
            "--lines" => self.lines = Some(above_0(word, &value()?)?),
            "--seed" => self.seeds.push(number(&value()?)?),
            "--seeds" => self.seeds.extend(range(&value()?)?),
            "--gate" => self.set(Work::Gate)?,
            "--cuts" => self.set(Work::Cuts)?,
            "--pipe" => self.set(Work::Pipe)?,
            "--long" => self.set(Work::Long)?,
            _ => return Err(format!("{word} is not known")),
        }
        Ok(())
    }

    fn set(&mut self, work: Work) -> Result<(), String> {
        match self.work.replace(work) {
            Some(former) if former != work => {
                Err("only one of --gate, --cuts, --pipe and --long".to_string())
            }
            _ => Ok(()),
        }
    }

    fn arguments(self) -> Result<Arguments, String> {
        let work = match self.work {
            _ if self.help => Work::Help,
            work => work.unwrap_or(Work::Seeds),
        };
        let given = !self.seeds.is_empty() || self.lines.is_some();
        let lines = match work {
            Work::Gate | Work::Long if given => {
                return Err("--gate and --long have their own seeds and lines".to_string())
            }
            Work::Seeds if self.seeds.is_empty() => {
                return Err("no seed and nothing else to do".to_string())
            }
            Work::Cuts => CUT_LINES,
            Work::Pipe => PIPE_LINES,
            _ => SEED_LINES,
        };
        Ok(Arguments {
            ours: self
                .ours
                .unwrap_or("crates/prettavorn/out/prettavorn".into()),
            second: self
                .second
                .unwrap_or("host/second/target/release/second".into()),
            limit: Duration::from_secs(self.limit.unwrap_or(20)),
            seeds: self.seeds,
            lines: self.lines.map_or(lines, |lines| lines as usize),
            work,
            save: self.save,
        })
    }
}

fn number(text: &str) -> Result<u64, String> {
    text.parse().map_err(|_| format!("{text} is no number"))
}

fn above_0(word: &str, text: &str) -> Result<u64, String> {
    match number(text)? {
        0 => Err(format!("{word} 0 would do nothing")),
        number => Ok(number),
    }
}

/// "A..B": from A to B, both included.
fn range(text: &str) -> Result<impl Iterator<Item = u64>, String> {
    let (first, last) = text
        .split_once("..")
        .ok_or(format!("{text} is no range A..B"))?;
    let (first, last) = (number(first)?, number(last)?);
    if first > last {
        return Err(format!("{text} has no seed in it"));
    }
    Ok(first..=last)
}

#[cfg(test)]
mod tests {
    use super::*;

    fn read_text(text: &str) -> Result<Arguments, String> {
        read(text.split_whitespace().map(str::to_string))
    }

    #[test]
    fn seeds_are_gathered() {
        let arguments = read_text("--seed 9 --seeds 2..4 --lines 50").unwrap();
        assert_eq!(arguments.seeds, [9, 2, 3, 4]);
        assert_eq!((arguments.lines, arguments.work), (50, Work::Seeds));
    }

    #[test]
    fn what_is_not_understood_is_refused() {
        for text in ["", "--seed", "--seed x", "--seeds 3", "--what", "--lines 5"] {
            assert!(read_text(text).is_err());
        }
    }

    #[test]
    fn lines_are_those_of_the_work_unless_given() {
        for (text, lines) in [
            ("--seed 1", 1_000),
            ("--cuts", 20),
            ("--pipe", 60),
            ("--pipe --lines 7", 7),
            ("--lines 8 --cuts", 8),
        ] {
            assert_eq!(read_text(text).unwrap().lines, lines, "{text}");
        }
    }

    #[test]
    fn help_is_asked_for() {
        for text in ["--help", "--seed 1 --help", "--help --gate --lines 5"] {
            assert_eq!(read_text(text).unwrap().work, Work::Help, "{text}");
        }
        assert!(read_text("--help --what").is_err());
    }

    #[test]
    fn what_would_be_passed_over_is_refused() {
        for text in [
            "--seeds 4..3",
            "--seed 1 --lines 0",
            "--gate --limit 0",
            "--gate --lines 5",
            "--long --seed 1",
            "--gate --long",
        ] {
            assert!(read_text(text).is_err(), "{text}");
        }
    }
}
