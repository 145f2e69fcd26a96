//! The words after the command.

use crate::rows::Row;
use std::path::PathBuf;

pub const HELP: &str = "\
bench: times the proved program, the second program and the plain program on the same scripts of frames.

Usage: bench [OPTION]...
  --runs N            runs of each program on each row; the best counts (5)
  --only TEXT         only the rows whose name has the text in it
  --pairs             times plain --pairs too
  --markdown          writes the table to docs/SPEED.md too
  --prettavorn PATH   another place for the proved program (crates/prettavorn/out/prettavorn)
  --second PATH       another place for the second program (built first, if not given)
  --plain PATH        another place for the plain program (built first, if not given)
  --help              this text

Codes: 0 all answers were the same; 1 some differ, or a program cannot be run; 2 a wrong command line.

Example: host/bench/target/release/bench --runs 1 --only admissions
";

pub struct Options {
    pub runs: usize,
    /// Only rows whose name has this in it
    pub only: String,
    /// Also time the plain program with strings compared two at a time
    pub pairs: bool,
    /// Also write docs/SPEED.md
    pub markdown: bool,
    pub prettavorn: Option<PathBuf>,
    pub second: Option<PathBuf>,
    pub plain: Option<PathBuf>,
}

impl Options {
    /// The options, nothing where help is asked for, or what is wrong with them.
    pub fn read(mut words: impl Iterator<Item = String>) -> Result<Option<Options>, String> {
        let mut options = Options {
            runs: 5,
            only: String::new(),
            pairs: false,
            markdown: false,
            prettavorn: None,
            second: None,
            plain: None,
        };
        let mut help = false;
        while let Some(word) = words.next() {
            match word.as_str() {
                "--help" => help = true,
                "--pairs" => options.pairs = true,
                "--markdown" => options.markdown = true,
                _ => options.set(&word, || {
                    words.next().ok_or(format!("{word} needs a value"))
                })?,
            }
        }
        Ok((!help).then_some(options))
    }

    pub fn wants(&self, row: &Row) -> bool {
        row.name.contains(&self.only)
    }

    fn set(
        &mut self,
        word: &str,
        value: impl FnOnce() -> Result<String, String>,
    ) -> Result<(), String> {
        match word {
            "--runs" => self.runs = above_0(&value()?)?,
            "--only" => self.only = value()?,
            "--prettavorn" => self.prettavorn = Some(value()?.into()),
            "--second" => self.second = Some(value()?.into()),
            "--plain" => self.plain = Some(value()?.into()),
            _ => return Err(format!("{word} is not known")),
        }
        Ok(())
    }
}

fn above_0(text: &str) -> Result<usize, String> {
    match text.parse() {
        Ok(number @ 1..) => Ok(number),
        _ => Err(format!("--runs takes a number from 1 on, not {text}")),
    }
}

#[cfg(test)]
mod tests {
    use super::*;

    fn read(text: &str) -> Result<Option<Options>, String> {
        Options::read(text.split_whitespace().map(str::to_string))
    }

    #[test]
    fn words_are_read() {
        let options = read("--runs 2 --only long --pairs").unwrap().unwrap();
        assert_eq!((options.runs, options.only.as_str()), (2, "long"));
        assert!(options.pairs && !options.markdown);
        assert!(read("--runs 2 --help").unwrap().is_none());
    }

    #[test]
    fn what_is_not_understood_is_refused() {
        for text in ["--what", "--runs", "--runs 0", "--runs x", "--help --what"] {
            assert!(read(text).is_err(), "{text}");
        }
    }
}
