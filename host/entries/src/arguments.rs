//! The command line.

pub const HELP: &str = "\
entries: puts free cases to the proved entries, at both doors, and compares with the second program.

Usage: entries WHAT, which is one of
  --doors                  the cases P1 to P9 (docs/RULES.md, part 8.1), a line for each case and door
  --seed N --cases COUNT   so many cases of the seed (1000); any number of seeds
  --seed N --only I        case I of the seed alone, printed before it is put
  --gate                   the P cases and fixed seeds; each refusal from 1 to 10 must be reached
  --help                   this text

Codes: 0 no difference; 1 a difference, which is shown; 2 a wrong command line.

Example: host/entries/target/release/entries --seed 7 --cases 500
";

#[derive(Debug, Clone, PartialEq, Eq)]
pub enum Work {
    Doors,
    Gate,
    Seeds { seeds: Vec<u64>, cases: u64 },
    Only { seed: u64, number: u64 },
    Help,
}

/// The arguments, or what is wrong with them.
pub fn read(mut words: impl Iterator<Item = String>) -> Result<Work, String> {
    let (mut seeds, mut cases, mut only) = (Vec::new(), None, None);
    let (mut whole, mut help) = (None, false);
    while let Some(word) = words.next() {
        match word.as_str() {
            "--help" => help = true,
            "--doors" | "--gate" if whole.is_some() => {
                return Err("only one of --doors and --gate".to_string())
            }
            "--doors" => whole = Some(Work::Doors),
            "--gate" => whole = Some(Work::Gate),
            "--seed" => seeds.push(number(words.next())?),
            "--cases" => cases = Some(number(words.next())?),
            "--only" => only = Some(number(words.next())?),
            _ => return Err(format!("{word} is not known")),
        }
    }
    match whole {
        _ if help => Ok(Work::Help),
        Some(_) if !seeds.is_empty() || cases.is_some() || only.is_some() => {
            Err("--doors and --gate have their own cases".to_string())
        }
        Some(work) => Ok(work),
        None => of_seeds(seeds, cases, only),
    }
}

fn of_seeds(seeds: Vec<u64>, cases: Option<u64>, only: Option<u64>) -> Result<Work, String> {
    match (&seeds[..], cases, only) {
        ([], _, _) => Err("no seed and nothing else to do".to_string()),
        (_, Some(0), _) => Err("--cases 0 would do nothing".to_string()),
        (_, Some(_), Some(_)) => Err("--only is one case, and --cases are many".to_string()),
        ([seed], None, Some(number)) => Ok(Work::Only {
            seed: *seed,
            number,
        }),
        (_, None, Some(_)) => Err("--only needs one seed".to_string()),
        (_, cases, None) => Ok(Work::Seeds {
            seeds,
            cases: cases.unwrap_or(1_000),
        }),
    }
}

fn number(word: Option<String>) -> Result<u64, String> {
    let word = word.ok_or("a number is missing")?;
    word.parse().map_err(|_| format!("{word} is no number"))
}

#[cfg(test)]
mod tests {
    use super::*;

    #[test]
    fn commands_are_read() {
        let read_text = |text: &str| read(text.split_whitespace().map(str::to_string));
        assert_eq!(read_text("--gate"), Ok(Work::Gate));
        assert_eq!(
            read_text("--seed 4 --only 9"),
            Ok(Work::Only { seed: 4, number: 9 })
        );
        let seeds = Work::Seeds {
            seeds: vec![4, 5],
            cases: 7,
        };
        assert_eq!(read_text("--seed 4 --seed 5 --cases 7"), Ok(seeds));
        for text in [
            "",
            "--cases 4",
            "--seed",
            "--seed x",
            "--seed 1 --seed 2 --only 3",
            "--what",
        ] {
            assert!(read_text(text).is_err());
        }
    }

    #[test]
    fn help_is_asked_for() {
        let read_text = |text: &str| read(text.split_whitespace().map(str::to_string));
        assert_eq!(read_text("--help"), Ok(Work::Help));
        assert_eq!(read_text("--doors --help"), Ok(Work::Help));
    }

    #[test]
    fn what_would_be_passed_over_is_refused() {
        let read_text = |text: &str| read(text.split_whitespace().map(str::to_string));
        for text in [
            "--seed 1 --cases 0",
            "--seed 1 --cases 2 --only 3",
            "--doors --seed 1",
            "--doors --gate",
            "--doors --what",
            "--help --what",
        ] {
            assert!(read_text(text).is_err(), "{text}");
        }
    }
}
