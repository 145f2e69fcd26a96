//! `compare`: see `--help`, and README.md for what is made from seeds.

use compare::arguments::{self, Arguments, Work, HELP};
use compare::check::{Difference, Pair};
use compare::cuts::{self, Expected};
use compare::scripts::{of_seed, Script};
use compare::tally::Tally;
use compare::{fixed, long, pipe, report};
use std::io::{self, Write};
use std::process::ExitCode;
use std::time::Instant;

/// The gate's seeds and how many lines of each.
const GATE_SEEDS: [u64; 6] = [1, 2, 3, 5, 8, 13];
const GATE_LINES: usize = 2_000;
const GATE_PIPE_LINES: usize = 30;
const GATE_CUT_LINES: usize = 20;
/// The seeds of the cuts and the pipes, if none are given.
const SHORT_SEEDS: [u64; 3] = [101, 102, 103];

/// Why the work is at its end.
enum Stop {
    Difference(Box<Difference>),
    /// In the long check.
    Told(String),
    Failed(io::Error),
}

impl From<io::Error> for Stop {
    fn from(error: io::Error) -> Stop {
        Stop::Failed(error)
    }
}

impl From<Box<Difference>> for Stop {
    fn from(difference: Box<Difference>) -> Stop {
        Stop::Difference(difference)
    }
}

fn main() -> ExitCode {
    let arguments = match arguments::read(std::env::args().skip(1)) {
        Ok(arguments) => arguments,
        Err(wrong) => {
            eprintln!("compare: {wrong} (compare --help says more)");
            return ExitCode::from(2);
        }
    };
    if arguments.work == Work::Help {
        return help();
    }
    let mut driver = Driver::new(&arguments);
    match driver.work(&arguments) {
        Ok(()) => driver.no_difference(),
        Err(stop) => stopped(stop, &arguments),
    }
}

/// A reader that stops early (`| head`) is no error.
fn help() -> ExitCode {
    let _ = io::stdout().write_all(HELP.as_bytes());
    ExitCode::SUCCESS
}

/// What is printed when the work did not come to its end.
fn stopped(stop: Stop, arguments: &Arguments) -> ExitCode {
    match stop {
        Stop::Difference(difference) => {
            print!("{}", report::difference(&difference));
            save(&difference.script, arguments);
            ExitCode::from(1)
        }
        Stop::Told(what) => {
            println!("DIFFERENCE: {what}");
            save(&long::script(), arguments);
            ExitCode::from(1)
        }
        Stop::Failed(error) => {
            eprintln!("compare: {error}");
            ExitCode::from(2)
        }
    }
}

fn save(script: &Script, arguments: &Arguments) {
    if let Some(path) = &arguments.save {
        if let Err(error) = std::fs::write(path, script.bytes()) {
            eprintln!("{}: {error}", path.display());
        }
    }
}

struct Driver {
    pair: Pair,
    tally: Tally,
    /// The seeds that were used, for the last line.
    seeds: Vec<u64>,
    start: Instant,
}

impl Driver {
    fn new(arguments: &Arguments) -> Driver {
        Driver {
            pair: Pair::new(&arguments.ours, &arguments.second, arguments.limit),
            tally: Tally::default(),
            seeds: Vec::new(),
            start: Instant::now(),
        }
    }

    fn work(&mut self, arguments: &Arguments) -> Result<(), Stop> {
        let seeds = &arguments.seeds;
        let short = if seeds.is_empty() {
            &SHORT_SEEDS[..]
        } else {
            seeds
        };
        match arguments.work {
            Work::Seeds => self.seeds(seeds, arguments.lines),
            Work::Gate => self.gate(),
            Work::Cuts => self.cuts(short, arguments.lines, 1),
            Work::Pipe => self.pipe(short, arguments.lines),
            Work::Long => self.long(),
            Work::Help => Ok(()),
        }
    }

    fn gate(&mut self) -> Result<(), Stop> {
        self.fixed()?;
        self.seeds(&GATE_SEEDS, GATE_LINES)?;
        self.pipe(&SHORT_SEEDS[..1], GATE_PIPE_LINES)?;
        self.cuts(&SHORT_SEEDS[1..2], GATE_CUT_LINES, 5)
    }

    fn compare(&mut self, script: &Script) -> Result<(), Stop> {
        let output = self.pair.compare(script)??;
        self.tally.script(script, &output);
        Ok(())
    }

    fn fixed(&mut self) -> Result<(), Stop> {
        let scripts = fixed::all();
        for named in &scripts {
            self.compare(&named.script)?;
        }
        self.told(&format!("{} fixed scripts", scripts.len()));
        Ok(())
    }

    fn seeds(&mut self, seeds: &[u64], lines: usize) -> Result<(), Stop> {
        for &seed in seeds {
            for script in of_seed(seed, lines) {
                self.compare(&script)?;
            }
            self.seeds.push(seed);
            self.told(&format!("seed {seed}, {lines} lines"));
        }
        Ok(())
    }

    /// The short script at every place, the others `step` bytes apart, and all of
    /// them but the longest one byte at a time.
    fn cuts(&mut self, seeds: &[u64], lines: usize, step: usize) -> Result<(), Stop> {
        self.cut(cuts::short_script(), 1)?;
        self.cut(cuts::wide_script(), 3 * step)?;
        let (script, places) = cuts::deep_script();
        self.compare(&script)?;
        let expected = Expected::new(&self.pair.second, script)?;
        found(expected.at(&self.pair, places.into_iter().step_by(step))?)?;
        for &seed in seeds {
            for script in of_seed(seed, lines) {
                self.cut(script, 2 * step)?;
            }
            self.seeds.push(seed);
        }
        self.told("cuts");
        Ok(())
    }

    fn cut(&mut self, script: Script, step: usize) -> Result<(), Stop> {
        self.compare(&script)?;
        let expected = Expected::new(&self.pair.second, script)?;
        found(expected.each_place(&self.pair, step)?)?;
        found(expected.byte_by_byte(&self.pair)?)
    }

    fn pipe(&mut self, seeds: &[u64], lines: usize) -> Result<(), Stop> {
        let mut scripts = vec![
            cuts::short_script(),
            cuts::wide_script(),
            cuts::deep_script().0,
        ];
        for &seed in seeds {
            scripts.extend(of_seed(seed, lines));
            self.seeds.push(seed);
        }
        for script in scripts {
            self.compare(&script)?;
            found(pipe::check(&self.pair, &script)?.0)?;
        }
        self.told("named pipes");
        Ok(())
    }

    fn long(&mut self) -> Result<(), Stop> {
        self.tally = long::check(&self.pair)?.map_err(Stop::Told)?;
        Ok(())
    }

    fn told(&self, what: &str) {
        println!(
            "{what}: no difference, {:.1} s so far",
            self.start.elapsed().as_secs_f64()
        );
    }

    fn no_difference(&self) -> ExitCode {
        println!("{}", self.tally);
        let seeds: Vec<String> = self.seeds.iter().map(u64::to_string).collect();
        if !seeds.is_empty() {
            println!("seeds {}", seeds.join(" "));
        }
        println!("no difference, {:.1} s", self.start.elapsed().as_secs_f64());
        ExitCode::SUCCESS
    }
}

fn found(found: cuts::Found) -> Result<(), Stop> {
    found.map_or(Ok(()), |difference| Err(difference.into()))
}
