//! `entries`: see `--help`, and README.md for what is made from seeds.

use entries::arguments::{self, Work, HELP};
use entries::check::put;
use entries::make::case;
use entries::tally::Tally;
use entries::{published, report, watch};
use std::io::{self, Write};
use std::process::ExitCode;
use std::time::Instant;

/// The gate's seeds and how many cases of each.
const GATE_SEEDS: [u64; 6] = [1, 2, 3, 4, 5, 6];
const GATE_CASES: u64 = 3_000;

fn main() -> ExitCode {
    let work = match arguments::read(std::env::args().skip(1)) {
        Ok(work) => work,
        Err(wrong) => {
            eprintln!("entries: {wrong} (entries --help says more)");
            return ExitCode::from(2);
        }
    };
    if work == Work::Help || watch::watched() {
        return work_through(work);
    }
    watch::watch().unwrap_or_else(|error| {
        eprintln!("entries: {error}");
        ExitCode::from(2)
    })
}

fn work_through(work: Work) -> ExitCode {
    let right = match work {
        Work::Doors => doors(),
        Work::Gate => doors() && seeds(&GATE_SEEDS, GATE_CASES).is_some_and(all_reached),
        Work::Seeds { seeds: list, cases } => seeds(&list, cases).is_some(),
        Work::Only { seed, number } => {
            println!("{}", report::case_text(&case(seed, number)));
            one(seed, number, &mut Tally::default())
        }
        Work::Help => {
            // A reader that stops early (`| head`) is no error.
            let _ = io::stdout().write_all(HELP.as_bytes());
            return ExitCode::SUCCESS;
        }
    };
    if right {
        println!("no difference");
    }
    ExitCode::from(u8::from(!right))
}

fn doors() -> bool {
    let lines = published::lines();
    for (text, _) in &lines {
        println!("{text}");
    }
    lines.iter().all(|(_, right)| *right)
}

/// Nothing if there is a difference, which is then printed.
fn seeds(seeds: &[u64], cases: u64) -> Option<Tally> {
    let start = Instant::now();
    let mut tally = Tally::default();
    for &seed in seeds {
        for number in 0..cases {
            if !one(seed, number, &mut tally) {
                return None;
            }
        }
    }
    println!("{tally}");
    println!(
        "seeds {seeds:?}, {cases} cases each, {:.1} s",
        start.elapsed().as_secs_f64()
    );
    Some(tally)
}

fn one(seed: u64, number: u64, tally: &mut Tally) -> bool {
    let case = case(seed, number);
    watch::now(&format!("--seed {seed} --only {number}"));
    let seen = put(&case);
    tally.count(&case, &seen);
    for seen in seen.iter().filter(|seen| !seen.agree()) {
        println!("{}", report::difference(&case, seen));
        println!("again: entries --seed {seed} --only {number}");
    }
    seen.iter().all(|seen| seen.agree())
}

/// The gate is worth little if a refusal was never asked for.
fn all_reached(tally: Tally) -> bool {
    let missing = tally.missing();
    if !missing.is_empty() {
        println!("no case reached the refusals {missing:?}");
    }
    missing.is_empty()
}
