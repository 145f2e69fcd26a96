//! The shrinker against broken programs, in process.

use compare::frames::{listing, read, run, Frame, Set};
use compare::scripts::{of_seed, Script};
use compare::shrink::shrink;

fn right(script: &Script) -> Vec<u8> {
    let mut output = Vec::new();
    second::serve(&script.bytes()[..], &mut output).unwrap();
    output
}

/// The first of a seed's scripts on which the broken program differs, shrunk.
fn shortest(broken: impl Fn(&Script) -> Vec<u8>) -> Script {
    let mut differs = |script: &Script| broken(script) != right(script);
    let script = of_seed(4, 5_000)
        .find(|script| differs(script))
        .expect("a difference");
    shrink(script, 10_000, &mut differs)
}

/// The answers to lines that were changed before they were read.
fn changed(script: &Script, change: impl Fn(&[u8]) -> Vec<u8>) -> Vec<u8> {
    let mut script = script.clone();
    for line in &mut script.lines {
        *line = change(line);
    }
    right(&script)
}

#[test]
fn a_program_that_takes_small_letters() {
    let script = shortest(|script| changed(script, |line| line.to_ascii_uppercase()));
    let line = script.lines.last().unwrap();
    let small = line.iter().filter(|byte| byte.is_ascii_lowercase());
    assert_eq!(small.count(), 1);
    assert!(script.lines.len() <= 2 && script.last_feed);
}

#[test]
fn a_program_that_runs_at_most_two_slots() {
    let at_most_two = |line: &[u8]| match read(line) {
        Frame::Run(slots) if slots <= 1_024 => run(slots.min(2)),
        _ => line.to_vec(),
    };
    let script = shortest(|script| changed(script, at_most_two));
    assert_eq!(script.lines, [Set::new(1, &[(1, 2)]).line(), run(3)]);
}

#[test]
fn a_program_that_forgets_the_third_task() {
    let forgets = |line: &[u8]| match read(line) {
        Frame::Admission(mut set) => {
            set.tasks.truncate(2);
            set.line()
        }
        _ => line.to_vec(),
    };
    let script = shortest(|script| changed(script, forgets));
    assert_eq!(script.lines.len(), 1);
    assert!(matches!(read(&script.lines[0]), Frame::Admission(set) if set.tasks.len() == 3));
}

#[test]
fn a_program_that_reads_only_ended_lines() {
    let script = shortest(|script| {
        let bytes = script.bytes();
        let end = bytes
            .iter()
            .rposition(|byte| *byte == b'\n')
            .map_or(0, |place| place + 1);
        let mut output = Vec::new();
        second::serve(&bytes[..end], &mut output).unwrap();
        output
    });
    assert!(!script.last_feed);
    assert_eq!(script.lines.len(), 1);
}

#[test]
fn a_line_one_digit_too_long_stays_just_too_long() {
    let script = shortest(|script| {
        changed(script, |line| {
            if line.len() > 518 {
                listing()
            } else {
                line.to_vec()
            }
        })
    });
    assert_eq!(script.lines.len(), 2);
    assert_eq!(script.lines[1].len(), 519);
}

#[test]
fn no_more_tries_than_allowed() {
    let script = of_seed(4, 100).next().unwrap();
    let mut tries = 0;
    shrink(script, 7, &mut |_| {
        tries += 1;
        false
    });
    assert_eq!(tries, 7);
}
