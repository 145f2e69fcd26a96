//! One row: how long a script each program gets, whether its answers are right,
//! and its best time.

use crate::program::Program;
use crate::rows::Row;
use std::fs;
use std::io;
use std::path::{Path, PathBuf};
use std::time::Duration;

/// The fastest program's script takes about so long.
const AIM: f64 = 0.35;
/// A program that would take longer on it gets a shorter one of the same row.
const MOST: f64 = 1.2;

/// What became of one program on one row.
#[derive(Debug, Clone, Copy, PartialEq)]
pub enum Cell {
    /// So many a second
    Speed(f64),
    /// The answers are not those of the plain program, so it was not timed.
    Differs,
}

/// The best of some runs for each program, the runs interleaved, so that a slow
/// moment of the machine falls on all of them.
pub fn time_row(row: &Row, programs: &[Program], runs: usize, dir: &Path) -> io::Result<Vec<Cell>> {
    let (pieces, scripts) = lay_out(row, programs, dir)?;
    let right = check(programs, &scripts)?;
    let mut best = vec![Duration::MAX; programs.len()];
    for _ in 0..runs {
        for (i, program) in programs.iter().enumerate() {
            if right[i] {
                best[i] = best[i].min(program.time(&scripts[i])?);
            }
        }
    }
    let cells = (0..programs.len()).map(|i| match right[i] {
        true => Cell::Speed(row.amount * pieces[i] as f64 / best[i].as_secs_f64()),
        false => Cell::Differs,
    });
    Ok(cells.collect())
}

/// The number of pieces for each program, and its script.
fn lay_out(row: &Row, programs: &[Program], dir: &Path) -> io::Result<(Vec<usize>, Vec<PathBuf>)> {
    let trial = dir.join("trial");
    let mut a_second = Vec::new();
    for program in programs {
        a_second.push(pieces_a_second(row, program, plain(programs), &trial)?);
    }
    let fastest = a_second.iter().copied().fold(0.0, f64::max);
    let full = (fastest * AIM).clamp(1.0, row.most_pieces() as f64);
    let pieces = a_second
        .iter()
        .map(|speed| full.min(speed * MOST).max(1.0) as usize);
    let pieces: Vec<usize> = pieces.collect();
    let mut scripts = Vec::new();
    for &number in &pieces {
        let script = dir.join(format!("script-{number}"));
        if !script.exists() {
            fs::write(&script, row.script(number))?;
        }
        scripts.push(script);
    }
    Ok((pieces, scripts))
}

/// Ever longer scripts, until one takes long enough to be believed. A program
/// whose answers to the first differ has no speed: it must not size the row.
fn pieces_a_second(
    row: &Row,
    program: &Program,
    plain: &Program,
    script: &Path,
) -> io::Result<f64> {
    let mut pieces = 4;
    fs::write(script, row.script(pieces))?;
    if program.answers(script)? != plain.answers(script)? {
        return Ok(0.0);
    }
    loop {
        fs::write(script, row.script(pieces))?;
        let time = program.time(script)?.as_secs_f64();
        if time > 0.06 || pieces * 4 > row.most_pieces() {
            return Ok(pieces as f64 / time);
        }
        pieces *= 4;
    }
}

/// Whether each program answers its script as the plain program, the last of
/// them, does.
fn check(programs: &[Program], scripts: &[PathBuf]) -> io::Result<Vec<bool>> {
    let plain = plain(programs);
    let mut right = Vec::new();
    for (program, script) in programs.iter().zip(scripts) {
        right.push(program.answers(script)? == plain.answers(script)?);
    }
    Ok(right)
}

fn plain(programs: &[Program]) -> &Program {
    programs.last().expect("plain is always there")
}
