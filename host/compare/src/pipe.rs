//! Named pipes: a frame is written, its answer read, and only then the next frame
//! written. A program that waits for more input before it answers fails here.

use crate::check::{Difference, Pair};
use crate::cuts::Found;
use crate::program::{cannot, End, Outcome, Program, Running};
use crate::scripts::Script;
use std::fs::{self, File};
use std::io;
use std::path::{Path, PathBuf};
use std::process::Command;
use std::sync::atomic::{AtomicUsize, Ordering};
use std::time::Duration;

/// How long an answer may take.
const WAIT: Duration = Duration::from_secs(3);

/// How it was fed, for the report.
const FED: &str = "through named pipes, each line only after the answer to the last; \
                   against the second program's answer to the whole";

/// The answers to each line of a script by itself.
pub fn answers_by_line(second: &Program, script: &Script) -> io::Result<Vec<Vec<u8>>> {
    let mut before = 0;
    (1..=script.lines.len())
        .map(|count| {
            let output = second.answer(&script.first(count).bytes())?.output;
            let answer = output[before..].to_vec();
            before = output.len();
            Ok(answer)
        })
        .collect()
}

/// Both programs on one script, line by line.
pub fn check(pair: &Pair, script: &Script) -> io::Result<(Found, Vec<u8>)> {
    let answers = answers_by_line(&pair.second, script)?;
    let whole = Outcome {
        output: answers.concat(),
        end: End::Code(0),
    };
    let (ours, second) = pair.both(|program| line_by_line(program, script, &answers))?;
    let wrong = if ours != whole { ours } else { second };
    if wrong == whole {
        return Ok((None, whole.output));
    }
    let found = Box::new(Difference {
        script: script.clone(),
        fed: FED.to_string(),
        ours: wrong,
        second: whole,
    });
    Ok((Some(found), Vec::new()))
}

/// What a program answers when each line waits for the answer to the last. A
/// missing answer ends the talk, as the end of a program that hangs.
fn line_by_line(program: &Program, script: &Script, answers: &[Vec<u8>]) -> io::Result<Outcome> {
    let pipes = Pipes::new()?;
    let mut running = pipes.start(program)?;
    let mut expected = 0;
    for (line, answer) in script.lines.iter().zip(answers) {
        running.write(&[line, &b"\n"[..]].concat());
        expected += answer.len();
        if !running.wait_for(expected, WAIT) {
            return Ok(Outcome {
                output: running.output().to_vec(),
                end: End::TimeOut,
            });
        }
    }
    Ok(running.finish())
}

/// Two named pipes in a folder of their own, which goes with them.
struct Pipes {
    folder: PathBuf,
    input: PathBuf,
    output: PathBuf,
}

impl Pipes {
    fn new() -> io::Result<Pipes> {
        static NUMBER: AtomicUsize = AtomicUsize::new(0);
        let number = NUMBER.fetch_add(1, Ordering::Relaxed);
        let name = format!("compare-{}-{number}", std::process::id());
        let folder = std::env::temp_dir().join(name);
        fs::create_dir(&folder).map_err(|why| cannot("make", &folder, why))?;
        let pipes = Pipes {
            input: folder.join("input"),
            output: folder.join("output"),
            folder,
        };
        make_pipe(&pipes.input)?;
        make_pipe(&pipes.output)?;
        Ok(pipes)
    }

    /// To open one end of a named pipe waits for the other end, so both ends are
    /// held open until the program has its own.
    fn start(&self, program: &Program) -> io::Result<Running> {
        let hold = |path: &Path| {
            let opened = File::options().read(true).write(true).open(path);
            opened.map_err(|why| cannot("open", path, why))
        };
        let _held = (hold(&self.input)?, hold(&self.output)?);
        Running::start_on(program, &self.input, &self.output)
    }
}

impl Drop for Pipes {
    fn drop(&mut self) {
        let _ = fs::remove_dir_all(&self.folder);
    }
}

/// The standard library makes no named pipes; the system's own command does.
fn make_pipe(path: &Path) -> io::Result<()> {
    let status = Command::new("mkfifo")
        .arg(path)
        .status()
        .map_err(|why| cannot("run", Path::new("mkfifo"), why))?;
    if status.success() {
        Ok(())
    } else {
        Err(io::Error::other(format!("mkfifo failed: {status}")))
    }
}
