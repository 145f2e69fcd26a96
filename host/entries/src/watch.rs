//! A library that crashes or hangs takes the program with it. So the cases are
//! put in a second process of this program, which says what it is about to do;
//! the first one watches, and a crash or a hang is a difference like any other.

use std::env;
use std::io::{self, BufRead, BufReader, Read};
use std::os::unix::process::ExitStatusExt;
use std::process::{Child, Command, ExitCode, Stdio};
use std::sync::mpsc::{channel, Receiver, RecvTimeoutError};
use std::thread;
use std::time::Duration;

/// Set in the watched process.
const WATCHED: &str = "ENTRIES_WATCHED";
/// What a word on the next case begins with.
const NOW: &str = "now: ";
/// No case may take longer.
const LIMIT: Duration = Duration::from_secs(30);

pub fn watched() -> bool {
    env::var_os(WATCHED).is_some()
}

/// Says what comes next, to the process that watches.
pub fn now(what: &str) {
    if watched() {
        eprintln!("{NOW}{what}");
    }
}

/// Starts this program again with the same arguments and watches it.
pub fn watch() -> io::Result<ExitCode> {
    let program = env::current_exe()?;
    let mut child = Command::new(&program)
        .args(env::args().skip(1))
        .env(WATCHED, "yes")
        .stderr(Stdio::piped())
        .spawn()
        .map_err(|why| {
            let what = format!("cannot run {} again: {why}", program.display());
            io::Error::new(why.kind(), what)
        })?;
    let words = words(child.stderr.take().expect("a piped stream"));
    let (last, hangs) = last_word(&words);
    if hangs {
        child.kill()?;
    }
    ended(child, &last, hangs)
}

fn words(stream: impl Read + Send + 'static) -> Receiver<String> {
    let (sender, words) = channel();
    thread::spawn(move || {
        for line in BufReader::new(stream).split(b'\n').map_while(Result::ok) {
            let line = String::from_utf8_lossy(&line).into_owned();
            if sender.send(line).is_err() {
                return;
            }
        }
    });
    words
}

/// The last case that was begun, and whether it took too long. Words that are
/// not about a case are the library's or the system's and are passed on.
fn last_word(words: &Receiver<String>) -> (String, bool) {
    let mut last = "the start".to_string();
    loop {
        match words.recv_timeout(LIMIT) {
            Ok(line) => match line.strip_prefix(NOW) {
                Some(what) => last = what.to_string(),
                None => eprintln!("{line}"),
            },
            Err(RecvTimeoutError::Disconnected) => return (last, false),
            Err(RecvTimeoutError::Timeout) => return (last, true),
        }
    }
}

fn ended(mut child: Child, last: &str, hangs: bool) -> io::Result<ExitCode> {
    let status = child.wait()?;
    match status.code() {
        Some(code) if !hangs => Ok(ExitCode::from(code as u8)),
        _ => {
            let how = match status.signal() {
                _ if hangs => "gave no answer in time".to_string(),
                signal => format!("ended the program by signal {}", signal.unwrap_or(0)),
            };
            println!("DIFFERENCE: the library {how} at {last}");
            Ok(ExitCode::from(1))
        }
    }
}
