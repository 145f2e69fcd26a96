//! Document 01, "Frames": the program on standard input and standard output.

use plain::Comparing;
use std::io::{self, Write};
use std::process::ExitCode;

const HELP: &str = "\
plain: the program on frames (docs/RULES.md) in plain Rust, written for speed; what the proved program is timed against.

Usage: plain [OPTION]
Reads frames from standard input, a line each, and writes their answers.
  --pairs   compares the strings of contenders two at a time; the answers are the same
  --help    this text

Codes: 0 all was answered; 1 a read or a write failed; 2 a word that is not known.

Example: host/plain/target/release/plain < examples/night.txt
";

fn main() -> ExitCode {
    let mut comparing = Comparing::Together;
    let mut help = false;
    for word in std::env::args_os().skip(1) {
        match word.to_string_lossy().as_ref() {
            "--pairs" => comparing = Comparing::Pairs,
            "--help" => help = true,
            word => {
                eprintln!("plain: {word} is not known (plain --help says more)");
                return ExitCode::from(2);
            }
        }
    }
    if help {
        // A reader that stops early (`| head`) is no error.
        let _ = io::stdout().write_all(HELP.as_bytes());
        return ExitCode::SUCCESS;
    }
    match plain::serve_with(comparing, io::stdin().lock(), io::stdout().lock()) {
        Ok(()) => ExitCode::SUCCESS,
        Err(why) => {
            eprintln!("plain: {why}");
            ExitCode::FAILURE
        }
    }
}
