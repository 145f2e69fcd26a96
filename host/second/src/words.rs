//! The words after the command: a program here takes none but `--help`.

use std::env;
use std::io::{self, Write};
use std::process::ExitCode;

/// Works, unless help is asked for or a word is not known. A failure is told
/// under the program's name.
pub fn run(name: &str, help: &str, work: impl FnOnce() -> io::Result<()>) -> ExitCode {
    let mut words = env::args_os().skip(1);
    match words.find(|word| word != "--help") {
        Some(word) => {
            let word = word.to_string_lossy().into_owned();
            eprintln!("{name}: {word} is not known ({name} --help says more)");
            ExitCode::from(2)
        }
        None if env::args_os().len() > 1 => {
            // A reader that stops early (`| head`) is no error.
            let _ = io::stdout().write_all(help.as_bytes());
            ExitCode::SUCCESS
        }
        None => ended(name, work()),
    }
}

fn ended(name: &str, work: io::Result<()>) -> ExitCode {
    match work {
        Ok(()) => ExitCode::SUCCESS,
        Err(why) => {
            eprintln!("{name}: {why}");
            ExitCode::FAILURE
        }
    }
}
