//! `board`: see `--help`.

use std::io::{self, Write};
use std::process::ExitCode;

use board::options::{self, Options};
use board::{page, pairing, picture, program};

fn main() -> ExitCode {
    match options::read(std::env::args_os().skip(1)).and_then(show) {
        Ok(fits) => ExitCode::from(if fits { 0 } else { 1 }),
        Err(why) => {
            // Written, not printed: a closed terminal is no reason to fail twice.
            let _ = writeln!(io::stderr(), "board: {why} (board --help says more)");
            ExitCode::from(2)
        }
    }
}

/// Writes what was wanted; says whether the two sides fit each other.
fn show(options: Options) -> Result<bool, String> {
    if options.help {
        write(options::HELP)?;
        return Ok(true);
    }
    let asked = read(&options.asked)?;
    let answered = match &options.answered {
        Some(file) => read(file)?,
        None => program::answers(&options.program, &asked)?,
    };
    let night = pairing::night(&asked, &answered);
    write(&page::page(&night, &options.names, options.look))?;
    if let Some(file) = &options.svg {
        let svg = picture::picture(&night, &options.names);
        std::fs::write(file, svg)
            .map_err(|why| format!("cannot write {}: {why}", file.display()))?;
    }
    Ok(night.misfit.is_none())
}

fn read(file: &std::path::Path) -> Result<Vec<u8>, String> {
    std::fs::read(file).map_err(|why| format!("cannot read {}: {why}", file.display()))
}

/// A reader that stops early (`| head`) is no error.
fn write(text: &str) -> Result<(), String> {
    match io::stdout().write_all(text.as_bytes()) {
        Err(why) if why.kind() != io::ErrorKind::BrokenPipe => Err(format!("cannot write: {why}")),
        _ => Ok(()),
    }
}
