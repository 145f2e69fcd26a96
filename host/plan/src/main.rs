//! `plan`: see `--help`.

use std::io::{self, Read, Write};
use std::path::Path;
use std::process::ExitCode;

use plan::options::{self, Wanted};
use plan::reading::{self, Fault};
use plan::{recognise, words};

fn main() -> ExitCode {
    match options::read(std::env::args_os().skip(1)).and_then(answer) {
        Ok(code) => ExitCode::from(code),
        Err(why) => {
            say(&format!("plan: {why} (plan --help says more)"));
            ExitCode::from(2)
        }
    }
}

/// Writes what was wanted. The code says whether the plan had faults.
fn answer(wanted: Wanted) -> Result<u8, String> {
    match wanted {
        Wanted::Help => write(options::help().as_bytes()),
        Wanted::Version => write(options::version().as_bytes()),
        Wanted::Words(file) => {
            let frames = bytes_of(&file)?;
            if recognise::is_plan(&frames) {
                let name = options::called(&file);
                say(&format!("plan: {name} looks like a plan, not like frames; its lines are shown as raw ones"));
            }
            write(words::of_frames(&frames).as_bytes())
        }
        Wanted::Frames(file) => match reading::read(&bytes_of(&file)?) {
            Ok(sent) => write(&reading::text(&sent)),
            Err(faults) => {
                show(&options::called(&file), &faults);
                Ok(1)
            }
        },
    }
}

fn show(name: &str, faults: &[Fault]) {
    for fault in faults {
        say(&format!("{name}:{}: {}", fault.line, fault.why));
    }
    let many = if faults.len() == 1 { "fault" } else { "faults" };
    say(&format!(
        "plan: {} {many}, so no frame was written",
        faults.len()
    ));
}

fn bytes_of(file: &Path) -> Result<Vec<u8>, String> {
    let named = |why: io::Error| format!("cannot read {}: {why}", options::called(file));
    if file != Path::new(options::STANDARD_INPUT) {
        return std::fs::read(file).map_err(named);
    }
    let mut bytes = Vec::new();
    io::stdin().read_to_end(&mut bytes).map_err(named)?;
    Ok(bytes)
}

/// A reader that stops early (`| head`) is no error.
fn write(bytes: &[u8]) -> Result<u8, String> {
    let mut output = io::stdout().lock();
    match output.write_all(bytes).and_then(|()| output.flush()) {
        Err(why) if why.kind() != io::ErrorKind::BrokenPipe => Err(format!("cannot write: {why}")),
        _ => Ok(0),
    }
}

/// Written, not printed: a closed terminal is no reason to fail twice.
fn say(text: &str) {
    let _ = writeln!(io::stderr(), "{text}");
}
