//! The command line.

use std::ffi::OsString;
use std::path::{Path, PathBuf};

use crate::kinds::{KINDS, RAW, TASK_SUCH_AS};

/// What the arguments ask for.
#[derive(Clone, Debug, PartialEq, Eq)]
pub enum Wanted {
    Frames(PathBuf),
    Words(PathBuf),
    Help,
    Version,
}

/// The file's name that means standard input.
pub const STANDARD_INPUT: &str = "-";

pub fn read(arguments: impl IntoIterator<Item = OsString>) -> Result<Wanted, String> {
    let (mut files, mut words, mut options_end) = (Vec::new(), false, false);
    for argument in arguments {
        match argument.to_string_lossy().as_ref() {
            _ if options_end => files.push(PathBuf::from(argument)),
            "--" => options_end = true,
            "--help" | "-h" => return Ok(Wanted::Help),
            "--version" => return Ok(Wanted::Version),
            "--words" => words = true,
            option if option.starts_with('-') && option != STANDARD_INPUT => {
                return Err(format!("unknown option {option}"));
            }
            _ => files.push(PathBuf::from(argument)),
        }
    }
    match (<[PathBuf; 1]>::try_from(files), words) {
        (Ok([file]), false) => Ok(Wanted::Frames(file)),
        (Ok([file]), true) => Ok(Wanted::Words(file)),
        (Err(_), _) => Err("give one file, or - for standard input".to_string()),
    }
}

/// How a file is called in a message.
pub fn called(file: &Path) -> String {
    if file == Path::new(STANDARD_INPUT) {
        "standard input".to_string()
    } else {
        file.display().to_string()
    }
}

pub fn version() -> String {
    format!("plan {}\n", env!("CARGO_PKG_VERSION"))
}

pub fn help() -> String {
    let line = |usage: &str, meaning: &str| format!("    {usage:<16} {meaning}\n");
    let kinds: String = KINDS
        .iter()
        .map(|kind| line(&kind.usage(), kind.meaning))
        .collect();
    let task = line(
        "NAME E/P",
        &format!("a task of it: E slots in every P, as in {TASK_SUCH_AS}"),
    );
    let raw = line(
        &format!("{RAW} \"TEXT\""),
        "this very line, whatever it is (\\x0D stands for byte 0D)",
    );
    format!("{BEFORE}{kinds}{task}{raw}{AFTER}")
}

const BEFORE: &str = "\
Turns a night in words into frames for prettavorn, and frames into words.
Nothing proved depends on it.

    plan FILE          the frames of a plan: ./plan examples/night.plan
    plan --words FILE  a plan of frames: ./plan --words examples/night.txt
    plan --help        this text
    plan --version     the version

FILE may be - for standard input. A plan says one thing a line:

";

const AFTER: &str = "
A set begins with its units, and all its tasks follow. It is sent as one frame
when the next thing is asked, or at the end. A task's name may have blanks and
any letters, and stands once in a set. Names are for you, and ./board takes them
by --names: what is sent is a task's place. A # at the start of a word begins a
comment.

Whether a set is admissible is for prettavorn to say: 70 tasks, 9/3 or 0 units
are sent. Only what a frame cannot carry is a fault here: more than 255 units
or tasks, or a requirement, a period or a number of slots above 65535.

Ends with 0; with 1 if the plan has faults (all are shown with their lines, and
no frame is written); with 2 if it was asked wrongly, or cannot read or write.
docs/RULES.md says what frames mean and when they are refused.
";
