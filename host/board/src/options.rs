//! The command line.

use std::ffi::OsString;
use std::path::PathBuf;

use crate::grid::Look;
use crate::words::Names;

pub const HELP: &str = "\
Shows what prettavorn was asked and answered: who ran when, who stands where, what was refused and what to do.
A view only: nothing proved depends on it.

    board ASKED ANSWERED     two files: the frames, and the answer lines to them
    board ASKED              asks the program for the answers

    --program PATH           the program to ask (./prettavorn)
    --names A,B,C            names for the tasks, by place (task 0, task 1, ...)
    --svg FILE               also writes a picture
    --width COLUMNS          the terminal's width (100)
    --colour                 colours
    --ascii                  no characters beyond ASCII
    --help                   this text

Ends with 0 if the two fit each other, 1 if they do not (what came before is shown, with the line), 2 if nothing could be read.
";

#[derive(Clone, Debug, PartialEq, Eq)]
pub struct Options {
    pub asked: PathBuf,
    pub answered: Option<PathBuf>,
    pub program: PathBuf,
    pub names: Names,
    pub svg: Option<PathBuf>,
    pub look: Look,
    pub help: bool,
}

/// What the arguments ask for, or what is wrong with them.
pub fn read(arguments: impl IntoIterator<Item = OsString>) -> Result<Options, String> {
    let mut arguments = arguments.into_iter();
    let mut options = Options {
        asked: PathBuf::new(),
        answered: None,
        program: PathBuf::from("./prettavorn"),
        names: Names::default(),
        svg: None,
        look: Look {
            width: 100,
            ascii: false,
            colour: false,
        },
        help: false,
    };
    let mut files = Vec::new();
    while let Some(argument) = arguments.next() {
        let mut value = || {
            arguments
                .next()
                .ok_or_else(|| format!("{} needs a value", argument.to_string_lossy()))
        };
        match argument.to_string_lossy().as_ref() {
            "--help" | "-h" => options.help = true,
            "--colour" | "--color" => options.look.colour = true,
            "--ascii" => options.look.ascii = true,
            "--program" => options.program = PathBuf::from(value()?),
            "--svg" => options.svg = Some(PathBuf::from(value()?)),
            "--names" => options.names = names(&value()?.to_string_lossy()),
            "--width" => options.look.width = width(&value()?.to_string_lossy())?,
            option if option.starts_with("--") => return Err(format!("unknown option {option}")),
            _ => files.push(PathBuf::from(argument)),
        }
    }
    with_files(options, files)
}

fn with_files(mut options: Options, files: Vec<PathBuf>) -> Result<Options, String> {
    if files.len() > 2 || (files.is_empty() && !options.help) {
        return Err("give one file (ASKED) or two (ASKED ANSWERED)".to_string());
    }
    let mut files = files.into_iter();
    options.asked = files.next().unwrap_or_default();
    options.answered = files.next();
    Ok(options)
}

/// Names by place, without control characters: they reach a terminal.
fn names(list: &str) -> Names {
    let clean = |name: &str| {
        name.trim()
            .chars()
            .filter(|letter| !letter.is_control())
            .collect()
    };
    Names(list.split(',').map(clean).collect())
}

fn width(text: &str) -> Result<usize, String> {
    match text.parse() {
        Ok(width @ 40..=2000) => Ok(width),
        _ => Err(format!("--width takes 40 to 2000 columns, not {text}")),
    }
}
