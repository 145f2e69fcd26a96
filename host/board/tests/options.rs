//! The command line, and the program that is asked.

use std::ffi::OsString;
use std::path::Path;

use board::options::{self, Options};
use board::program::answers;

fn read(arguments: &[&str]) -> Result<Options, String> {
    options::read(arguments.iter().map(OsString::from))
}

#[test]
fn files_and_options() {
    let options = read(&[
        "a",
        "--names",
        "claims, letters,\x1b[31mx",
        "--width",
        "80",
        "b",
        "--ascii",
    ])
    .unwrap();
    assert_eq!(options.asked, Path::new("a"));
    assert_eq!(options.answered.as_deref(), Some(Path::new("b")));
    assert_eq!(options.names.0, ["claims", "letters", "[31mx"]);
    assert!(options.look.ascii && options.look.width == 80);
    assert_eq!(read(&["a"]).unwrap().program, Path::new("./prettavorn"));
    assert_eq!(
        read(&["--program", "x", "a", "--program", "y"])
            .unwrap()
            .program,
        Path::new("y")
    );
    assert!(read(&["--help"]).unwrap().help);
}

#[test]
fn what_cannot_be_read_is_said() {
    assert!(read(&[]).unwrap_err().contains("one file"));
    assert!(read(&["a", "b", "c"]).unwrap_err().contains("one file"));
    assert!(read(&["a", "--svg"])
        .unwrap_err()
        .contains("--svg needs a value"));
    assert!(read(&["a", "--with"])
        .unwrap_err()
        .contains("unknown option --with"));
    assert!(read(&["a", "--width", "3"])
        .unwrap_err()
        .contains("40 to 2000"));
}

#[test]
fn a_program_is_asked() {
    let long = vec![b'x'; 1 << 20];
    assert_eq!(answers(Path::new("cat"), &long).unwrap(), long);
    assert_eq!(answers(Path::new("true"), &long).unwrap(), b"");
    assert!(answers(Path::new("false"), b"")
        .unwrap_err()
        .contains("false ended with"));
    assert!(answers(Path::new("./no such program"), b"")
        .unwrap_err()
        .contains("cannot ask"));
}
