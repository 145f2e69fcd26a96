//! The words after each of the two commands.

use std::process::{Command, Stdio};

fn ended(program: &str, words: &[&str]) -> (Option<i32>, String) {
    let mut command = Command::new(program);
    let output = command.args(words).stdin(Stdio::null()).output().unwrap();
    let code = output.status.code();
    (code, String::from_utf8(output.stdout).unwrap())
}

#[test]
fn words_that_are_not_known_are_refused() {
    for (name, program) in [
        ("second", env!("CARGO_BIN_EXE_second")),
        ("entries", env!("CARGO_BIN_EXE_entries")),
    ] {
        let (code, help) = ended(program, &["--help"]);
        assert_eq!((code, help.starts_with(name)), (Some(0), true));
        assert_eq!(ended(program, &[]), (Some(0), String::new()));
        assert_eq!(ended(program, &["--what"]), (Some(2), String::new()));
        assert_eq!(ended(program, &["--help", "x"]), (Some(2), String::new()));
    }
}
