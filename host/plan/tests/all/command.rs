//! The command itself: what it writes where, and its codes.

use std::io::Write;
use std::process::{Command, Output, Stdio};

fn plan(arguments: &[&str], input: &[u8]) -> Output {
    let mut child = Command::new(env!("CARGO_BIN_EXE_plan"))
        .args(arguments)
        .stdin(Stdio::piped())
        .stdout(Stdio::piped())
        .stderr(Stdio::piped())
        .spawn()
        .unwrap();
    // A command that ends without reading is no failure here.
    let _ = child.stdin.take().unwrap().write_all(input);
    child.wait_with_output().unwrap()
}

fn said(output: &Output) -> String {
    String::from_utf8_lossy(&output.stderr).into_owned()
}

#[test]
fn a_plan_on_standard_input() {
    let output = plan(&["-"], b"units 1\nclaims 1/2\nrun 3");
    assert_eq!(output.stdout, b"01010100010002\n020003\n");
    assert_eq!(
        (output.status.code(), said(&output).as_str()),
        (Some(0), "")
    );
    let output = plan(&["--words", "-"], b"020003");
    assert_eq!(output.stdout, b"run 3\n");
    assert_eq!(output.status.code(), Some(0));
}

#[test]
fn one_fault_and_nothing_is_written() {
    let output = plan(&["-"], b"units 1\nclaims 1/2\nrun x\nlist y\n");
    assert_eq!(output.stdout, b"");
    assert_eq!(output.status.code(), Some(1));
    let said = said(&output);
    let lines: Vec<&str> = said.lines().collect();
    assert!(
        lines[0].starts_with("standard input:3: \"x\" is not"),
        "{said}"
    );
    assert!(lines[1].starts_with("standard input:4: "), "{said}");
    assert_eq!(lines[2..], ["plan: 2 faults, so no frame was written"]);
}

#[test]
fn wrong_usage_is_2() {
    for arguments in [
        &[][..],
        &["a", "b"],
        &["--wrods", "a"],
        &["-x"],
        &["no such file"],
        &["--words"],
    ] {
        let output = plan(arguments, b"");
        assert_eq!(
            (output.status.code(), output.stdout.len()),
            (Some(2), 0),
            "{arguments:?}"
        );
        assert!(said(&output).starts_with("plan: "));
    }
    assert!(said(&plan(&["--", "--help"], b"")).contains("cannot read --help"));
}

#[test]
fn help_and_version() {
    for arguments in [["--help"], ["-h"]] {
        let output = plan(&arguments, b"");
        let help = String::from_utf8(output.stdout).unwrap();
        assert_eq!(output.status.code(), Some(0));
        for part in [
            "units UNITS",
            "run SLOTS",
            "list ",
            "NAME E/P",
            "raw \"TEXT\"",
            "--words",
        ] {
            assert!(help.contains(part), "{part}");
        }
        assert!(
            help.lines().all(|line| line.chars().count() <= 80),
            "{help}"
        );
    }
    assert_eq!(plan(&["--version"], b"").stdout, b"plan 0.1.0\n");
}

#[test]
fn a_plan_given_for_frames_is_noticed() {
    let output = plan(&["--words", "-"], b"units 1\nclaims 1/2\n");
    assert!(said(&output).contains("looks like a plan"));
    assert!(output.stdout.starts_with(b"raw \"units 1\""));
}
