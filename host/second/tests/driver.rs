//! The answer lines of the driver `entries`.

use std::io::{Read, Write};
use std::process::{Command, Stdio};

fn driver(input: &str) -> String {
    let mut child = Command::new(env!("CARGO_BIN_EXE_entries"))
        .stdin(Stdio::piped())
        .stdout(Stdio::piped())
        .spawn()
        .unwrap();
    let mut stdin = child.stdin.take().unwrap();
    stdin.write_all(input.as_bytes()).unwrap();
    drop(stdin);
    let mut output = String::new();
    child
        .stdout
        .take()
        .unwrap()
        .read_to_string(&mut output)
        .unwrap();
    assert!(child.wait().unwrap().success());
    output
}

#[test]
fn one_answer_line_for_each_request() {
    let cases = [
        ("A 3 4 1 2 5 8 4 3 4 7 11", "A ok 3 924 335 462"),
        ("A 1 2 1 1 2 2 2", "A ok 1 2 0 0"),
        ("A 1 2 2 2 2 3 3", "A no 6 1"),
        ("A 1 2 1 1 1 2", "A no 1 0"),
        ("A 1 0 0", "A no 2 0"),
        ("A 1 2 1 2 2 2 2", "A no 4 1"),
        ("C 1 2 1 3 1", "C 1"),
        ("C 1 3 1 2 1", "C 0"),
        ("C 1 3 1 6 3", "C 2"),
        ("C 1 2 2 2 0", "C no 4 1"),
        ("C 1 2 1 2 4294967295", "C no 7 0"),
        ("S 1 0 2 1 1 2 2 3 2 0 0 2", "S ok 1 0 | 1 0"),
        ("S 1 2 2 1 1 2 2 3 2 0 1 2", "S no 8 0 | 0 1 | 9 9"),
        (
            "S 1 2 4 2 2 1 1 4 5 5 10 10 4 0 0 1 1 4",
            "S no 9 0 | 0 0 1 1 | 9 9 9 9",
        ),
        ("S 1 0 0 0 0 0", "S no 2 0 | |"),
        ("S 1 0 1 1 1 2 0 2", "S no 1 0 | | 9 9"),
        ("L 1 2 2 1 1 2 2 3 2 1 0 2", "L ok | 80 76"),
        ("L 1 2 2 1 1 2 2 3 2 1 1 2", "L ok | 80 65"),
        ("L 0 2 2 1 1 2 2 3 2 1 1 2", "L no 3 0 | 9 9"),
        ("R 1 0 3 2 1 1 2 2 3 2 0 0 6", "R 3 ok | 2 1 | 1 0 0 1 1 0"),
        (
            "R 1 16777215 2 1 1 1 2 1 8388608 2",
            "R 1 no 7 0 | 8388608 | 0 9",
        ),
        ("R 1 0 1025 1 1 1 2 1 0 0", "R 0 no 10 0 | 0 |"),
        ("R 1 0 2 1 1 1 2 1 0 1", "R 0 no 1 0 | 0 | 9"),
        ("R 9 9 0 0 0 0 0", "R 0 ok | |"),
        ("A 1", "bad"),
        ("C 1 2 1 3 1 1", "bad"),
        ("C 1 2 1 3 4294967296", "bad"),
        ("X", "bad"),
        ("", "bad"),
    ];
    let input: Vec<&str> = cases.iter().map(|case| case.0).collect();
    let output = driver(&(input.join("\n") + "\n"));
    let answers: Vec<&str> = output.lines().collect();
    assert_eq!(answers.len(), cases.len());
    for (answer, (request, expected)) in answers.iter().zip(cases) {
        assert_eq!(*answer, expected, "{request}");
    }
}
