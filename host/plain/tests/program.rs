//! The program itself, and the end of time.

use std::io::{self, BufRead, BufReader, Write};
use std::process::{Command, Stdio};

/// "answers every complete line before it waits": the next line is not sent
/// before the answer to the last one is there.
#[test]
fn answers_before_it_waits() {
    let mut child = Command::new(env!("CARGO_BIN_EXE_plain"))
        .stdin(Stdio::piped())
        .stdout(Stdio::piped())
        .spawn()
        .unwrap();
    let mut input = child.stdin.take().unwrap();
    let mut output = BufReader::new(child.stdout.take().unwrap()).lines();
    let mut ask = |line: &str| {
        input.write_all(line.as_bytes()).unwrap();
        output.next().map(|answer| answer.unwrap())
    };
    let admitted = Some("8101000000060000000100000006".to_string());
    assert_eq!(ask("0101020001000200010003\n"), admitted);
    assert_eq!(ask("020001\n03"), Some("82000000000100".to_string()));
    assert_eq!(ask("\n02"), Some("8300000001414C".to_string()));
    drop(input);
    assert_eq!(output.next().unwrap().unwrap(), "8F0BFF");
    assert!(output.next().is_none());
    assert!(child.wait().unwrap().success());
}

#[test]
fn words_that_are_not_known_are_refused() {
    let ended = |words: &[&str]| {
        let mut command = Command::new(env!("CARGO_BIN_EXE_plain"));
        let output = command.args(words).stdin(Stdio::null()).output().unwrap();
        (
            output.status.code(),
            String::from_utf8(output.stdout).unwrap(),
        )
    };
    let (code, help) = ended(&["--help"]);
    assert_eq!((code, help.starts_with("plain: ")), (Some(0), true));
    assert_eq!(ended(&["--pairs"]), (Some(0), String::new()));
    assert_eq!(ended(&["--pair"]), (Some(2), String::new()));
}

/// Keeps the end of what is written.
struct Tail(Vec<u8>);

impl Write for Tail {
    fn write(&mut self, bytes: &[u8]) -> io::Result<usize> {
        self.0.extend(bytes);
        let most = self.0.len().min(44);
        self.0.drain(..self.0.len() - most);
        Ok(bytes.len())
    }

    fn flush(&mut self) -> io::Result<()> {
        Ok(())
    }
}

#[test]
fn time_ends_at_16777215() {
    let mut input = b"01010100010002\n".to_vec();
    input.extend(b"020400\n".repeat(16_383));
    input.extend(b"0203FF\n020005\n020001\n03\n");
    let mut tail = Tail(Vec::new());
    plain::serve(&input[..], &mut tail).unwrap();
    let expected = "8200FFFFFF00\n8F07FF\n8F07FF\n8F07FF\n";
    assert!(String::from_utf8_lossy(&tail.0).ends_with(expected));
}
