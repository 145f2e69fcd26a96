//! Document 01, "Frames", on the library and on the program itself.

use std::io::{BufRead, BufReader, Read, Write};
use std::process::{Child, Command, Stdio};

const SET: &str = "0101020001000200010003\n";
const SET_ANSWER: &str = "8101000000060000000100000006\n";
const MALFORMED: &str = "8F0BFF\n";

fn serve(input: &[u8]) -> String {
    let mut output = Vec::new();
    second::serve(input, &mut output).unwrap();
    String::from_utf8(output).unwrap()
}

fn program() -> Child {
    Command::new(env!("CARGO_BIN_EXE_second"))
        .stdin(Stdio::piped())
        .stdout(Stdio::piped())
        .spawn()
        .unwrap()
}

/// The output of the program itself on a whole input.
fn program_on(input: &[u8]) -> String {
    let mut child = program();
    let mut stdin = child.stdin.take().unwrap();
    let mut stdout = child.stdout.take().unwrap();
    let input = input.to_vec();
    let writer = std::thread::spawn(move || stdin.write_all(&input).unwrap());
    let mut output = String::new();
    stdout.read_to_string(&mut output).unwrap();
    writer.join().unwrap();
    assert!(child.wait().unwrap().success());
    output
}

/// A set of n tasks 1/p on m units, as a line without its line feed.
fn tasks(m: u8, n: u8, p: u16) -> String {
    format!(
        "01{m:02X}{n:02X}{}",
        format!("0001{p:04X}").repeat(n.into())
    )
}

#[test]
fn whole_case() {
    let input = "0101020001000200010003\n020006\n";
    let output = "8101000000060000000100000006\n82000000000100\n82000000010101\n\
                  82000000020100\n82000000030101\n82000000040100\n820000000500\n";
    assert_eq!(serve(input.as_bytes()), output);
    assert_eq!(program_on(input.as_bytes()), output);
    // "the last may lack it"
    assert_eq!(program_on(input.trim_end().as_bytes()), output);
}

#[test]
fn empty_input_gives_no_output() {
    assert_eq!(serve(b""), "");
    assert_eq!(program_on(b""), "");
}

#[test]
fn each_way_to_be_malformed() {
    let long = "0".repeat(520);
    let lines: Vec<&[u8]> = vec![
        b"0",                        // odd digits
        b"0101020001000200010003 0", // a blank
        b"010102000100020001000",    // odd digits
        b"02000a",                   // not a capital
        b"03\r",                     // odd, with another character
        b"3\r",                      // another character
        b"03\r\r",                   // other characters
        b" 03 ",                     // nothing is trimmed
        b"0\0",                      // a NUL
        b"\0\0",
        b"\xFF\xFE",
        b"0G",
        b"0/",
        b"0:",
        b"0@",
        b"",   // an empty line
        b"00", // unknown kinds
        b"04",
        b"81",
        b"FF",
        b"01", // wrong lengths for the kind
        b"0101",
        b"010101",
        b"01010100010002FF",
        b"010102000100020001",
        b"01010000010002",
        b"0141",
        b"02",
        b"0200",
        b"02000001",
        b"0300",
        long.as_bytes(), // over 518 digits
    ];
    for line in lines {
        // Once before and once after a set is accepted; the next line is read as usual.
        let input = [line, b"\n", SET.as_bytes(), line, b"\n03\n"].concat();
        let output = format!("{MALFORMED}{SET_ANSWER}{MALFORMED}83000000005050\n");
        assert_eq!(serve(&input), output, "{line:?}");
        assert_eq!(program_on(&input), output, "{line:?}");
    }
}

#[test]
fn run_and_listing_before_a_set_are_malformed() {
    assert_eq!(serve(b"03\n"), MALFORMED);
    assert_eq!(serve(b"020000\n"), MALFORMED);
    assert_eq!(serve(b"020001\n"), MALFORMED);
    // 11 is checked before every other refusal: here 10.
    assert_eq!(serve(b"02FFFF\n"), MALFORMED);
    // A refused set is no accepted set.
    assert_eq!(
        serve(b"01010100020002\n03\n"),
        format!("8F0400\n{MALFORMED}")
    );
}

#[test]
fn line_feeds() {
    assert_eq!(serve(b"\n"), MALFORMED);
    assert_eq!(serve(b"\n\n"), MALFORMED.repeat(2));
    assert_eq!(serve(b"\n0"), MALFORMED.repeat(2));
    assert_eq!(serve(b"0"), MALFORMED);
}

#[test]
fn refused_sets() {
    assert_eq!(serve(b"010100\n"), "8F02FF\n");
    assert_eq!(serve(b"010000\n"), "8F02FF\n");
    assert_eq!(serve(b"01000100010002\n"), "8F03FF\n");
    assert_eq!(serve(b"01210100010002\n"), "8F03FF\n");
    assert_eq!(serve(b"0101020001000200020002\n"), "8F0401\n");
    assert_eq!(serve(b"0101020001FFFF00010020\n"), "8F05FF\n");
    assert_eq!(serve(b"0101020002000300020003\n"), "8F06FF\n");
}

#[test]
fn accepted_sets() {
    assert_eq!(
        serve(b"0102020002000300020003\n"),
        "8102000000030000000200000003\n"
    );
    assert_eq!(
        serve(b"0101020001000200010002\n"),
        "8101000000020000000000000000\n"
    );
    let paper = ["010304", "00010003", "00020004", "00050007", "0008000B"].concat();
    assert_eq!(serve(paper.as_bytes()), "81030000039C0000014F000001CE\n");
}

#[test]
fn most_digits() {
    let full = tasks(1, 64, 64);
    assert_eq!(full.len(), 518);
    assert_eq!(serve(full.as_bytes()), "8101000000400000000000000000\n");
    assert_eq!(serve(tasks(1, 65, 64).as_bytes()), MALFORMED);
    assert_eq!(serve(format!("{full}0").as_bytes()), MALFORMED);
    assert_eq!(serve(format!("{full}00").as_bytes()), MALFORMED);
    assert_eq!(serve(tasks(1, 255, 64).as_bytes()), MALFORMED);
}

#[test]
fn a_refused_set_leaves_the_former_one_in_force() {
    let input = format!("{SET}020001\n01010100020002\n020001\n03\n");
    let output = format!("{SET_ANSWER}82000000000100\n8F0400\n82000000010101\n83000000025041\n");
    assert_eq!(serve(input.as_bytes()), output);
}

#[test]
fn an_accepted_set_starts_anew() {
    let input = format!("{SET}020003\n{SET}020001\n");
    let slots = "82000000000100\n82000000010101\n82000000020100\n";
    let output = format!("{SET_ANSWER}{slots}{SET_ANSWER}82000000000100\n");
    assert_eq!(serve(input.as_bytes()), output);
}

#[test]
fn lengths_of_runs() {
    let run = |slots: &str| serve(format!("{SET}{slots}\n03\n").as_bytes());
    let standing = |rest: &str| format!("{SET_ANSWER}{rest}");
    assert_eq!(run("020000"), standing("83000000005050\n"));
    assert_eq!(run("020401"), standing("8F0AFF\n83000000005050\n"));
    assert_eq!(run("02FFFF"), standing("8F0AFF\n83000000005050\n"));
    let longest = run("020400");
    assert_eq!(longest.lines().count(), 1 + 1_024 + 1);
    assert_eq!(longest.lines().nth(1_024), Some("82000003FF0101"));
    // 1/2 is punctual at time 1,024, 1/3 ran 342 times: 1,024 - 3 * 342 is below 0.
    assert_eq!(longest.lines().last(), Some("83000004005041"));
}

#[test]
fn two_runs_equal_one() {
    let one = serve(format!("{SET}020009\n").as_bytes());
    let two = serve(format!("{SET}020004\n020005\n").as_bytes());
    assert_eq!(one, two);
}

#[test]
fn very_long_lines() {
    let mut input = vec![b'0'; 20_000_001];
    input.extend(b"\n");
    input.extend(SET.as_bytes());
    input.extend(vec![0; 5_000_000]);
    let output = format!("{MALFORMED}{SET_ANSWER}{MALFORMED}");
    assert_eq!(program_on(&input), output);
}

#[test]
fn any_bytes() {
    // Each byte value alone on a line, in a pair, and a stream of mixed bytes.
    let mut state: u32 = 1;
    let mut input = Vec::new();
    for byte in 0..=255u8 {
        input.extend([byte, b'\n', byte, byte, b'\n']);
    }
    for _ in 0..200_000 {
        state = state.wrapping_mul(1_664_525).wrapping_add(1_013_904_223);
        input.push((state >> 24) as u8);
    }
    input.extend(b"0\n");
    let feeds = input.iter().filter(|&&byte| byte == b'\n').count();
    assert_eq!(serve(&input), MALFORMED.repeat(feeds));
    assert_eq!(program_on(&input), MALFORMED.repeat(feeds));
}

#[test]
fn answers_are_flushed_before_more_input_is_awaited() {
    let mut child = program();
    let mut stdin = child.stdin.take().unwrap();
    let mut stdout = BufReader::new(child.stdout.take().unwrap());
    for (line, answers) in [
        (SET, vec![SET_ANSWER]),
        ("020002\n", vec!["82000000000100\n", "82000000010101\n"]),
        ("nothing\n", vec![MALFORMED]),
        ("03\n", vec!["83000000025041\n"]),
    ] {
        stdin.write_all(line.as_bytes()).unwrap();
        for answer in answers {
            let mut read = String::new();
            stdout.read_line(&mut read).unwrap();
            assert_eq!(read, answer);
        }
    }
    drop(stdin);
    assert!(child.wait().unwrap().success());
}
