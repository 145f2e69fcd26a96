//! The example night in words gives its frames, byte for byte, and they give a plan of the same night.

use std::fs;

use plan::reading::{self, read};
use plan::{recognise, words};

fn example(name: &str) -> Vec<u8> {
    let path = format!("{}/../../examples/{name}", env!("CARGO_MANIFEST_DIR"));
    fs::read(&path).unwrap_or_else(|why| panic!("{path}: {why}"))
}

#[test]
fn the_plan_gives_the_frames() {
    let sent = read(&example("night.plan")).unwrap();
    assert_eq!(reading::text(&sent), example("night.txt"));
}

#[test]
fn windows_line_ends_and_a_missing_last_one_change_nothing() {
    let plan = String::from_utf8(example("night.plan")).unwrap();
    let windows = plan.replace('\n', "\r\n");
    for plan in [
        windows.as_str(),
        plan.trim_end(),
        &format!("\u{FEFF}{plan}"),
    ] {
        let sent = read(plan.as_bytes()).unwrap();
        assert_eq!(reading::text(&sent), example("night.txt"));
    }
}

#[test]
fn each_line_knows_where_it_stands_and_its_names() {
    let plan = String::from_utf8(example("night.plan")).unwrap();
    let lines: Vec<&str> = plan.lines().collect();
    let sent = read(plan.as_bytes()).unwrap();
    let names = ["claims", "premiums", "letters", "regulator"];
    for (at, begins) in [
        (0, "units 3"),
        (1, "run 10"),
        (6, "raw"),
        (7, "run 2048"),
        (14, "list"),
    ] {
        assert!(lines[sent[at].line - 1].starts_with(begins), "{begins}");
        let set = begins.starts_with("units");
        assert_eq!(sent[at].names, if set { &names[..] } else { &[] });
    }
}

#[test]
fn the_frames_give_a_plan_of_the_same_frames() {
    let frames = example("night.txt");
    let words = words::of_frames(&frames);
    assert!(
        words.starts_with("units 3\n    task 0 3/4\n    task 1 1/2\n"),
        "{words}"
    );
    assert!(
        words.contains("\nraw \"0200O8\"  # no frame: character 5 is the letter 'O'"),
        "{words}"
    );
    assert_eq!(reading::text(&read(words.as_bytes()).unwrap()), frames);
}

#[test]
fn plans_and_frames_are_told_apart() {
    for plan in [
        &example("night.plan")[..],
        b"unit 3\nclaims 3/4\n",
        b"# nothing yet",
        b"list\r\n",
        b"\xEF\xBB\xBFrun 3",
    ] {
        assert!(recognise::is_plan(plan));
    }
    for frames in [
        &example("night.txt")[..],
        b"",
        b"\n\n",
        b"03\r\n",
        b"XX\n",
        b"03\n02000A\nlist\n",
    ] {
        assert!(!recognise::is_plan(frames));
    }
}

#[test]
fn the_page_says_each_frame_in_words() {
    let page = String::from_utf8(example("night.md")).unwrap();
    let boxes = |word: &str| -> Vec<String> {
        let after = |line: &str| line.strip_prefix(word).map(|rest| rest.trim().to_string());
        page.lines().filter_map(after).collect()
    };
    let words = boxes("words ").join("\n").replace("; ", "\n");
    let sent = reading::text(&read(words.as_bytes()).unwrap());
    assert_eq!(sent, example("night.txt"));
    assert_eq!(boxes("words ").len(), boxes("asked ").len());
}
