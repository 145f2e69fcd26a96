//! Every fault of a plan: its line, and what to do about it.

use plan::reading::{read, Fault};

fn faults(plan: &[u8]) -> Vec<Fault> {
    read(plan).err().unwrap_or_default()
}

/// The plan's one fault, at its last line, says this.
fn says(plan: &str, part: &str) {
    let faults = faults(plan.as_bytes());
    assert_eq!(faults.len(), 1, "{plan:?}: {faults:?}");
    assert_eq!(faults[0].line, plan.lines().count(), "{plan:?}");
    assert!(faults[0].why.contains(part), "{plan:?}: {}", faults[0].why);
}

#[test]
fn numbers() {
    says("run", "run needs the number of slots: write it as run 10");
    says(
        "run ten",
        "\"ten\" is not a whole number: write it in digits 0 to 9, as in run 10",
    );
    says("run 1,024", "\"1,024\" is not in plain digits: write 1024");
    says("run 1.5", "not a whole number");
    says("run -1", "not a whole number");
    says("run ３", "not a whole number");
    says(
        "run 65536",
        "cannot carry \"65536\" for the slots: write a number from 0 to 65535",
    );
    says("run 99999999999999999999999999", "from 0 to 65535");
    says("run 10 slots", "\"slots\" behind run: write it as run 10");
    says("units 256", "for the units: write a number from 0 to 255");
    says("list now", "\"now\" behind list: write it as list");
}

#[test]
fn tasks() {
    says(
        "units 1\nclaims",
        "\"claims\" does not end in a share: write a task as claims 3/4",
    );
    says("units 1\nclaims 3 / 4", "does not end in a share");
    says("units 1\nclaims #2 3/4", "(# begins a comment)");
    says("units 1\n3/4", "there is no name before \"3/4\"");
    says(
        "units 1\nclaims 3/x",
        "\"x\" is not a whole number: write it in digits 0 to 9, as in claims 3/4",
    );
    says("units 1\nclaims 3/", "\"\" is not a whole number");
    says(
        "units 1\nclaims 65536/3",
        "for the requirement: write a number from 0 to 65535",
    );
    says(
        "units 1\nclaims 3/65536",
        "for the period: write a number from 0 to 65535",
    );
    says(
        "units 1\na 1/2\nb 1/2\na 1/3",
        "\"a\" stands in line 2 already: give one of the two another name",
    );
    says(
        "units 1\nrun 1/3",
        "a task's name cannot begin with the word run: write it another way, such as Run 1/3",
    );
    says("units 1\na\u{1b}b 1/2", "(U+001B): take it out");
    says("units 1\n\u{202e}b 1/2", "(U+202E): take it out");
    says(
        "units 1\na 1/2\nlist\nb 1/2",
        "\"b\" belongs to no set: begin a set with units",
    );
}

#[test]
fn words() {
    says("Run 10", "did you mean run?");
    says("unit 3", "did you mean units?");
    says("listing", "did you mean list?");
    says(
        "hello world",
        "or begin the line with units, run, list, raw",
    );
    says("02000A", "\"02000A\" is a frame: say it in words");
}

#[test]
fn raw_lines() {
    says("raw", "stands in quotes: write it as raw \"0200O8\"");
    says("raw 02", "stands in quotes");
    says("raw \"02", "do not end");
    says("raw \"02\" 03", "\"03\" stands behind the quotes");
    says("raw \"\\n\"", "x and two digits");
    says("raw \"\\x0\"", "x and two digits");
    says("raw \"\\x0A\"", "would end the line");
}

#[test]
fn more_tasks_than_a_frame_can_carry() {
    let tasks: String = (0..300)
        .map(|place| format!("task {place} 1/2\n"))
        .collect();
    let faults = faults(format!("\nunits 1\n{tasks}").as_bytes());
    assert_eq!(faults.len(), 1);
    assert_eq!(faults[0].line, 258);
    assert!(faults[0]
        .why
        .contains("more than 255 tasks, and the set of line 2 has more"));
}

#[test]
fn text_that_is_not_utf_8() {
    let faults = faults(b"units 1\nPr\xE4mien 1/2\nlist\n");
    assert_eq!(faults.len(), 1);
    assert_eq!(faults[0].line, 2);
    assert!(faults[0]
        .why
        .contains("byte 3 of the line is not UTF-8: save the file as UTF-8"));
}

#[test]
fn all_are_shown_and_none_for_what_follows_from_another() {
    let lines = |plan: &str| -> Vec<usize> {
        faults(plan.as_bytes())
            .iter()
            .map(|fault| fault.line)
            .collect()
    };
    // The tasks of a set whose first line has a fault are no faults of their own.
    assert_eq!(
        lines("units x\na 1/2\nunit 3\na 1/2\nrun y\na 1/2\nlist z"),
        [1, 3, 5, 6, 7]
    );
    assert_eq!(lines("units 1\na\nb 1/2\nc 1/\nb 1/2\nlist"), [2, 4, 5]);
}

#[test]
fn messages_carry_nothing_that_could_steer_a_terminal() {
    let long = "x".repeat(5_000);
    for line in [
        "run \u{1b}[31m",
        "\u{1b}]0;x\u{7}",
        "units 1\n\u{9b}x \u{1b}/2",
        "raw \"\" \u{1b}",
        long.as_str(),
    ] {
        let why: String = faults(line.as_bytes())
            .into_iter()
            .map(|fault| fault.why)
            .collect();
        assert!(
            !why.is_empty() && !why.contains(char::is_control) && why.len() < 250,
            "{why:?}"
        );
    }
}
