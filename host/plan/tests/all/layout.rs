//! The table of frames, and that whatever a layout can carry is passed on.

use plan::frame::{self, Frame, Task};
use plan::kinds::{self, KINDS};
use plan::reading::{self, read};

/// What a plan without faults sends.
fn frames(plan: &str) -> String {
    let sent = read(plan.as_bytes()).unwrap_or_else(|faults| panic!("{faults:?}"));
    String::from_utf8(reading::text(&sent)).unwrap()
}

#[test]
fn codes_and_words_are_each_used_once() {
    for (at, kind) in KINDS.iter().enumerate() {
        assert!(KINDS[..at]
            .iter()
            .all(|other| other.code != kind.code && other.word != kind.word));
        assert_eq!(kinds::of_word(kind.word), Some(kind));
        assert_eq!(kinds::of_code(kind.code), Some(kind));
    }
}

#[test]
fn each_kind_has_its_layout() {
    assert_eq!(frames("units 3\na 3/4\nb 1/2"), "0103020003000400010002\n");
    assert_eq!(frames("run 10"), "02000A\n");
    assert_eq!(frames("list"), "03\n");
    assert_eq!(frames("raw \"0200O8\""), "0200O8\n");
    assert_eq!(frames(""), "");
    assert_eq!(frames("# nothing\n\n \t\n"), "");
}

#[test]
fn each_kind_is_read_as_it_is_written() {
    for kind in &KINDS {
        let numbers: Vec<u32> = kind.fields.iter().map(|field| field.most()).collect();
        let task = Task {
            requirement: 65535,
            period: 0,
        };
        for tasks in [0, 1, 255] {
            let tasks = if kind.has_tasks() {
                vec![task; tasks]
            } else {
                Vec::new()
            };
            let frame = Frame {
                kind,
                numbers: numbers.clone(),
                tasks,
            };
            let line = frame::write(&frame);
            assert_eq!(frame::read(line.as_bytes()), Some(frame));
            assert_eq!(frame::read(format!("{line}00").as_bytes()), None);
            assert_eq!(frame::read(&line.as_bytes()[..line.len() - 2]), None);
        }
    }
}

#[test]
fn what_is_not_admissible_is_sent_all_the_same() {
    assert_eq!(frames("units 0\na 9/3"), "01000100090003\n");
    assert_eq!(frames("units 255"), "01FF00\n");
    assert_eq!(
        frames("units 33\na 0/0\nb 65535/65535"),
        "01210200000000FFFFFFFF\n"
    );
    assert_eq!(
        frames("run 65535\nrun 0\nrun 00010"),
        "02FFFF\n020000\n02000A\n"
    );
    let tasks: String = (0..70)
        .map(|place| format!("task {place} 1/100\n"))
        .collect();
    let sent = frames(&format!("units 2\n{tasks}"));
    assert!(sent.starts_with("01024600010064") && sent.len() == 2 * (3 + 70 * 4) + 1);
}

#[test]
fn a_set_ends_where_something_else_is_asked() {
    let set = "01010100010002\n";
    assert_eq!(
        frames("units 1\na 1/2\nunits 1\nb 1/2"),
        format!("{set}{set}")
    );
    assert_eq!(
        frames("units 1\na 1/2\n\n# still the same set\nb 1/3\nlist"),
        "0101020001000200010003\n03\n"
    );
    assert_eq!(frames("units 1\nraw \"x\"\nunits 2"), "010100\nx\n010200\n");
}

#[test]
fn names_may_be_odd() {
    for name in [
        "Prämien",
        "保険金",
        "claims#2",
        "the list",
        "Run",
        "a  b\tc",
        "units: 3",
        "1/2",
        "\"raw\"",
        "e\u{301}",
        "-",
    ] {
        assert_eq!(
            frames(&format!("units 1\n\t{name}\t1/2\t# half\r\n")),
            "01010100010002\n",
            "{name}"
        );
    }
    let sent = read("units 1\n a \u{A0} b\tc 1/2".as_bytes()).unwrap();
    assert_eq!(sent[0].names, ["a b c"]);
}
