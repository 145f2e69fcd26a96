//! Every refusal in words, with what to do about it.

use board::grid::Look;
use board::page::page;
use board::pairing::night;
use board::words::{of_number, remedy, Names};

const LOOK: Look = Look {
    width: 100,
    ascii: true,
    colour: false,
};

fn shown(asked: &str, answered: &str) -> String {
    let night = night(asked.as_bytes(), answered.as_bytes());
    assert_eq!(night.misfit, None);
    page(
        &night,
        &Names(vec!["claims".into(), "premiums".into()]),
        LOOK,
    )
}

#[test]
fn each_number_has_its_own_words() {
    let all: Vec<String> = (1..=11)
        .map(|number| of_number(number, "place 1"))
        .collect();
    for (at, words) in all.iter().enumerate() {
        assert!(
            !words.contains("not in document 01's table"),
            "refusal {}",
            at + 1
        );
        assert!(
            !all[..at].contains(words),
            "refusal {} has the words of another",
            at + 1
        );
    }
    for number in [0, 12, 255] {
        assert!(of_number(number, "").contains("not in document 01's table"));
    }
}

#[test]
fn each_number_has_something_to_do() {
    for (number, part) in [
        (2, "1 to 64 tasks"),
        (3, "1 to 32 units"),
        (4, "2 to 65,535"),
        (5, "share factors"),
        (6, "more units"),
        (7, "start from 0"),
        (8, "call the engineers"),
        (9, "call the engineers"),
        (10, "at most 1,024"),
        (11, "type the line again"),
        (12, "call the engineers"),
    ] {
        assert!(
            remedy(number).contains(part),
            "refusal {number}: {}",
            remedy(number)
        );
    }
}

#[test]
fn refusal_4_names_the_task_and_its_fraction() {
    let text = shown("0101020001000200050005\n", "8F0401\n");
    assert!(text.contains("REFUSAL 4"), "{text}");
    assert!(text.contains("place 1 (premiums, 5/5)"), "{text}");
    assert!(text.contains("still no set in force"), "{text}");
}

#[test]
fn refusal_8_names_the_task_or_the_spare() {
    let asked = "0101020001000200010003\n020006\n";
    let accepted = "8101000000060000000100000006\n82000000000100\n";
    let text = shown(asked, &format!("{accepted}8F0801\n"));
    assert!(text.contains("at place 1 (premiums)"), "{text}");
    assert!(
        text.contains("done before it: 1 slot of the run; the time is 1"),
        "{text}"
    );
    let text = shown(asked, &format!("{accepted}8F0802\n"));
    assert!(
        text.contains("place 2 (the spare, or the sum of the counts)"),
        "{text}"
    );
    let text = shown(asked, &format!("{accepted}8F0833\n"));
    assert!(text.contains("place 51 (no task has it)"), "{text}");
}

#[test]
fn refusal_6_says_that_the_former_set_goes_on() {
    let asked = "0101020001000200010003\n020001\n0101020002000300020003\n020001\n";
    let answered = "8101000000060000000100000006\n82000000000100\n8F06FF\n82000000010101\n";
    let text = shown(asked, answered);
    assert!(
        text.contains("REFUSAL 6 for a set of 2 tasks (2/3, 2/3) on 1 unit"),
        "{text}"
    );
    assert!(
        text.contains("the former set stays in force and goes on from time 1"),
        "{text}"
    );
    assert_eq!(text.matches("accepted at asked line").count(), 1);
}

#[test]
fn refusal_11_points_at_the_fault() {
    for (line, part) in [
        ("0200O8", "character 5 is the letter 'O'"),
        ("0200a8", "character 5 is a small 'a'"),
        ("02 008", "character 3 is a blank"),
        ("020008\r", "character 7 is a carriage return"),
        ("", "the line is empty"),
        ("020", "the number of digits, 3, is odd"),
        ("0200", "a run is 02 and 4 digits"),
        ("0300", "a listing is 03"),
        ("0101", "a set needs 01, m, n"),
        ("04", "not 01, 02 or 03"),
        (&"0".repeat(520), "520 characters"),
    ] {
        let text = shown(&format!("{line}\n"), "8F0BFF\n");
        assert!(text.contains(part), "{line}: {text}");
    }
    assert!(shown("03\n", "8F0BFF\n").contains("no set was accepted before it"));
}

#[test]
fn refusal_10_says_that_nothing_ran() {
    let text = shown("0101010001000 2\n", "8F0BFF\n");
    assert!(text.contains("REFUSAL 11"), "{text}");
    let text = shown(
        "01010100010002\n020800\n",
        "8101000000020000000100000002\n8F0AFF\n",
    );
    assert!(
        text.contains("REFUSAL 10 for a run of 2,048 slots"),
        "{text}"
    );
    assert!(
        text.contains("no slot was run; the time is still 0"),
        "{text}"
    );
}
