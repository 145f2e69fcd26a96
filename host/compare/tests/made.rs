//! What the generator makes is what it says, by the second program's word.

use compare::frames::Set;
use compare::generator::Generator;
use compare::scripts::{of_seed, Script};
use compare::tally::Tally;
use compare::{fixed, malformed, sets};
use second::{admission, Admitted, Refusal, Session};

const TIMES: u64 = 1_500;

fn admit(set: &Set) -> Result<Admitted, Refusal> {
    let es: Vec<u32> = set.tasks.iter().map(|task| task.0.into()).collect();
    let ps: Vec<u32> = set.tasks.iter().map(|task| task.1.into()).collect();
    admission(&es, &ps, set.m.into())
}

/// The second program's output, in process.
fn output(script: &Script) -> Vec<u8> {
    let mut output = Vec::new();
    second::serve(&script.bytes()[..], &mut output).unwrap();
    output
}

#[test]
fn accepted_sets_are_accepted_and_refused_ones_refused() {
    for seed in 0..TIMES {
        let mut g = Generator::new(seed);
        let set = sets::accepted(&mut g);
        assert!(admit(&set).is_ok(), "{set:?}");
        let set = sets::refused(&mut g);
        assert!(admit(&set).is_err(), "{set:?}");
    }
}

#[test]
fn loads_are_full_and_off_by_one() {
    for seed in 0..TIMES {
        let mut g = Generator::new(seed);
        let full = admit(&sets::full(&mut g)).unwrap();
        assert_eq!(full.spare, None);
        let short = admit(&sets::short_by_one(&mut g)).unwrap();
        assert_eq!(short.spare, Some((1, short.l)));
        let over = admit(&sets::over_by_one(&mut g));
        assert_eq!(over, Err(Refusal::Load { excess: 1 }));
    }
}

#[test]
fn tasks_and_multiples_are_wrong_as_meant() {
    for seed in 0..TIMES {
        let mut g = Generator::new(seed);
        let spoiled = admit(&sets::spoiled(&mut g));
        assert!(matches!(spoiled, Err(Refusal::Limits { .. })));
        assert_eq!(admit(&sets::above_l(&mut g)), Err(Refusal::Multiple));
    }
}

#[test]
fn malformed_lines_are_malformed_and_one_line_each() {
    let mut session = Session::default();
    session.answer(b"01010100010002");
    for seed in 0..TIMES {
        let line = malformed::any(&mut Generator::new(seed));
        assert!(!line.contains(&b'\n'));
        assert_eq!(
            session.answer(&line),
            [[0x8F, 11, 0xFF]],
            "{}",
            line.escape_ascii()
        );
    }
}

#[test]
fn a_seed_reaches_every_kind_and_refusal() {
    let mut tally = Tally::default();
    for script in of_seed(3, 2_000) {
        tally.script(&script, &output(&script));
    }
    assert_eq!(tally.lines, 2_000);
    assert!(tally.frames.iter().all(|count| *count > 20));
    for number in [2, 3, 4, 5, 6, 10, 11] {
        assert!(tally.answers.refusals[number] > 0, "{number}");
    }
    assert_eq!(tally.answers.refusals[0], 0);
}

#[test]
fn the_same_seed_makes_the_same_scripts() {
    let scripts = |seed| of_seed(seed, 300).collect::<Vec<Script>>();
    assert_eq!(scripts(11), scripts(11));
    assert_ne!(scripts(11), scripts(12));
    // More lines only go on: the first scripts stay as they are.
    assert_eq!(scripts(11)[0], of_seed(11, 5_000).next().unwrap());
}

#[test]
fn an_empty_last_line_keeps_its_line_feed() {
    let line = b"03".to_vec();
    assert_eq!(Script::default().bytes(), b"");
    assert_eq!(Script::new(vec![line.clone()]).bytes(), b"03\n");
    assert_eq!(Script::unended(vec![line.clone()]).bytes(), b"03");
    assert_eq!(Script::unended(vec![line, Vec::new()]).bytes(), b"03\n\n");
}

#[test]
fn fixed_malformed_lines_leave_the_run_alone() {
    let scripts = fixed::all();
    let script = &scripts
        .iter()
        .find(|s| s.name == "malformed in a run")
        .unwrap()
        .script;
    let mut tally = Tally::default();
    tally.script(script, &output(script));
    let lines = tally.frames[3];
    assert!(lines > 500);
    assert_eq!(tally.answers.refusals[11], lines);
    assert_eq!(tally.answers.kinds[2], lines);
}
