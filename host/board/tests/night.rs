//! The example night: its files fit each other, and its page quotes them as they are.

use std::fs;

use board::pairing::night;

fn example(name: &str) -> String {
    let path = format!("{}/../../examples/{name}", env!("CARGO_MANIFEST_DIR"));
    fs::read_to_string(&path).unwrap_or_else(|why| panic!("{path}: {why}"))
}

/// The lines of the page's boxes that start with a word, without it.
fn quoted(page: &str, word: &str) -> Vec<String> {
    let after = |line: &str| line.strip_prefix(word).map(|rest| rest.trim().to_string());
    page.lines().filter_map(after).collect()
}

#[test]
fn asked_and_answered_fit() {
    let night = night(
        example("night.txt").as_bytes(),
        example("night.out").as_bytes(),
    );
    assert_eq!(night.misfit, None);
    let times: Vec<u32> = night.blocks.iter().map(|block| block.time).collect();
    assert_eq!(times, [24, 30]);
    let refused: Vec<u8> = night.blocks[0]
        .refusals
        .iter()
        .map(|refused| refused.refusal.number)
        .collect();
    assert_eq!(refused, [6, 11, 10]);
}

#[test]
fn the_page_quotes_every_frame() {
    let frames: Vec<String> = example("night.txt").lines().map(str::to_string).collect();
    assert_eq!(quoted(&example("night.md"), "asked "), frames);
}

#[test]
fn the_page_quotes_real_answers_in_order() {
    let (page, output) = (example("night.md"), example("night.out"));
    let mut rest = output.lines();
    let answers = quoted(&page, "answered ");
    assert!(answers.len() > 15);
    for answer in answers {
        assert!(
            rest.any(|line| line == answer),
            "{answer} is not in night.out, or not in this order"
        );
    }
}
