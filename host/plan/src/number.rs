//! A number of a plan: digits, as large as its field can carry.

use crate::kinds::Field;
use crate::name::shown;

/// The number, or what is wrong with it and what to do.
pub fn read(word: &str, field: &Field, such_as: &str) -> Result<u32, String> {
    let digits = !word.is_empty() && word.bytes().all(|byte| byte.is_ascii_digit());
    if !digits {
        return Err(no_number(word, such_as));
    }
    let small = |number: &u32| *number <= field.most();
    word.parse().ok().filter(small).ok_or_else(|| {
        format!(
            "a frame cannot carry {} for the {}: write a number from 0 to {}",
            shown(word),
            field.name,
            field.most()
        )
    })
}

fn no_number(word: &str, such_as: &str) -> String {
    let grouped = |letter: &char| matches!(letter, ',' | '\'' | '_');
    let plain: String = word.chars().filter(|letter| !grouped(letter)).collect();
    let digits = !plain.is_empty() && plain.bytes().all(|byte| byte.is_ascii_digit());
    if digits {
        return format!("{} is not in plain digits: write {plain}", shown(word));
    }
    format!(
        "{} is not a whole number: write it in digits 0 to 9, as in {such_as}",
        shown(word)
    )
}
