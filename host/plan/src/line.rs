//! One line of a plan: what it says, or what is wrong with it and what to do.

use crate::frame::Task;
use crate::kinds::{self, Kind, PERIOD, RAW, REQUIREMENT, TASK_SUCH_AS};
use crate::lines;
use crate::name::{self, shown};
use crate::{number, quoted};

#[derive(Clone, Debug, PartialEq, Eq)]
pub enum Said {
    /// A blank line, or a comment.
    Nothing,
    /// A line that begins with a kind's word, with its numbers.
    Asks(&'static Kind, Vec<u32>),
    /// A task of the set that the last such line began.
    Names(String, Task),
    /// A line that is sent as it stands.
    Raw(Vec<u8>),
}

pub fn read(line: &str) -> Result<Said, String> {
    let line = line.trim();
    if let Some(text) = behind_word(line, RAW) {
        return raw(text);
    }
    let (said, comment) = without_comment(line);
    let words: Vec<&str> = said.split_whitespace().collect();
    let Some((first, rest)) = words.split_first() else {
        return Ok(Said::Nothing);
    };
    match kinds::of_word(first) {
        Some(kind) => asks(kind, rest),
        None => task(&words, comment),
    }
}

/// What stands behind a line's first word, if it is this one.
fn behind_word<'a>(line: &'a str, word: &str) -> Option<&'a str> {
    let behind = line.strip_prefix(word)?;
    let ends = behind.is_empty()
        || behind.starts_with(|letter: char| letter.is_whitespace() || letter == '"');
    ends.then(|| behind.trim_start())
}

/// A # at the start of a word begins a comment, so that a name may have one inside.
fn without_comment(line: &str) -> (&str, bool) {
    let begins = |(at, _): &(usize, &str)| {
        let before = line[..*at].chars().next_back();
        before.is_none_or(char::is_whitespace)
    };
    match line.match_indices('#').find(begins) {
        Some((at, _)) => (&line[..at], true),
        None => (line, false),
    }
}

fn raw(text: &str) -> Result<Said, String> {
    let (bytes, behind) = quoted::read(text)?;
    if !without_comment(behind).0.trim().is_empty() {
        return Err(format!(
            "{} stands behind the quotes: put it into them, or a # before it",
            shown(behind.trim())
        ));
    }
    Ok(Said::Raw(bytes))
}

fn asks(kind: &'static Kind, rest: &[&str]) -> Result<Said, String> {
    let (word, such_as) = (kind.word, kind.such_as());
    if rest.last().is_some_and(|last| last.contains('/')) {
        return Err(format!(
            "a task's name cannot begin with the word {word}: write it another way, such as {} {}",
            capital(word),
            rest.join(" ")
        ));
    }
    if rest.len() < kind.fields.len() {
        let missing = kind.fields[rest.len()].name;
        return Err(format!(
            "{word} needs the number of {missing}: write it as {such_as}"
        ));
    }
    if rest.len() > kind.fields.len() {
        let extra = rest[kind.fields.len()..].join(" ");
        return Err(format!(
            "nothing can be done with {} behind {word}: write it as {such_as}",
            shown(&extra)
        ));
    }
    let numbers = kind
        .fields
        .iter()
        .zip(rest)
        .map(|(field, word)| number::read(word, field, &such_as))
        .collect::<Result<_, _>>()?;
    Ok(Said::Asks(kind, numbers))
}

fn capital(word: &str) -> String {
    let mut letters = word.chars();
    letters
        .next()
        .map(|first| first.to_uppercase().chain(letters).collect())
        .unwrap_or_default()
}

/// A name and a share: all words but the last are the name.
fn task(words: &[&str], comment: bool) -> Result<Said, String> {
    let Some((share, name)) = words.split_last() else {
        return Ok(Said::Nothing);
    };
    let Some((requirement, period)) = share.split_once('/') else {
        return Err(no_share(words, comment));
    };
    if name.is_empty() {
        return Err(format!(
            "there is no name before {}: a task is a name and a share, such as {TASK_SUCH_AS}",
            shown(share)
        ));
    }
    let name = name.join(" ");
    if let Some(letter) = name.chars().find(|letter| !name::prints(*letter)) {
        return Err(format!(
            "the name has a character that does not print (U+{:04X}): take it out",
            u32::from(letter)
        ));
    }
    let task = Task {
        requirement: number::read(requirement, &REQUIREMENT, TASK_SUCH_AS)?,
        period: number::read(period, &PERIOD, TASK_SUCH_AS)?,
    };
    Ok(Said::Names(name, task))
}

fn no_share(words: &[&str], comment: bool) -> String {
    let text = shown(&words.join(" "));
    if let [frame] = words {
        if frame.starts_with('0') && lines::bytes_of(frame.as_bytes()).is_some() {
            return format!("{text} is a frame: say it in words (./plan --words turns frames into a plan), or put it in quotes behind {RAW}");
        }
    }
    if let Some(word) = meant(words[0]) {
        return format!("{text} is no line of a plan: did you mean {word}?");
    }
    let cut = if comment { " (# begins a comment)" } else { "" };
    format!(
        "{text} does not end in a share{cut}: write a task as {TASK_SUCH_AS}, or begin the line with {}",
        kinds::plan_words().join(", ")
    )
}

/// The kind of frame that a line was to be, as far as its first word tells it: a line with a fault may have begun a set.
pub fn kind_meant(line: &str) -> Option<&'static Kind> {
    let first = line.split_whitespace().next()?;
    kinds::of_word(first).or_else(|| kinds::of_word(meant(first)?))
}

/// The word of a plan that somebody who wrote another may have meant.
fn meant(word: &str) -> Option<&'static str> {
    let word = word.to_lowercase();
    let near = |known: &&str| {
        word.starts_with(known) || (word.len() > 1 && known.starts_with(word.as_str()))
    };
    kinds::plan_words().into_iter().find(near)
}
