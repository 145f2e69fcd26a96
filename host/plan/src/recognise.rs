//! Whether a file is a plan or holds frames, told by its content.

use crate::{kinds, lines};

/// A plan is what has more lines that could only stand in a plan than lines of hexadecimal digits.
pub fn is_plan(bytes: &[u8]) -> bool {
    let lines = lines::cut(lines::without_mark(bytes));
    let of_plan = lines
        .iter()
        .filter(|line| could_stand_in_plan(line))
        .count();
    let of_frames = lines.iter().filter(|line| is_digits(line)).count();
    of_plan > of_frames
}

/// It begins with a plan's word or a comment's sign, or ends in something like a share.
fn could_stand_in_plan(line: &[u8]) -> bool {
    let text = String::from_utf8_lossy(line);
    let words: Vec<&str> = text.split_whitespace().collect();
    let (Some(first), Some(last)) = (words.first(), words.last()) else {
        return false;
    };
    let begins = first.starts_with('#') || kinds::plan_words().contains(first);
    begins || (words.len() > 1 && last.contains('/'))
}

fn is_digits(line: &[u8]) -> bool {
    let line = line.strip_suffix(b"\r").unwrap_or(line);
    !line.is_empty() && line.iter().all(u8::is_ascii_hexdigit)
}
