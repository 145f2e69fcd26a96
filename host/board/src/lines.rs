//! Lines of bytes: cut, read as hexadecimal, and shown safely. The bytes may be anything.

/// What stands before each line feed. A final line feed starts no new line, as in document 01's frames.
pub fn cut(bytes: &[u8]) -> Vec<&[u8]> {
    let mut lines: Vec<&[u8]> = bytes.split(|&byte| byte == b'\n').collect();
    if lines.last().is_some_and(|line| line.is_empty()) {
        lines.pop();
    }
    lines
}

/// The bytes that a line of hexadecimal digits (capitals, an even number, at least two) stands for.
pub fn bytes_of(line: &[u8]) -> Option<Vec<u8>> {
    if line.is_empty() || line.len() % 2 != 0 {
        return None;
    }
    line.chunks(2)
        .map(|pair| Some(digit(pair[0])? * 16 + digit(pair[1])?))
        .collect()
}

fn digit(byte: u8) -> Option<u8> {
    match byte {
        b'0'..=b'9' => Some(byte - b'0'),
        b'A'..=b'F' => Some(byte - b'A' + 10),
        _ => None,
    }
}

/// A big-endian number of up to four bytes.
pub fn number(bytes: &[u8]) -> u32 {
    bytes
        .iter()
        .fold(0, |sum, &byte| sum << 8 | u32::from(byte))
}

/// A line as it can be shown on any terminal: control characters and bytes beyond ASCII never reach it.
pub fn shown(line: &[u8], most: usize) -> String {
    let mut text: String = line
        .iter()
        .take(most)
        .map(|&byte| {
            if (b' '..=b'~').contains(&byte) {
                char::from(byte)
            } else {
                '?'
            }
        })
        .collect();
    if line.len() > most {
        text.push_str("...");
    }
    text
}

/// Words in lines of at most `columns` characters; a longer word has a line of its own.
pub fn wrapped(text: &str, columns: usize) -> Vec<String> {
    let mut lines: Vec<String> = Vec::new();
    for word in text.split(' ') {
        match lines.last_mut() {
            Some(line) if line.chars().count() + 1 + word.chars().count() <= columns => {
                line.push(' ');
                line.push_str(word);
            }
            _ => lines.push(word.to_string()),
        }
    }
    lines
}
