//! Lines of bytes, cut and read as hexadecimal. The bytes may be anything.

/// A text without the mark (BOM) that some editors put at a file's start.
pub fn without_mark(bytes: &[u8]) -> &[u8] {
    bytes.strip_prefix(b"\xEF\xBB\xBF").unwrap_or(bytes)
}

/// What stands before each line feed. A final line feed starts no new line (docs/RULES.md, part 5).
pub fn cut(bytes: &[u8]) -> Vec<&[u8]> {
    let mut lines: Vec<&[u8]> = bytes.split(|&byte| byte == b'\n').collect();
    if lines.last().is_some_and(|line| line.is_empty()) {
        lines.pop();
    }
    lines
}

/// The bytes that a line of hexadecimal digits (capitals, an even number, at least two) stands for.
pub fn bytes_of(line: &[u8]) -> Option<Vec<u8>> {
    if line.is_empty() || line.len() % 2 != 0 {
        return None;
    }
    line.chunks(2)
        .map(|pair| Some(digit(pair[0])? * 16 + digit(pair[1])?))
        .collect()
}

pub fn digit(byte: u8) -> Option<u8> {
    match byte {
        b'0'..=b'9' => Some(byte - b'0'),
        b'A'..=b'F' => Some(byte - b'A' + 10),
        _ => None,
    }
}

/// A big-endian number of up to four bytes.
pub fn number(bytes: &[u8]) -> u32 {
    bytes
        .iter()
        .fold(0, |sum, &byte| sum << 8 | u32::from(byte))
}
