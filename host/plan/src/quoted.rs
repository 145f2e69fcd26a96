//! The text of a `raw` line: any bytes but a line feed, in quotes, so that what is no frame can stand in a plan.

use crate::kinds::RAW;
use crate::lines::digit;

/// Printable ASCII stands for itself; a quote, a backslash and every other byte is \x and two digits.
pub fn write(bytes: &[u8]) -> String {
    let mut text = String::from("\"");
    for &byte in bytes {
        match byte {
            b'"' | b'\\' => text.push_str(&format!("\\x{byte:02X}")),
            b' '..=b'~' => text.push(char::from(byte)),
            _ => text.push_str(&format!("\\x{byte:02X}")),
        }
    }
    text.push('"');
    text
}

/// The bytes in quotes at the front of a text, and what stands behind them.
pub fn read(text: &str) -> Result<(Vec<u8>, &str), String> {
    let Some(inside) = text.strip_prefix('"') else {
        return Err(format!(
            "the text of {RAW} stands in quotes: write it as {RAW} \"0200O8\""
        ));
    };
    let Some((inside, behind)) = inside.split_once('"') else {
        return Err(format!(
            "the quotes of {RAW} do not end: put a \" behind its text (a quote inside is \\x22)"
        ));
    };
    Ok((unescaped(inside)?, behind))
}

fn unescaped(inside: &str) -> Result<Vec<u8>, String> {
    let mut parts = inside.split('\\');
    let mut bytes = parts.next().unwrap_or("").as_bytes().to_vec();
    for part in parts {
        let byte = escaped(part).ok_or(
            "behind a \\ there must be x and two digits (0 to 9, A to F): a \\ itself is \\x5C",
        )?;
        bytes.push(byte);
        bytes.extend_from_slice(&part.as_bytes()[3..]);
    }
    if bytes.contains(&b'\n') {
        return Err(format!(
            "\\x0A would end the line: write two lines of {RAW}"
        ));
    }
    Ok(bytes)
}

/// The byte that "x0D" at the front of a part stands for.
fn escaped(part: &str) -> Option<u8> {
    match part.as_bytes() {
        [b'x', high, low, ..] => Some(digit(*high)? * 16 + digit(*low)?),
        _ => None,
    }
}
