//! Digits: "hexadecimal, capitals", "big-endian".

/// The two digits of each byte, so that writing a byte is one look-up.
pub static PAIRS: [[u8; 2]; 256] = pairs();

const fn pairs() -> [[u8; 2]; 256] {
    const DIGITS: &[u8; 16] = b"0123456789ABCDEF";
    let mut pairs = [[0; 2]; 256];
    let mut byte = 0;
    while byte < 256 {
        pairs[byte] = [DIGITS[byte >> 4], DIGITS[byte & 15]];
        byte += 1;
    }
    pairs
}

/// Looks at every character, without leaving early: so the compiler can take
/// many at a time.
pub fn all_digits(text: &[u8]) -> bool {
    text.iter().fold(true, |all, &c| all & is_digit(c))
}

fn is_digit(c: u8) -> bool {
    (c.wrapping_sub(b'0') < 10) | (c.wrapping_sub(b'A') < 6)
}

/// The value of a digit. For another character it is some number below 43, which
/// is of no use but does no harm.
fn value(c: u8) -> u32 {
    u32::from((c & 15) + 9 * (c >> 6))
}

/// The number written by these digits.
pub fn number(digits: &[u8]) -> u32 {
    digits.iter().fold(0, |sum, &c| sum << 4 | value(c))
}
