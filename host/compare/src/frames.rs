//! Document 01, "Frames": lines as the driver writes them and takes them apart.

/// Document 01: "at most 518 digits".
pub const MOST_DIGITS: usize = 518;

/// What an admission frame carries. The fields are as wide as the frame's, so
/// that values outside document 01's limits can be sent too.
#[derive(Debug, Clone, PartialEq, Eq)]
pub struct Set {
    pub m: u8,
    /// Requirement and period.
    pub tasks: Vec<(u16, u16)>,
}

/// A line by its form alone; whether a set is in force does not matter here.
#[derive(Debug, Clone, PartialEq, Eq)]
pub enum Frame {
    Admission(Set),
    Run(u16),
    Listing,
    Malformed,
}

impl Set {
    pub fn new(m: u8, tasks: &[(u16, u16)]) -> Set {
        Set {
            m,
            tasks: tasks.to_vec(),
        }
    }

    /// "01, m (1 byte), n (1), then n times e (2) and p (2)". The line has more
    /// digits than document 01 allows if there are more than 64 tasks.
    pub fn line(&self) -> Vec<u8> {
        let mut bytes = vec![0x01, self.m, self.tasks.len() as u8];
        for &(e, p) in &self.tasks {
            bytes.extend(e.to_be_bytes());
            bytes.extend(p.to_be_bytes());
        }
        hexadecimal(&bytes)
    }
}

/// "02, slots (2)".
pub fn run(slots: u16) -> Vec<u8> {
    hexadecimal(&[&[0x02][..], &slots.to_be_bytes()].concat())
}

/// "03".
pub fn listing() -> Vec<u8> {
    b"03".to_vec()
}

pub fn hexadecimal(bytes: &[u8]) -> Vec<u8> {
    let digits = b"0123456789ABCDEF";
    bytes
        .iter()
        .flat_map(|&b| [digits[usize::from(b >> 4)], digits[usize::from(b & 15)]])
        .collect()
}

/// Takes a line apart, for the counts at the end and for the shrinker.
pub fn read(line: &[u8]) -> Frame {
    let Some(bytes) = read_digits(line) else {
        return Frame::Malformed;
    };
    match bytes[..] {
        [0x01, m, n, ref tasks @ ..] if tasks.len() == 4 * usize::from(n) => {
            let pair = |b: &[u8]| (two(b[0], b[1]), two(b[2], b[3]));
            let tasks = tasks.chunks(4).map(pair).collect();
            Frame::Admission(Set { m, tasks })
        }
        [0x02, high, low] => Frame::Run(two(high, low)),
        [0x03] => Frame::Listing,
        _ => Frame::Malformed,
    }
}

fn two(high: u8, low: u8) -> u16 {
    u16::from_be_bytes([high, low])
}

fn read_digits(line: &[u8]) -> Option<Vec<u8>> {
    if line.len() > MOST_DIGITS || !line.len().is_multiple_of(2) {
        return None;
    }
    line.chunks(2)
        .map(|pair| Some(digit(pair[0])? * 16 + digit(pair[1])?))
        .collect()
}

fn digit(character: u8) -> Option<u8> {
    match character {
        b'0'..=b'9' => Some(character - b'0'),
        b'A'..=b'F' => Some(character - b'A' + 10),
        _ => None,
    }
}

#[cfg(test)]
mod tests {
    use super::*;

    #[test]
    fn lines_are_those_of_the_whole_case() {
        let set = Set::new(1, &[(1, 2), (1, 3)]);
        assert_eq!(set.line(), b"0101020001000200010003");
        assert_eq!(run(6), b"020006");
    }

    #[test]
    fn what_is_written_is_read_back() {
        let set = Set::new(255, &[(0, 65535), (7, 1)]);
        assert_eq!(read(&set.line()), Frame::Admission(set));
        assert_eq!(read(&run(65535)), Frame::Run(65535));
        assert_eq!(read(&listing()), Frame::Listing);
    }

    #[test]
    fn sixty_four_tasks_fill_the_line_and_sixty_five_do_not_fit() {
        let set = |n| Set::new(1, &vec![(1, 2); n]);
        assert_eq!(set(64).line().len(), MOST_DIGITS);
        assert_eq!(read(&set(65).line()), Frame::Malformed);
    }

    #[test]
    fn other_lines_are_malformed() {
        for line in [&b""[..], b"0", b"0300", b"02000a", b"03\r", b"04", b"0200"] {
            assert_eq!(read(line), Frame::Malformed);
        }
    }
}
