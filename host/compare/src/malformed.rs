//! Every kind of malformed line that document 01 names: "odd digits, other
//! characters, an empty line, unknown kind, wrong length for the kind, over 518
//! digits". A line never holds a line feed.

use crate::frames::{hexadecimal, listing, run, Set, MOST_DIGITS};
use crate::generator::Generator;
use crate::sets;

/// Characters that are no capital hexadecimal digit: the neighbours of the
/// digits and of the letters, blanks of all sorts, NUL, bytes above 127.
pub const OTHERS: [u8; 25] = [
    0, 1, 9, 11, 12, 13, 27, b' ', b'/', b':', b'@', b'G', b'`', b'a', b'f', b'g', b'x', b'-',
    b'+', b'_', 127, 128, 176, 194, 255,
];

/// A malformed line of any kind, of moderate length.
pub fn any(g: &mut Generator) -> Vec<u8> {
    match g.below(7) {
        0 => Vec::new(),
        1 => odd(g),
        2 => other_character(g),
        3 => around(g),
        4 => unknown_kind(g),
        5 => wrong_length(g),
        _ => {
            let length = g.pick(&[519, 520, 521, 526, 600, 1_000, 1_024, 4_096]);
            too_long(g, length)
        }
    }
}

/// A well-formed line, to be spoiled.
pub fn good(g: &mut Generator) -> Vec<u8> {
    match g.below(4) {
        0 => listing(),
        1 => run(g.pick(&[0, 1, 2, 10, 171, 1_024, 1_025, 43_981, 65_535])),
        2 => sets::refused(g).line(),
        _ => sets::accepted(g).line(),
    }
}

/// One digit too few or too many.
fn odd(g: &mut Generator) -> Vec<u8> {
    let mut line = good(g);
    if g.one_in(2) {
        line.remove(g.below(line.len()));
    } else {
        line.insert(g.below(line.len() + 1), b'0');
    }
    line
}

/// One character is no digit; the length is right. Small letters come by
/// themselves where the line has a capital.
fn other_character(g: &mut Generator) -> Vec<u8> {
    let mut line = good(g);
    let place = g.below(line.len());
    line[place] = match line[place] {
        letter @ b'A'..=b'F' if g.one_in(2) => letter.to_ascii_lowercase(),
        _ => g.pick(&OTHERS),
    };
    line
}

/// A blank, a carriage return or the like before, after or around a good line.
fn around(g: &mut Generator) -> Vec<u8> {
    let other = g.pick(&OTHERS);
    let mut line = good(g);
    match g.below(4) {
        0 => line.insert(0, other),
        1 => line.push(other),
        2 => line = [&[other], &line[..], &[other]].concat(),
        _ => line = [b"0x", &line[..]].concat(),
    }
    line
}

fn unknown_kind(g: &mut Generator) -> Vec<u8> {
    let kind = g.pick(&[
        0x00, 0x04, 0x05, 0x0F, 0x10, 0x11, 0x20, 0x30, 0x81, 0x82, 0x83, 0x8F, 0xFF,
    ]);
    let mut line = good(g);
    line.splice(..2, hexadecimal(&[kind]));
    line
}

/// Whole bytes too few or too many, or a number of tasks that is not that of the
/// tasks that follow. More digits than document 01 allows may come of it.
fn wrong_length(g: &mut Generator) -> Vec<u8> {
    let mut line = good(g);
    let bytes = g.pick(&[1, 2, 3, 4, 8]);
    match g.below(4) {
        0 => line.truncate(line.len().saturating_sub(2 * bytes).max(2)),
        1 => line.extend(vec![b'0'; 2 * bytes]),
        2 => line = sets_with_number(g),
        _ => {
            line = g
                .pick(&[
                    &b"01"[..],
                    b"0101",
                    b"02",
                    b"0200",
                    b"02000001",
                    b"0300",
                    b"0303",
                ])
                .to_vec()
        }
    }
    if matches!(crate::frames::read(&line), crate::frames::Frame::Malformed) {
        line
    } else {
        // The listing has nothing to cut, and zeros may be no task too few.
        b"0301".to_vec()
    }
}

/// A set whose number of tasks says another number than there are tasks.
fn sets_with_number(g: &mut Generator) -> Vec<u8> {
    let set = sets::accepted(g);
    let n = set.tasks.len() as u8;
    let number = g.pick(&[0, n + 1, n - 1, 65, 128, 255]);
    let mut line = set.line();
    line.splice(4..6, hexadecimal(&[if number == n { 66 } else { number }]));
    line
}

/// More than 518 digits: a set of 65 tasks, good frames in a row, or anything.
pub fn too_long(g: &mut Generator, length: usize) -> Vec<u8> {
    let length = length.max(MOST_DIGITS + 1);
    let pattern = match g.below(5) {
        0 => b"0".to_vec(),
        1 => listing(),
        2 => run(1),
        3 => Set::new(1, &vec![(1, 2); 65]).line(),
        _ => (0..7).map(|_| g.pick(&OTHERS)).collect(),
    };
    pattern.into_iter().cycle().take(length).collect()
}
