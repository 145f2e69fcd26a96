//! The answers are compared with those of the second program, byte for byte.

mod scripts;

use plain::Comparing;
use scripts::{line, malformed, script, Dice};
use std::io::{self, Read};

/// An input that comes in pieces of up to `most` bytes.
struct Pieces<'a> {
    rest: &'a [u8],
    dice: Dice,
    most: u64,
}

impl Read for Pieces<'_> {
    fn read(&mut self, block: &mut [u8]) -> io::Result<usize> {
        let piece = self.dice.between(1, self.most) as usize;
        let length = piece.min(block.len()).min(self.rest.len());
        let (now, later) = self.rest.split_at(length);
        block[..length].copy_from_slice(now);
        self.rest = later;
        Ok(length)
    }
}

fn plain(comparing: Comparing, input: &[u8], seed: u64, most: u64) -> Vec<u8> {
    let mut output = Vec::new();
    let pieces = Pieces {
        rest: input,
        dice: Dice::new(seed),
        most,
    };
    plain::serve_with(comparing, pieces, &mut output).unwrap();
    output
}

fn second(input: &[u8]) -> Vec<u8> {
    let mut output = Vec::new();
    second::serve(input, &mut output).unwrap();
    output
}

fn compare(input: &[u8], seed: u64) {
    let expected = second(input);
    let pieces = [3, 700, 1 << 20];
    for (comparing, most) in [Comparing::Together, Comparing::Pairs, Comparing::Together]
        .into_iter()
        .zip(pieces)
    {
        let answers = plain(comparing, input, seed, most);
        let text = String::from_utf8_lossy(input);
        assert!(
            answers == expected,
            "{comparing:?}, seed {seed}, pieces to {most}:\n{text}"
        );
    }
}

#[test]
fn scripts_of_all_kinds() {
    for seed in 0..400 {
        compare(&script(&mut Dice::new(seed), 30), seed);
    }
}

/// The scripts are worth something only if they meet what frames can meet.
#[test]
fn scripts_meet_every_refusal_but_7() {
    let mut met = [0; 16];
    for seed in 0..100 {
        let output = second(&script(&mut Dice::new(seed), 30));
        let lines = output.split(|&c| c == b'\n');
        for refusal in lines.filter(|line| line.starts_with(b"8F0")) {
            met[(refusal[3] as char).to_digit(16).unwrap() as usize] += 1;
        }
    }
    for number in [2, 3, 4, 5, 6, 10, 11] {
        assert!(met[number] > 0, "refusal {number}: {met:?}");
    }
}

#[test]
fn malformed_lines() {
    for seed in 0..200 {
        let mut dice = Dice::new(seed + 10_000);
        let mut input = b"0101020001000200010003\n".to_vec();
        for _ in 0..50 {
            input.extend(malformed(&mut dice));
            input.extend(b"\n");
        }
        compare(&input, seed);
    }
}

#[test]
fn lines_about_the_longest() {
    for digits in 510..=530 {
        let tasks = line(32, &[(1, 2); 64]).repeat(2);
        let input = format!("{}\n020003\n03\n", &tasks[..digits]);
        compare(input.as_bytes(), digits as u64);
    }
    // Longer than any block, and the line after it is read as usual.
    let input = format!("{}\n0101010001FFFF\n020002\n", "0".repeat(300_000));
    compare(input.as_bytes(), 0);
}

#[test]
fn inputs_without_lines() {
    for input in ["", "\n", "\n\n", "03", "03\n", "0", "020001\n03"] {
        compare(input.as_bytes(), 0);
    }
}

#[test]
fn one_byte_in_every_place_of_a_frame() {
    for place in 0..14 {
        let mut input = Vec::new();
        for byte in (0..=255).filter(|&byte| byte != b'\n') {
            let mut frame = b"01010100010003".to_vec();
            frame[place] = byte;
            input.extend(frame);
            input.extend(b"\n03\n");
        }
        compare(&input, place as u64);
    }
}
