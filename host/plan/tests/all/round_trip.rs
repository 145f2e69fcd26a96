//! Plan to frames to plan to frames gives the same frames, and so does any input of any bytes.

use plan::reading::{self, read};
use plan::words;

/// A small generator, so that every run of the tests tries the same bytes.
struct Seeded(u64);

impl Seeded {
    fn below(&mut self, limit: usize) -> usize {
        self.0 = self
            .0
            .wrapping_mul(6364136223846793005)
            .wrapping_add(1442695040888963407);
        (self.0 >> 33) as usize % limit
    }

    fn one_of<'a>(&mut self, from: &[&'a str]) -> &'a str {
        from[self.below(from.len())]
    }

    fn number(&mut self, most: usize) -> usize {
        let most = [1, 9, most][self.below(3)];
        self.below(most + 1)
    }

    /// A plan without faults.
    fn plan(&mut self) -> String {
        let mut plan = String::new();
        for _ in 0..self.below(8) {
            match self.below(4) {
                0 => plan.push_str(&format!("run {}\n", self.number(65535))),
                1 => plan.push_str("list # who?\n\n"),
                2 => plan.push_str(&format!(
                    "raw \"{}\"\n",
                    self.one_of(&["", "03", "\\xFF", "units 3", "\\x22 #", "0a", "é"])
                )),
                _ => plan.push_str(&self.set()),
            }
        }
        plan
    }

    fn set(&mut self) -> String {
        let mut set = format!("units {}\n", self.number(255));
        for place in 0..self.number(255) {
            set.push_str(&format!(
                "\tétage {place} {}/{}\r\n",
                self.number(65535),
                self.number(65535)
            ));
        }
        set
    }
}

fn frames_of(plan: &str) -> Vec<u8> {
    reading::text(&read(plan.as_bytes()).unwrap_or_else(|faults| panic!("{plan}{faults:?}")))
}

#[test]
fn plans_come_back() {
    let mut seeded = Seeded(1);
    for _ in 0..600 {
        let frames = frames_of(&seeded.plan());
        let words = words::of_frames(&frames);
        assert_eq!(frames_of(&words), frames);
        assert_eq!(words::of_frames(&frames_of(&words)), words);
    }
}

#[test]
fn any_bytes_come_back() {
    let every: Vec<u8> = (0..=255).collect();
    let alphabets: [&[u8]; 4] = [&every, b"0123456789ABCDEF\n", b"0123\n", b"\"\\x #\r\n0"];
    let mut seeded = Seeded(2);
    for turn in 0..4_000 {
        let alphabet = alphabets[turn % 4];
        let length = seeded.below(120);
        let mut frames: Vec<u8> = (0..length)
            .map(|_| alphabet[seeded.below(alphabet.len())])
            .collect();
        let words = words::of_frames(&frames);
        if frames.last().is_some_and(|&byte| byte != b'\n') {
            // The last line may lack its line feed; it means the same with one.
            frames.push(b'\n');
        }
        assert_eq!(frames_of(&words), frames);
    }
}

#[test]
fn any_bytes_as_a_plan_end_in_frames_or_in_faults() {
    let mut seeded = Seeded(3);
    for turn in 0..4_000 {
        let mut bytes = seeded.plan().into_bytes();
        for _ in 0..turn % 5 {
            let (at, byte) = (seeded.below(bytes.len() + 1), seeded.below(256) as u8);
            bytes.insert(at, byte);
        }
        if let Err(faults) = read(&bytes) {
            assert!(!faults.is_empty());
            assert!(
                faults.windows(2).all(|pair| pair[0].line < pair[1].line),
                "one a line, in order"
            );
        }
    }
}
