//! Scripts made from a seed: sets of many kinds, runs, listings and lines that
//! are malformed in many ways.

pub struct Dice(u64);

impl Dice {
    pub fn new(seed: u64) -> Dice {
        Dice(seed.wrapping_mul(0x9E37_79B9_7F4A_7C15) | 1)
    }

    /// From 0 to below `most`.
    pub fn below(&mut self, most: u64) -> u64 {
        self.0 ^= self.0 << 13;
        self.0 ^= self.0 >> 7;
        self.0 ^= self.0 << 17;
        (self.0 >> 11) % most
    }

    pub fn between(&mut self, least: u64, most: u64) -> u64 {
        least + self.below(most - least + 1)
    }
}

/// A whole script; runs are kept short, so that the second program is in time.
pub fn script(dice: &mut Dice, lines: u64) -> Vec<u8> {
    let mut script = Vec::new();
    for _ in 0..lines {
        match dice.below(10) {
            0..=3 => script.extend(set(dice).into_bytes()),
            4..=6 => script.extend(format!("02{:04X}", dice.below(60)).into_bytes()),
            7 => script.extend(b"03"),
            8 => script.extend(malformed(dice)),
            _ => script.extend(odd_run(dice).into_bytes()),
        }
        script.push(b'\n');
    }
    if dice.below(2) == 0 {
        script.pop();
    }
    script
}

/// Runs about the limit of slots, most of them over it.
fn odd_run(dice: &mut Dice) -> String {
    let slots = [0, 1, 1_025, 2_000, 65_535, 1_024];
    let most = if dice.below(20) == 0 { 6 } else { 5 };
    format!("02{:04X}", slots[dice.below(most) as usize])
}

/// A set of any size. Periods divide a common number, or come from a short
/// range, or are free; now and then one record is out of its limits.
pub fn set(dice: &mut Dice) -> String {
    if dice.below(40) == 0 {
        return line(dice.below(35), &[]);
    }
    let n = match dice.below(4) {
        0 => dice.between(1, 3),
        1 => dice.between(60, 64),
        _ => dice.between(1, 64),
    };
    let common = [60, 840, 5_040, 720_720, 65_536, 1_048_575, 2_310, 997][dice.below(8) as usize];
    let kind = dice.below(8);
    let mut records: Vec<(u64, u64)> = (0..n).map(|_| record(dice, kind, common)).collect();
    if dice.below(3) == 0 {
        fill(&mut records);
    }
    if dice.below(12) == 0 {
        let place = dice.below(records.len() as u64) as usize;
        records[place] = [(0, 2), (2, 2), (1, 1), (5, 4), (0, 0)][dice.below(5) as usize];
    }
    let m = if dice.below(5) == 0 {
        dice.below(35)
    } else {
        32
    };
    line(m, &records)
}

pub fn line(m: u64, records: &[(u64, u64)]) -> String {
    let tasks: String = records
        .iter()
        .map(|(e, p)| format!("{e:04X}{p:04X}"))
        .collect();
    format!("01{m:02X}{:02X}{tasks}", records.len())
}

fn record(dice: &mut Dice, kind: u64, common: u64) -> (u64, u64) {
    let p = match kind {
        0 => dice.between(2, 6),
        1 => dice.between(2, 65_535),
        2 => common.min(65_535),
        _ => divisor(dice, common),
    };
    let e = match dice.below(4) {
        0 => 1,
        1 => p - 1,
        _ => dice.between(1, p - 1),
    };
    (e, p)
}

fn divisor(dice: &mut Dice, common: u64) -> u64 {
    loop {
        let p = dice.between(2, common.min(65_535));
        if common.is_multiple_of(p) {
            return p;
        }
    }
}

/// Turns each second record into the rest of the one before it, so that the
/// weights add up to a whole number and there is no spare.
fn fill(records: &mut Vec<(u64, u64)>) {
    if records.len() % 2 == 1 && records.len() > 1 {
        records.pop();
    }
    for pair in records.chunks_exact_mut(2) {
        pair[1] = (pair[0].1 - pair[0].0, pair[0].1);
    }
}

/// A line that is malformed, or may be.
pub fn malformed(dice: &mut Dice) -> Vec<u8> {
    let mut line = match dice.below(4) {
        0 => return vec![b'0'; dice.between(0, 1_200) as usize],
        1 => (0..dice.below(60)).map(|_| dice.below(256) as u8).collect(),
        2 => b"020004".to_vec(),
        _ => set(dice).into_bytes(),
    };
    let place = dice.below(line.len() as u64 + 1) as usize;
    match dice.below(5) {
        0 => line.insert(place, b'0'),
        1 => line.truncate(place),
        2 => line.extend(b"00000000".repeat(dice.between(1, 80) as usize)),
        3 if place < line.len() => line[place] = b"aGg/:@ `\r\x00\xB0\xC1"[dice.below(12) as usize],
        _ => line.extend(b" "),
    }
    line.retain(|&c| c != b'\n');
    line
}
