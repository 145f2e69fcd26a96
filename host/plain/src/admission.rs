//! Admission: refusals 2 to 6, then M, L and the spare.

use crate::hex::number;
use crate::refusal::Refusal;

// Document 01, "Limits". The most of p is the most that a frame can say.
pub const MOST_TASKS: usize = 64;
const MOST_UNITS: u32 = 32;
const LEAST_PERIOD: u32 = 2;
const MOST_L: u64 = 1_048_576;

/// The records of a set in place order; those beyond the first n mean nothing.
#[derive(Clone)]
pub struct Records {
    pub n: usize,
    pub requirements: [u32; MOST_TASKS],
    pub periods: [u32; MOST_TASKS],
}

/// "answers M, L and the spare, or that there is none"
#[derive(Clone, Copy)]
pub struct Admitted {
    pub units: u32,
    pub l: u32,
    /// The requirement and period of the spare, 0 and 0 if there is none.
    pub spare: (u32, u32),
}

impl Records {
    pub const NONE: Records = Records {
        n: 0,
        requirements: [0; MOST_TASKS],
        periods: [0; MOST_TASKS],
    };

    /// "n times e (2) and p (2)": at most 64 times, by the length of a line.
    pub fn read(&mut self, tasks: &[u8]) {
        self.n = tasks.len() / 8;
        let lists = self.requirements.iter_mut().zip(&mut self.periods);
        for ((e, p), digits) in lists.zip(tasks.chunks_exact(8)) {
            let record = number(digits);
            *e = record >> 16;
            *p = record & 0xFFFF;
        }
    }

    fn requirements(&self) -> &[u32] {
        &self.requirements[..self.n]
    }

    fn periods(&self) -> &[u32] {
        &self.periods[..self.n]
    }

    /// "Admission uses 1 to 6 and answers M, L and the spare".
    pub fn admit(&self, m: u32) -> Result<Admitted, Refusal> {
        if self.n == 0 {
            return Err(Refusal::TASKS);
        }
        if m == 0 || m > MOST_UNITS {
            return Err(Refusal::UNITS);
        }
        self.check_limits()?;
        let l = self.least_common_multiple()?;
        let load = self.load(l);
        if load > m * l {
            return Err(Refusal::LOAD);
        }
        Ok(admitted(load, l))
    }

    /// Refusal 4, with the lowest place.
    fn check_limits(&self) -> Result<(), Refusal> {
        let mut records = self.requirements().iter().zip(self.periods());
        match records.position(|(&e, &p)| e == 0 || e >= p || p < LEAST_PERIOD) {
            Some(place) => Err(Refusal::limits(place)),
            None => Ok(()),
        }
    }

    /// Refusal 5 is given at the first multiple above the limit, since a
    /// multiple only grows. Many periods divide what stands already.
    fn least_common_multiple(&self) -> Result<u32, Refusal> {
        let mut l = 1;
        for &p in self.periods() {
            let rest = l % p;
            if rest != 0 {
                let multiple = u64::from(l / gcd(p, rest)) * u64::from(p);
                if multiple > MOST_L {
                    return Err(Refusal::MULTIPLE);
                }
                l = multiple as u32;
            }
        }
        Ok(l)
    }

    /// "The load is the sum of e·L/p": below n·L, so 32 bits hold it.
    fn load(&self, l: u32) -> u32 {
        let records = self.requirements().iter().zip(self.periods());
        records.map(|(&e, &p)| e * (l / p)).sum()
    }
}

/// "M is the load divided by L, rounded up"; the spare has "weight
/// (M·L - load)/L", "reduced to lowest terms by Euclid's rule".
fn admitted(load: u32, l: u32) -> Admitted {
    let units = load.div_ceil(l);
    let rest = units * l - load;
    let spare = if rest == 0 {
        (0, 0)
    } else {
        let divisor = gcd(l, rest);
        (rest / divisor, l / divisor)
    };
    Admitted { units, l, spare }
}

/// "Euclid's rule".
fn gcd(mut a: u32, mut b: u32) -> u32 {
    while b != 0 {
        (a, b) = (b, a % b);
    }
    a
}
