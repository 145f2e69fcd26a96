//! A case: one entry with all its inputs, and what may have changed after it.

/// The three lent lists.
#[derive(Debug, Clone, PartialEq, Eq, Default)]
pub struct Lists {
    pub es: Vec<u32>,
    pub ps: Vec<u32>,
    pub ks: Vec<u32>,
}

impl Lists {
    /// The tasks that all three lists have: what records can hold.
    pub fn common(&self) -> Lists {
        let n = self.es.len().min(self.ps.len()).min(self.ks.len());
        Lists {
            es: self.es[..n].to_vec(),
            ps: self.ps[..n].to_vec(),
            ks: self.ks[..n].to_vec(),
        }
    }
}

/// Where a set stands: on which units and at which time.
#[derive(Debug, Clone, Copy, PartialEq, Eq)]
pub struct Place {
    pub m: u32,
    pub t: u32,
}

#[derive(Debug, Clone, Copy, PartialEq, Eq)]
pub struct Comparison {
    pub e: u32,
    pub p: u32,
    pub e2: u32,
    pub p2: u32,
    pub t: u32,
}

#[derive(Debug, Clone, PartialEq, Eq)]
pub enum Case {
    /// The answer has this many places.
    Admission {
        lists: Lists,
        m: u32,
        room: usize,
    },
    Comparison(Comparison),
    /// So many bytes are lent.
    Slot {
        lists: Lists,
        length: usize,
        place: Place,
    },
    Run {
        slots: u32,
        lists: Lists,
        length: usize,
        place: Place,
    },
    Listing {
        lists: Lists,
        length: usize,
        place: Place,
    },
}

/// The answer and every lent list afterwards.
#[derive(Debug, Clone, PartialEq, Eq)]
pub struct After {
    /// 0 for done; a refusal's number times 2^32 plus what it carries; in a run
    /// also the slots done times 2^40.
    pub code: u64,
    pub lists: Lists,
    pub bytes: Vec<u8>,
    pub answer: Vec<u32>,
    /// Nothing was written beside the lists.
    pub guarded: bool,
}

/// What lent bytes and answers hold before the call: nothing an entry writes,
/// and no two neighbours the same.
pub fn odd_bytes(length: usize) -> Vec<u8> {
    (0..length)
        .map(|place| 0x99 ^ (place as u8 & 0x17))
        .collect()
}

pub fn odd_numbers(length: usize) -> Vec<u32> {
    (0..length)
        .map(|place| 0xDEAD_0000 + place as u32)
        .collect()
}

#[cfg(test)]
mod tests {
    use super::*;

    #[test]
    fn lent_bytes_are_odd() {
        for byte in odd_bytes(300) {
            assert!(![0, 1, 0x41, 0x4C, 0x50].contains(&byte));
        }
    }
}
