//! Lent lists with guards: what lies before and after a list must stay as it was,
//! too.

use std::fmt::Debug;

/// So many values on each side of the list.
const GUARD: usize = 16;

pub struct Lent<T> {
    cells: Vec<T>,
    odd: T,
}

impl<T: Copy + PartialEq + Debug> Lent<T> {
    /// `odd` is what the guards are made of.
    pub fn new(values: &[T], odd: T) -> Lent<T> {
        let guard = vec![odd; GUARD];
        Lent {
            cells: [&guard, values, &guard].concat(),
            odd,
        }
    }

    pub fn length(&self) -> usize {
        self.cells.len() - 2 * GUARD
    }

    pub fn pointer(&self) -> *const T {
        self.cells[GUARD..].as_ptr()
    }

    pub fn pointer_mut(&mut self) -> *mut T {
        self.cells[GUARD..].as_mut_ptr()
    }

    /// The list as it is now.
    pub fn values(&self) -> Vec<T> {
        self.cells[GUARD..self.cells.len() - GUARD].to_vec()
    }

    /// True if nothing beside the list was written.
    pub fn guarded(&self) -> bool {
        let end = self.cells.len() - GUARD;
        let mut guards = self.cells[..GUARD].iter().chain(&self.cells[end..]);
        guards.all(|cell| *cell == self.odd)
    }
}

#[cfg(test)]
mod tests {
    use super::*;

    #[test]
    fn a_write_beside_the_list_is_seen() {
        let mut lent = Lent::new(&[1u8, 2], 0xA5);
        assert_eq!((lent.length(), lent.values()), (2, vec![1, 2]));
        assert!(lent.guarded());
        lent.cells[GUARD + 1] = 7;
        assert!(lent.guarded());
        lent.cells[GUARD + 2] = 7;
        assert!(!lent.guarded());
    }
}
