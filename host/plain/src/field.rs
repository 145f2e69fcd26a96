//! A set in force, as its tasks and its spare stand at the present time.
//!
//! A task's count need not be kept. While e·t - p·k is strictly between -p and
//! p it is e·t mod p, or that less p if the task is ahead; so the remainder and
//! one bit say all. The rule of a slot keeps it there: an urgent task runs, a
//! tnegru task does not, and a contender may do either. With M places chosen in
//! each slot the counts add up to M·t too, so refusal 8 never holds of a set in
//! force.

use crate::admission::{Admitted, Records, MOST_TASKS};
use crate::record::{further, Record};
use crate::refusal::Refusal;

/// Room for the tasks and the spare.
const ROOM: usize = MOST_TASKS + 1;

/// One byte for each place, 1 or 0.
pub type Marks = [u8; ROOM];

/// How the first contenders are marked: of this list, which is in rising order
/// of places and at the time t + 1, so many.
pub type Order = fn(&mut [Record], usize, &mut Marks);

/// A list for each thing that is known of a place, rather than one list of
/// places: so the compiler can take several places at a time.
pub struct Field {
    n: usize,
    /// n, or n + 1 with a spare
    places: usize,
    /// M
    units: usize,
    requirements: [i32; ROOM],
    periods: [i32; ROOM],
    /// The numbers whose signs are the symbols at t, see `Record`
    signs: [i32; ROOM],
    /// Whether e·t - p·k is below zero
    ahead: Marks,
    /// Whether the symbol at t is not -: the remainder then passes the period
    passing: Marks,
    contending: Marks,
    chosen: Marks,
    /// The contenders at t + 1, where their strings begin
    contenders: [Record; ROOM],
}

impl Field {
    pub const EMPTY: Field = Field {
        n: 0,
        places: 0,
        units: 0,
        requirements: [0; ROOM],
        periods: [0; ROOM],
        signs: [0; ROOM],
        ahead: [0; ROOM],
        passing: [0; ROOM],
        contending: [0; ROOM],
        chosen: [0; ROOM],
        contenders: [Record::NONE; ROOM],
    };

    /// The set at time 0 with all counts 0.
    pub fn start(&mut self, set: &Records, admitted: &Admitted) {
        let (e, p) = admitted.spare;
        self.n = set.n;
        self.places = set.n + usize::from(p != 0);
        self.units = admitted.units as usize;
        self.ahead = [0; ROOM];
        for place in 0..MOST_TASKS {
            self.put(place, set.requirements[place], set.periods[place]);
        }
        self.put(set.n, e, p);
    }

    fn put(&mut self, place: usize, e: u32, p: u32) {
        self.requirements[place] = e as i32;
        self.periods[place] = p as i32;
        self.signs[place] = e as i32 - p as i32;
    }

    /// One slot: a mark for each task that is chosen.
    pub fn slot(&mut self, order: Order) -> Result<&[u8], Refusal> {
        let urgent = self.classes();
        let contending = self.list();
        if urgent > self.units || urgent + contending < self.units {
            return Err(Refusal::CHOICE);
        }
        let wanted = self.units - urgent;
        if wanted > 0 {
            order(&mut self.contenders[..contending], wanted, &mut self.chosen);
        }
        self.move_on();
        Ok(&self.chosen[..self.n])
    }

    /// Chooses the urgent places, and says how many they are. Takes `signs` on to
    /// the time t + 1.
    fn classes(&mut self) -> usize {
        let places = self.places;
        let requirements = &self.requirements[..places];
        let periods = &self.periods[..places];
        let signs = &mut self.signs[..places];
        let ahead = &self.ahead[..places];
        let passing = &mut self.passing[..places];
        let contending = &mut self.contending[..places];
        let chosen = &mut self.chosen[..places];
        for i in 0..places {
            let plus = u8::from(signs[i] > 0);
            let not_minus = u8::from(signs[i] >= 0);
            passing[i] = not_minus;
            chosen[i] = not_minus & !ahead[i];
            contending[i] = (ahead[i] & plus) | ((ahead[i] | not_minus) ^ 1);
            signs[i] = further(signs[i], requirements[i], periods[i]);
        }
        chosen.iter().sum::<u8>() as usize
    }

    /// Lists the contenders and says how many they are. Each place is written as
    /// if it were one, and the next one overwrites it if it is not: that is
    /// quicker than to ask.
    fn list(&mut self) -> usize {
        let mut length = 0;
        for place in 0..self.places {
            self.contenders[length] = Record {
                sign: self.signs[place],
                e: self.requirements[place],
                p: self.periods[place],
                place: place as u32,
            };
            length += usize::from(self.contending[place]);
        }
        length
    }

    /// A task that runs goes ahead by one slot, and one whose remainder passes
    /// its period comes back by one; both together change nothing.
    fn move_on(&mut self) {
        let changes = self.chosen.iter().zip(&self.passing);
        for (ahead, (chosen, passing)) in self.ahead[..self.places].iter_mut().zip(changes) {
            *ahead ^= chosen ^ passing;
        }
    }

    /// "41 hexadecimal if ahead, 50 if punctual, 4C ("late") if behind"
    pub fn standings(&self) -> impl Iterator<Item = u8> + '_ {
        (0..self.n).map(|place| {
            let remainder = self.signs[place] - self.requirements[place] + self.periods[place];
            match (self.ahead[place], remainder) {
                (1, _) => 0x41,
                (_, 0) => 0x50,
                _ => 0x4C,
            }
        })
    }
}
