//! What is kept from one line to the next, and the answers to a line.

use crate::admission::Records;
use crate::answers::Answers;
use crate::field::{Field, Order};
use crate::frames::{frame, Frame};
use crate::refusal::Refusal;

// Document 01, "Limits".
const MOST_TIME: u32 = 16_777_215;
const MOST_SLOTS: u32 = 1_024;

pub struct Session {
    order: Order,
    /// The set that the last 01 asked for, accepted or not.
    asked: Records,
    /// The set in force with its time, if one was accepted.
    in_force: bool,
    field: Field,
    t: u32,
}

impl Session {
    pub fn new(order: Order) -> Session {
        Session {
            order,
            asked: Records::NONE,
            in_force: false,
            field: Field::EMPTY,
            t: 0,
        }
    }

    /// Adds the answers to one line, which comes without its line feed.
    pub fn answer(&mut self, line: &[u8], answers: &mut Answers) {
        match frame(line) {
            Some(Frame::Admission { m, tasks }) => self.admit(m, tasks, answers),
            Some(Frame::Run { slots }) if self.in_force => self.run(slots, answers),
            Some(Frame::Listing) if self.in_force => self.list(answers),
            // "02 or 03 before any set is accepted" is malformed too.
            _ => answers.refusal(Refusal::MALFORMED),
        }
    }

    /// "admission, with time and counts set to 0"; "A refused set leaves the
    /// former one in force."
    fn admit(&mut self, m: u32, tasks: &[u8], answers: &mut Answers) {
        self.asked.read(tasks);
        match self.asked.admit(m) {
            Err(refusal) => answers.refusal(refusal),
            Ok(admitted) => {
                answers.admitted(&admitted);
                self.field.start(&self.asked, &admitted);
                self.t = 0;
                self.in_force = true;
            }
        }
    }

    /// "One line a slot [...]. After a refusal within the run its line follows."
    fn run(&mut self, slots: u32, answers: &mut Answers) {
        if slots > MOST_SLOTS {
            return answers.refusal(Refusal::SLOTS);
        }
        for _ in 0..slots {
            if self.t > MOST_TIME {
                return answers.refusal(Refusal::TIME);
            }
            match self.field.slot(self.order) {
                Err(refusal) => return answers.refusal(refusal),
                Ok(chosen) => answers.slot(self.t, chosen),
            }
            self.t += 1;
        }
    }

    /// "The listing uses 1 to 8", of which only 7 can hold of a set in force.
    fn list(&mut self, answers: &mut Answers) {
        if self.t > MOST_TIME {
            return answers.refusal(Refusal::TIME);
        }
        answers.listing(self.t, self.field.standings());
    }
}
