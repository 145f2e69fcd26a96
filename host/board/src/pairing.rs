//! Pairs what was asked with what was answered. Only the form of the answers is looked at, never whether the choice was right.

use crate::answered::{self, Answer, Refusal, Standing};
use crate::asked::{self, Asked, Task};
use crate::lines;
use crate::night::{Block, Column, Misfit, Night, Refused, Set};

/// As much of a line as is shown.
const SHOWN: usize = 48;

/// The night that two files tell. Where they stop fitting each other, the night says so and holds what came before.
pub fn night(asked: &[u8], answered: &[u8]) -> Night {
    let mut pairing = Pairing {
        answers: lines::cut(answered),
        next: 0,
        blocks: vec![Block::default()],
    };
    let misfit = pairing.pair_all(&lines::cut(asked)).err();
    let mut blocks = pairing.blocks;
    blocks.retain(|block| block.set.is_some() || !block.columns.is_empty());
    Night { blocks, misfit }
}

struct Pairing<'a> {
    answers: Vec<&'a [u8]>,
    next: usize,
    /// Never empty: the last is the one in force.
    blocks: Vec<Block>,
}

/// A line that is being answered.
struct Line<'a> {
    number: usize,
    bytes: &'a [u8],
}

impl Pairing<'_> {
    fn pair_all(&mut self, asked: &[&[u8]]) -> Result<(), Misfit> {
        for (at, bytes) in asked.iter().enumerate() {
            self.pair(&Line {
                number: at + 1,
                bytes,
            })?;
        }
        match self.answers.get(self.next) {
            None => Ok(()),
            Some(_) => {
                let left = self.answers.len() - self.next;
                self.next += 1;
                Err(self.misfit(&format!(
                    "nothing was asked that this answers ({left} too many from here on)"
                )))
            }
        }
    }

    fn pair(&mut self, line: &Line) -> Result<(), Misfit> {
        match asked::what(line.bytes) {
            Asked::Set { units, tasks } => self.pair_set(line, units, tasks),
            Asked::Run { slots } => self.pair_run(line, slots),
            Asked::Listing => self.pair_listing(line),
            Asked::NoFrame { .. } => match self.take(line, "a line that is no frame")? {
                Answer::Refusal(refusal) => self.refuse(line, refusal, 0),
                _ => Err(self.misfit(&format!(
                    "asked line {} is no frame, but this is no refusal",
                    line.number
                ))),
            },
        }
    }

    fn pair_set(&mut self, line: &Line, units: u32, tasks: Vec<Task>) -> Result<(), Misfit> {
        match self.take(line, "a set")? {
            Answer::Refusal(refusal) => return self.refuse(line, refusal, 0),
            Answer::Accepted { units_in_use, .. } if units_in_use > units => {
                return Err(self.misfit(&format!(
                    "{units_in_use} units in use, but asked line {} gives {units}",
                    line.number
                )));
            }
            Answer::Accepted {
                units_in_use,
                l,
                spare,
            } => {
                let asked_line = line.number;
                self.blocks.push(Block::of(Set {
                    asked_line,
                    units,
                    tasks,
                    units_in_use,
                    l,
                    spare,
                }));
            }
            _ => {
                return Err(self.misfit(&format!(
                    "asked line {} is a set, but this answers something else",
                    line.number
                )))
            }
        }
        Ok(())
    }

    /// A run is answered slot by slot, and a refusal ends it early. A run of 0 slots under a set in force has no answer.
    fn pair_run(&mut self, line: &Line, slots: u32) -> Result<(), Misfit> {
        let in_force = self.in_force().set.is_some();
        if slots == 0 && in_force {
            self.begin(line, slots);
        }
        let answers = if in_force { slots } else { 1 };
        for done in 0..answers {
            let what = format!("slot {} of {slots}", done + 1);
            match self.take(line, &what)? {
                Answer::Refusal(refusal) => return self.refuse(line, refusal, done),
                Answer::Slot { time, chosen } => {
                    self.check_slot(time, chosen)?;
                    if done == 0 {
                        self.begin(line, slots);
                    }
                    self.in_force().slot(chosen);
                }
                _ => {
                    return Err(self.misfit(&format!(
                        "{what} of the run at asked line {} was to come",
                        line.number
                    )))
                }
            }
        }
        Ok(())
    }

    fn check_slot(&mut self, time: u32, chosen: u64) -> Result<(), Misfit> {
        self.check_time(time)?;
        let Some(set) = &self.in_force().set else {
            return Err(self.misfit("a slot before any set is accepted"));
        };
        let (n, units_in_use) = (set.tasks.len() as u32, set.units_in_use);
        if 64 - chosen.leading_zeros() > n {
            return Err(self.misfit(&format!("a place above the last of the {n} tasks")));
        }
        if chosen.count_ones() > units_in_use {
            return Err(self.misfit(&format!("more tasks than units in use ({units_in_use})")));
        }
        Ok(())
    }

    fn check_time(&mut self, time: u32) -> Result<(), Misfit> {
        let present = self.in_force().time;
        if time == present {
            return Ok(());
        }
        Err(self.misfit(&format!("time {time}, where time {present} was to come")))
    }

    fn pair_listing(&mut self, line: &Line) -> Result<(), Misfit> {
        match self.take(line, "a listing")? {
            Answer::Refusal(refusal) => self.refuse(line, refusal, 0),
            Answer::Listing { time, standings } => self.list(line, time, standings),
            _ => Err(self.misfit(&format!(
                "asked line {} is a listing, but this answers something else",
                line.number
            ))),
        }
    }

    fn list(&mut self, line: &Line, time: u32, standings: Vec<Standing>) -> Result<(), Misfit> {
        self.check_time(time)?;
        let n = match &self.in_force().set {
            Some(set) => set.tasks.len(),
            None => return Err(self.misfit("a listing before any set is accepted")),
        };
        if standings.len() != n {
            return Err(self.misfit(&format!("{} of {n} marks", standings.len())));
        }
        self.in_force().list(line.number, standings);
        Ok(())
    }

    fn begin(&mut self, line: &Line, slots: u32) {
        self.in_force().columns.push(Column::RunBegins {
            asked_line: line.number,
            slots,
        });
    }

    /// A refusal fits any line.
    fn refuse(&mut self, line: &Line, refusal: Refusal, slots_done: u32) -> Result<(), Misfit> {
        let time = self.in_force().time;
        let text = lines::shown(line.bytes, SHOWN);
        let asked = asked::what(line.bytes);
        self.in_force().refuse(Refused {
            asked_line: line.number,
            asked,
            text,
            refusal,
            time,
            slots_done,
        });
        Ok(())
    }

    /// The next answer; `what` says what it is to be.
    fn take(&mut self, line: &Line, what: &str) -> Result<Answer, Misfit> {
        let Some(bytes) = self.answers.get(self.next) else {
            let why = format!(
                "the answers end after answered line {}: none for {what}",
                self.answers.len()
            );
            return Err(Misfit {
                file: "asked",
                line: line.number,
                why,
            });
        };
        self.next += 1;
        answered::read(bytes).ok_or_else(|| {
            self.misfit(&format!(
                "no answer line: \"{}\"",
                lines::shown(bytes, SHOWN)
            ))
        })
    }

    /// A misfit at the answer taken last.
    fn misfit(&self, why: &str) -> Misfit {
        Misfit {
            file: "answered",
            line: self.next,
            why: why.to_string(),
        }
    }

    fn in_force(&mut self) -> &mut Block {
        let last = self.blocks.len() - 1;
        &mut self.blocks[last]
    }
}
