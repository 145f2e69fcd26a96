//! A plan read from its top to its end: the lines to send, or every fault.

use crate::frame::{self, Frame, Task};
use crate::kinds::{Kind, HOW_MANY_TASKS};
use crate::line::{self, Said};
use crate::lines;
use crate::name::shown;

/// A line to send.
#[derive(Clone, Debug, PartialEq, Eq)]
pub struct Sent {
    /// Where it begins in the plan, from 1.
    pub line: usize,
    /// A frame in hexadecimal, or a raw line, without its line feed.
    pub text: Vec<u8>,
    /// The names of a set's tasks, by place.
    pub names: Vec<String>,
}

/// What is wrong with a line of a plan, and what to do about it.
#[derive(Clone, Debug, PartialEq, Eq)]
pub struct Fault {
    pub line: usize,
    pub why: String,
}

pub fn read(plan: &[u8]) -> Result<Vec<Sent>, Vec<Fault>> {
    let mut reading = Reading::default();
    let lines = lines::cut(lines::without_mark(plan));
    for (at, line) in lines.into_iter().enumerate() {
        let line_number = at + 1;
        if let Err(why) = reading.line(line_number, line) {
            reading.faults.push(Fault {
                line: line_number,
                why,
            });
        }
    }
    reading.send_open_set();
    if reading.faults.is_empty() {
        Ok(reading.sent)
    } else {
        Err(reading.faults)
    }
}

/// All lines together, as they are sent.
pub fn text(sent: &[Sent]) -> Vec<u8> {
    sent.iter()
        .flat_map(|sent| sent.text.iter().copied().chain([b'\n']))
        .collect()
}

/// A set whose tasks are still being named.
struct OpenSet {
    line: usize,
    kind: &'static Kind,
    numbers: Vec<u32>,
    tasks: Vec<Task>,
    /// The tasks' names, each with its line.
    names: Vec<(String, usize)>,
}

#[derive(Default)]
struct Reading {
    open: Option<OpenSet>,
    sent: Vec<Sent>,
    faults: Vec<Fault>,
    /// A line that was to begin a set had a fault, so that its tasks have none of their own.
    lost_set: bool,
}

impl Reading {
    fn line(&mut self, line_number: usize, line: &[u8]) -> Result<(), String> {
        let line = std::str::from_utf8(line).map_err(|fault| {
            let at = fault.valid_up_to() + 1;
            format!("byte {at} of the line is not UTF-8: save the file as UTF-8, or type the line again")
        })?;
        match line::read(line) {
            Ok(Said::Nothing) => Ok(()),
            Ok(Said::Names(name, task)) => self.task(line_number, name, task),
            Ok(Said::Asks(kind, numbers)) => {
                self.asks(line_number, kind, numbers);
                Ok(())
            }
            Ok(Said::Raw(text)) => {
                self.send_open_set();
                self.send(line_number, text, Vec::new());
                Ok(())
            }
            Err(why) => {
                if let Some(kind) = line::kind_meant(line) {
                    self.send_open_set();
                    self.lost_set = kind.has_tasks();
                }
                Err(why)
            }
        }
    }

    fn asks(&mut self, line: usize, kind: &'static Kind, numbers: Vec<u32>) {
        self.send_open_set();
        let (tasks, names) = (Vec::new(), Vec::new());
        if kind.has_tasks() {
            self.open = Some(OpenSet {
                line,
                kind,
                numbers,
                tasks,
                names,
            });
        } else {
            let frame = Frame {
                kind,
                numbers,
                tasks,
            };
            self.send(line, frame::write(&frame).into_bytes(), Vec::new());
        }
    }

    fn task(&mut self, line: usize, name: String, task: Task) -> Result<(), String> {
        let Some(set) = &mut self.open else {
            if self.lost_set {
                return Ok(());
            }
            return Err(format!(
                "{} belongs to no set: begin a set with units, and name all its tasks right behind it",
                shown(&name)
            ));
        };
        if let Some((_, before)) = set.names.iter().find(|(known, _)| *known == name) {
            return Err(format!(
                "{} stands in line {before} already: give one of the two another name",
                shown(&name)
            ));
        }
        set.tasks.push(task);
        set.names.push((name, line));
        let most = HOW_MANY_TASKS.most() as usize;
        if set.tasks.len() == most + 1 {
            return Err(format!(
                "a frame cannot carry more than {most} tasks, and the set of line {} has more: take some out",
                set.line
            ));
        }
        Ok(())
    }

    /// A set is whole when something else is asked, or at the end.
    fn send_open_set(&mut self) {
        self.lost_set = false;
        let Some(set) = self.open.take() else {
            return;
        };
        let frame = Frame {
            kind: set.kind,
            numbers: set.numbers,
            tasks: set.tasks,
        };
        let names = set.names.into_iter().map(|(name, _)| name).collect();
        self.send(set.line, frame::write(&frame).into_bytes(), names);
    }

    fn send(&mut self, line: usize, text: Vec<u8>, names: Vec<String>) {
        self.sent.push(Sent { line, text, names });
    }
}
