//! Frames turned into a plan. What is no frame becomes a raw line, so that the plan gives back the same lines.

use crate::frame::{self, Frame};
use crate::kinds::RAW;
use crate::{lines, malformed, name, quoted};

pub fn of_frames(frames: &[u8]) -> String {
    lines::cut(frames).into_iter().map(of_line).collect()
}

fn of_line(line: &[u8]) -> String {
    match frame::read(line) {
        Some(frame) => of_frame(&frame),
        None => {
            let why = malformed::judge(line).map_or(String::new(), |fault| fault.why);
            format!("{RAW} {}  # no frame: {why}\n", quoted::write(line))
        }
    }
}

fn of_frame(frame: &Frame) -> String {
    let number = |number: &u32| format!(" {number}");
    let numbers: String = frame.numbers.iter().map(number).collect();
    let mut text = format!("{}{numbers}\n", frame.kind.word);
    for (place, task) in frame.tasks.iter().enumerate() {
        let name = name::of_place(place);
        text.push_str(&format!(
            "    {name} {}/{}\n",
            task.requirement, task.period
        ));
    }
    text
}
