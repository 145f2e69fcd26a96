//! The shortest script that still shows a difference: first lines are dropped,
//! then the lines that are left are made smaller, until nothing helps.

use crate::scripts::Script;
use crate::smaller::smaller;

/// `differs` says of a script whether it still shows the difference; it is asked
/// at most `tries` times.
pub fn shrink(script: Script, tries: usize, differs: &mut dyn FnMut(&Script) -> bool) -> Script {
    let mut search = Search {
        best: script,
        tries,
        differs,
    };
    loop {
        let before = search.best.clone();
        search.drop_lines();
        search.smaller_lines();
        search.ended();
        if search.best == before || search.tries == 0 {
            return search.best;
        }
    }
}

struct Search<'a> {
    best: Script,
    tries: usize,
    differs: &'a mut dyn FnMut(&Script) -> bool,
}

impl Search<'_> {
    /// Takes the script if it still differs.
    fn takes(&mut self, script: Script) -> bool {
        if self.tries == 0 {
            return false;
        }
        self.tries -= 1;
        let differs = (self.differs)(&script);
        if differs {
            self.best = script;
        }
        differs
    }

    /// Many lines at once first, then fewer, at last one by one.
    fn drop_lines(&mut self) {
        let mut count = self.best.lines.len().div_ceil(2);
        while count > 0 {
            let mut start = 0;
            while start < self.best.lines.len() {
                if !self.takes(self.without(start, count)) {
                    start += count;
                }
            }
            count /= 2;
        }
    }

    fn without(&self, start: usize, count: usize) -> Script {
        let mut script = self.best.clone();
        let end = (start + count).min(script.lines.len());
        script.lines.drain(start..end);
        script
    }

    fn smaller_lines(&mut self) {
        for place in 0..self.best.lines.len() {
            while self.smaller_line(place) {}
        }
    }

    /// One step for one line; false if no smaller line shows the difference.
    fn smaller_line(&mut self, place: usize) -> bool {
        smaller(&self.best.lines[place]).into_iter().any(|line| {
            let mut script = self.best.clone();
            script.lines[place] = line;
            self.takes(script)
        })
    }

    /// A last line feed, unless its lack is the point.
    fn ended(&mut self) {
        if !self.best.last_feed {
            let script = Script::new(self.best.lines.clone());
            self.takes(script);
        }
    }
}
