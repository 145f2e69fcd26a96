//! The whole night as a picture.

use crate::asked::Task;
use crate::cells::{self, MARGIN};
use crate::lines;
use crate::night::{Block, Column, Listing, Night, Refused};
use crate::svg::Drawing;
use crate::words::{self, Names};

const LEAST_WIDTH: usize = 1120;

pub fn picture(night: &Night, names: &Names) -> String {
    let width = night
        .blocks
        .iter()
        .map(cells::width)
        .max()
        .unwrap_or(0)
        .max(LEAST_WIDTH);
    let mut picture = Picture {
        to: Drawing::default(),
        names,
        across: width - 2 * MARGIN,
    };
    picture
        .to
        .text(MARGIN, 42, "title", "start", "Prettavorn's board");
    picture
        .to
        .text(width - MARGIN, 42, "quiet", "end", words::VIEW_ONLY);
    cells::legend(&mut picture.to, 78);
    let mut sets = 0;
    for block in &night.blocks {
        sets += usize::from(block.set.is_some());
        picture.block(block, sets);
    }
    if let Some(misfit) = &night.misfit {
        picture.to.bottom += 16;
        picture.say(
            "bad",
            &format!("Stopped here: what was asked and what was answered do not fit. {misfit}."),
            0,
        );
    }
    picture.to.file(width)
}

struct Picture<'a> {
    to: Drawing,
    names: &'a Names,
    /// How many pixels a sentence may take.
    across: usize,
}

impl Picture<'_> {
    /// Words below what is drawn, wrapped.
    fn say(&mut self, class: &str, text: &str, indent: usize) {
        // No font is embedded, so these are widths, in tenths, that common sans-serif letters stay below.
        let letter = match class {
            "heading" => 120,
            "bad" | "strong" => 95,
            _ => 65,
        };
        for line in lines::wrapped(text, 10 * (self.across - indent) / letter) {
            let y = self.to.bottom + 15;
            self.to.text(MARGIN + indent, y, class, "start", &line);
        }
    }

    fn block(&mut self, block: &Block, sets: usize) {
        self.to.bottom += 26;
        let Some(set) = &block.set else {
            self.say("heading", "Before any set was accepted", 0);
            return self.events(block, 0);
        };
        let (tasks, units) = (
            words::many(set.tasks.len() as u64, "task"),
            words::many(set.units.into(), "unit"),
        );
        self.say(
            "heading",
            &format!(
                "Set {sets}: {tasks} on {units}, accepted at asked line {}",
                set.asked_line
            ),
            0,
        );
        self.to.bottom += 4;
        for sentence in words::of_set(set) {
            self.say("small", &sentence, 0);
        }
        if block.columns.is_empty() {
            return self.say("small", &words::unused(set, self.names), 0);
        }
        let top = self.to.bottom + 16;
        cells::draw(&mut self.to, block, set, self.names, top);
        self.to.bottom += 12;
        self.events(block, set.tasks.len());
    }

    /// Standings and refusals in words, in the order asked.
    fn events(&mut self, block: &Block, tasks: usize) {
        for column in &block.columns {
            match column {
                Column::Listed(at) => self.listing(block, &block.listings[*at]),
                Column::Refused(at) => {
                    self.refusal(&block.refusals[*at], tasks, block.set.is_some())
                }
                _ => {}
            }
        }
    }

    fn listing(&mut self, block: &Block, listing: &Listing) {
        let Some(set) = &block.set else { return };
        let of_task = |(place, task): (usize, &Task)| {
            let word = words::standing(listing.standings[place]);
            let (count, share) = (listing.counts[place], words::share(task, listing.time));
            // Blanks that do not break, so that what is said of a task stays on one line.
            format!(
                "{} {word}: had {count}, share {share}",
                self.names.of(place)
            )
            .replace(' ', "\u{A0}")
        };
        let standings: Vec<String> = set.tasks.iter().enumerate().map(of_task).collect();
        self.to.bottom += 8;
        self.say(
            "strong",
            &format!(
                "Line {}: the standings at time {}",
                listing.asked_line, listing.time
            ),
            0,
        );
        self.say("small", &standings.join(";  "), 20);
    }

    fn refusal(&mut self, refused: &Refused, tasks: usize, in_force: bool) {
        let number = refused.refusal.number;
        self.to.bottom += 8;
        self.say(
            "bad",
            &format!(
                "Line {}: refusal {number} for {}",
                refused.asked_line,
                words::asked(refused)
            ),
            0,
        );
        self.say(
            "small",
            &format!("Why: {}", words::why(refused, self.names, tasks)),
            20,
        );
        self.say("small", &format!("Do: {}", words::what_to_do(refused)), 20);
        self.say(
            "small",
            &format!("Now: {}", words::now(refused, in_force)),
            20,
        );
    }
}
