//! The whole night as text for a terminal.

use crate::grid::{self, Look, Tone};
use crate::lines;
use crate::night::{Block, Column, Listing, Night, Refused, Set};
use crate::words::{self, Names};

pub fn page(night: &Night, names: &Names, look: Look) -> String {
    let mut page = Page {
        text: String::new(),
        names,
        look,
    };
    page.put(0, "PRETTAVORN'S BOARD");
    page.put(0, words::VIEW_ONLY);
    for line in legend(look) {
        page.put(0, &line);
    }
    let mut sets = 0;
    for block in &night.blocks {
        page.line("");
        sets += usize::from(block.set.is_some());
        page.block(block, sets);
    }
    if night.blocks.is_empty() && night.misfit.is_none() {
        page.line("");
        page.put(0, "Nothing was asked and answered.");
    }
    if let Some(misfit) = &night.misfit {
        page.line("");
        let text =
            format!("STOPPED HERE: what was asked and what was answered do not fit. {misfit}.");
        page.toned(0, Tone::Bad, &text);
    }
    page.text
}

fn legend(look: Look) -> [String; 2] {
    [
        format!("{} ran   . did not   > {} a run begins   ! refused, see below", look.ran(), look.boundary()),
        "? standings: A ahead, P punctual, L late, which is the listing's word for behind its share".to_string(),
    ]
}

struct Page<'a> {
    text: String,
    names: &'a Names,
    look: Look,
}

impl Page<'_> {
    fn line(&mut self, line: &str) {
        self.text.push_str(line);
        self.text.push('\n');
    }

    fn put(&mut self, indent: usize, text: &str) {
        self.toned(indent, Tone::Plain, text);
    }

    /// Words wrapped to the terminal's width, all lines after the first a little deeper.
    fn toned(&mut self, indent: usize, tone: Tone, text: &str) {
        let columns = self.look.width.saturating_sub(indent + 2).max(20);
        for (at, line) in lines::wrapped(text, columns).iter().enumerate() {
            let deeper = if at == 0 { indent } else { indent + 2 };
            let line = self.look.toned(tone, line);
            self.line(&format!("{}{line}", " ".repeat(deeper)));
        }
    }

    fn block(&mut self, block: &Block, sets: usize) {
        let Some(set) = &block.set else {
            self.put(0, "BEFORE ANY SET WAS ACCEPTED");
            return self.events(block, 0);
        };
        let tasks = words::many(set.tasks.len() as u64, "task");
        let units = words::many(set.units.into(), "unit");
        self.put(
            0,
            &format!(
                "SET {sets}: {tasks} on {units}, accepted at asked line {}",
                set.asked_line
            ),
        );
        for sentence in words::of_set(set) {
            self.put(2, &sentence);
        }
        if block.columns.is_empty() {
            return self.put(2, &words::unused(set, self.names));
        }
        self.line("");
        for line in grid::lines(block, set, self.names, self.look) {
            self.line(&line);
        }
        self.events(block, set.tasks.len());
        self.at_the_end(block, set);
    }

    /// Standings and refusals, in the order asked.
    fn events(&mut self, block: &Block, tasks: usize) {
        for column in &block.columns {
            match column {
                Column::Listed(at) => self.listing(block, &block.listings[*at]),
                Column::Refused(at) => {
                    self.refusal(&block.refusals[*at], tasks, block.set.is_some())
                }
                Column::RunBegins {
                    asked_line,
                    slots: 0,
                } => {
                    self.put(
                        2,
                        &format!(
                            "> asked line {asked_line}: a run of 0 slots, which has no answer"
                        ),
                    );
                }
                _ => {}
            }
        }
    }

    fn listing(&mut self, block: &Block, listing: &Listing) {
        let Some(set) = &block.set else { return };
        self.put(
            2,
            &format!(
                "? asked line {}: the standings at time {}",
                listing.asked_line, listing.time
            ),
        );
        for (place, task) in set.tasks.iter().enumerate() {
            let standing = listing.standings[place];
            let word = self.look.toned(
                grid::tone_of(standing),
                &format!("{:13}", words::standing(standing)),
            );
            let had = had(listing.counts[place], &words::share(task, listing.time));
            self.put(6, &format!("{:16} {word}  {had}", self.names.of(place)));
        }
    }

    fn refusal(&mut self, refused: &Refused, tasks: usize, in_force: bool) {
        let number = refused.refusal.number;
        let (line, asked) = (refused.asked_line, words::asked(refused));
        self.toned(
            2,
            Tone::Bad,
            &format!("! asked line {line}: REFUSAL {number} for {asked}"),
        );
        self.put(
            6,
            &format!("why: {}", words::why(refused, self.names, tasks)),
        );
        self.put(6, &format!("do:  {}", words::what_to_do(refused)));
        self.put(6, &format!("now: {}", words::now(refused, in_force)));
    }

    /// How often each task has run, unless the last thing shown already says so.
    fn at_the_end(&mut self, block: &Block, set: &Set) {
        let told = block
            .listings
            .last()
            .is_some_and(|listing| listing.time == block.time);
        if told || block.time == 0 {
            return;
        }
        self.put(
            2,
            &format!(
                "= at the end, time {} (not a listing: counted here)",
                block.time
            ),
        );
        for (place, task) in set.tasks.iter().enumerate() {
            let had = had(block.counts[place], &words::share(task, block.time));
            self.put(6, &format!("{:16} {had}", self.names.of(place)));
        }
    }
}

fn had(count: u32, share: &str) -> String {
    format!(
        "has had {}; its share is {share}",
        words::many(count.into(), "slot")
    )
}
