//! A block's slots as a picture: tasks down, time across.

use crate::answered::Standing;
use crate::bands::bands;
use crate::night::{Block, Column, Set};
use crate::svg::Drawing;
use crate::words::{self, Names};

pub const MARGIN: usize = 28;
/// Where the slots begin; names stand before it.
const GRID: usize = 240;
/// How wide the slots of a band may be together.
const ROOM: usize = 960;
/// What stands behind the last band: how often each task has run.
const TOTALS: usize = 190;
const ROW: usize = 30;
const CELL: usize = 26;

const TASK_COLOURS: [&str; 8] = [
    "#0072b2", "#009e73", "#8e5ea2", "#b07d00", "#3f51b5", "#00838f", "#a0436f", "#5d7a1f",
];
const NOT_RUN: &str = "#eef1f4";
const ALWAYS_IDLE: &str = "#cfd6de";
const SPARE_IDLE: &str = "#f2c14e";
const BOUNDARY: &str = "#3c4855";
pub const REFUSED: &str = "#b3261e";

fn width_of(column: &Column) -> usize {
    match column {
        Column::Slot { .. } => 22,
        // No slot follows, so its label needs room of its own.
        Column::RunBegins { slots: 0, .. } => 34,
        Column::RunBegins { .. } => 12,
        Column::Listed(_) => 28,
        Column::Refused(_) => 30,
    }
}

/// How wide the picture has to be for a block.
pub fn width(block: &Block) -> usize {
    let wide = |band: &[Column]| band.iter().map(width_of).sum::<usize>();
    let widest = bands(&block.columns, ROOM, width_of)
        .into_iter()
        .map(wide)
        .max()
        .unwrap_or(0);
    GRID + widest + TOTALS + MARGIN
}

pub fn colour_of(standing: Standing) -> &'static str {
    match standing {
        Standing::Ahead => "#1f6fb2",
        Standing::Punctual => "#2b8a57",
        Standing::Behind => "#c8501e",
    }
}

/// Cells and badges with their meaning, across the top of the picture.
pub fn legend(to: &mut Drawing, y: usize) {
    let mut x = MARGIN;
    let cells = [
        (TASK_COLOURS[0], "ran"),
        (NOT_RUN, "did not run"),
        (ALWAYS_IDLE, "units always idle"),
        (SPARE_IDLE, "one more idle: the spare"),
    ];
    for (fill, meaning) in cells {
        to.cell([x, y - 15, 20, 20], fill);
        to.text(x + 27, y, "small", "start", meaning);
        x += 54 + 13 * meaning.len() / 2;
    }
    let standings = [
        (Standing::Ahead, "ahead"),
        (Standing::Punctual, "punctual"),
        (Standing::Behind, "late = behind its share"),
    ];
    for (standing, meaning) in standings {
        to.badge(x + 10, y - 5, colour_of(standing), words::letter(standing));
        to.text(x + 27, y, "small", "start", meaning);
        x += 54 + 13 * meaning.len() / 2;
    }
    to.badge(x + 10, y - 5, REFUSED, '!');
    to.text(x + 27, y, "small", "start", "refused");
}

/// Draws a block's bands from `top` down.
pub fn draw(to: &mut Drawing, block: &Block, set: &Set, names: &Names, top: usize) {
    let parts = bands(&block.columns, ROOM, width_of);
    let height = 52 + ROW * (set.tasks.len() + 1);
    for (at, columns) in parts.iter().enumerate() {
        let band = Band {
            block,
            set,
            names,
            columns,
            top: top + at * (height + 26),
        };
        band.draw(to);
        if at + 1 == parts.len() {
            band.totals(to);
        }
    }
}

struct Band<'a> {
    block: &'a Block,
    set: &'a Set,
    names: &'a Names,
    columns: &'a [Column],
    top: usize,
}

impl Band<'_> {
    fn row(&self, place: usize) -> usize {
        self.top + 48 + place * ROW
    }

    /// Each column with where it starts.
    fn placed(&self) -> Vec<(usize, &Column)> {
        let mut x = GRID;
        let place = |column| {
            let start = x;
            x += width_of(column);
            (start, column)
        };
        self.columns.iter().map(place).collect()
    }

    fn draw(&self, to: &mut Drawing) {
        self.labels(to);
        let placed = self.placed();
        for (at, (x, column)) in placed.iter().enumerate() {
            match column {
                Column::Slot { time, chosen } => self.slot(to, *x, *time, *chosen),
                Column::RunBegins { .. } => {
                    to.down(
                        x + 5,
                        [self.top + 6, self.row(self.set.tasks.len()) + CELL],
                        BOUNDARY,
                        "",
                    );
                    self.run_label(to, &placed[at..]);
                }
                Column::Listed(listing) => self.standings(to, *x, *listing),
                Column::Refused(refused) => self.refused(to, *x, *refused),
            }
        }
    }

    fn labels(&self, to: &mut Drawing) {
        to.text(MARGIN, self.top + 14, "quiet", "start", "asked line");
        to.text(MARGIN, self.top + 40, "quiet", "start", "time");
        for (place, task) in self.set.tasks.iter().enumerate() {
            let y = self.row(place) + 18;
            let share = format!("{} in {}", task.requirement, task.period);
            // As much of the name as leaves room for the share: a letter is below 10 pixels here, a small one below 7.
            let room = GRID - 10 - MARGIN - 7 * share.len();
            let name: String = self.names.of(place).chars().take(room / 10).collect();
            to.text(MARGIN, y, "strong", "start", &name);
            to.text(GRID - 10, y, "quiet", "end", &share);
        }
        let y = self.row(self.set.tasks.len()) + 18;
        to.text(MARGIN, y, "quiet", "start", "idle units");
    }

    fn slot(&self, to: &mut Drawing, x: usize, time: u32, chosen: u64) {
        if time % 5 == 0 {
            to.text(x + 11, self.top + 40, "fifth", "middle", &time.to_string());
        } else if time < 100 {
            to.text(x + 11, self.top + 40, "tick", "middle", &time.to_string());
        }
        for place in 0..self.set.tasks.len() {
            let ran = chosen >> place & 1 == 1;
            let fill = if ran {
                TASK_COLOURS[place % TASK_COLOURS.len()]
            } else {
                NOT_RUN
            };
            to.cell([x + 1, self.row(place), 20, CELL], fill);
        }
        let (always, spare) = (self.set.always_idle(), self.set.idle_by_spare(chosen));
        let y = self.row(self.set.tasks.len());
        if always + spare > 0 {
            to.cell(
                [x + 1, y, 20, CELL],
                if spare > 0 { SPARE_IDLE } else { ALWAYS_IDLE },
            );
        }
        to.text(
            x + 11,
            y + 18,
            "small",
            "middle",
            &(always + spare).to_string(),
        );
    }

    /// The longest words that end before the next thing asked.
    fn run_label(&self, to: &mut Drawing, from_here: &[(usize, &Column)]) {
        let Some((x, Column::RunBegins { asked_line, slots })) = from_here.first() else {
            return;
        };
        let next = from_here[1..]
            .iter()
            .find(|(_, column)| !matches!(column, Column::Slot { .. }));
        let end = match (next, from_here.last()) {
            (Some((end, _)), _) => *end,
            (None, Some((end, column))) => end + width_of(column),
            (None, None) => *x,
        };
        let long = format!(
            "{asked_line}: run of {}",
            words::many((*slots).into(), "slot")
        );
        let fits = 7 * long.len() + 10 <= end - x;
        let label = if fits { long } else { asked_line.to_string() };
        to.text(x + 9, self.top + 14, "small", "start", &label);
    }

    fn standings(&self, to: &mut Drawing, x: usize, listing: usize) {
        let listing = &self.block.listings[listing];
        to.text(
            x + 14,
            self.top + 14,
            "small",
            "middle",
            &listing.asked_line.to_string(),
        );
        for (place, standing) in listing.standings.iter().enumerate() {
            to.badge(
                x + 14,
                self.row(place) + CELL / 2,
                colour_of(*standing),
                words::letter(*standing),
            );
        }
    }

    fn refused(&self, to: &mut Drawing, x: usize, refused: usize) {
        let refused = &self.block.refusals[refused];
        to.text(
            x + 16,
            self.top + 14,
            "small",
            "middle",
            &refused.asked_line.to_string(),
        );
        to.badge(x + 16, self.top + 34, REFUSED, '!');
        to.down(
            x + 16,
            [self.row(0), self.row(self.set.tasks.len()) + CELL],
            REFUSED,
            "4 5",
        );
    }

    fn totals(&self, to: &mut Drawing) {
        let x = GRID + self.columns.iter().map(width_of).sum::<usize>() + 14;
        to.text(
            x,
            self.top + 40,
            "quiet",
            "start",
            &format!("by time {}", self.block.time),
        );
        for (place, task) in self.set.tasks.iter().enumerate() {
            let (count, share) = (
                self.block.counts[place],
                words::share(task, self.block.time),
            );
            to.text(
                x,
                self.row(place) + 18,
                "small",
                "start",
                &format!("had {count}, share {share}"),
            );
        }
    }
}
