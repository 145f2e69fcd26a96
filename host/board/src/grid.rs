//! A block's slots as text: tasks down, time across.

use crate::answered::Standing;
use crate::bands::bands;
use crate::night::{Block, Column, Set};
use crate::words::{self, Names};

/// How the text looks on the terminal at hand.
#[derive(Clone, Copy, Debug, PartialEq, Eq)]
pub struct Look {
    pub width: usize,
    pub ascii: bool,
    pub colour: bool,
}

/// What a piece of text means, for its colour.
#[derive(Clone, Copy, PartialEq, Eq)]
pub enum Tone {
    Plain,
    Task(usize),
    Quiet,
    Good,
    Warn,
    Bad,
}

const TASK_TONES: [u8; 6] = [34, 32, 36, 35, 94, 96];

impl Look {
    pub fn ran(&self) -> char {
        if self.ascii {
            '#'
        } else {
            '█'
        }
    }

    pub fn boundary(&self) -> char {
        if self.ascii {
            '|'
        } else {
            '│'
        }
    }

    /// The text in its colour, if colours are wanted.
    pub fn toned(&self, tone: Tone, text: &str) -> String {
        let code = match tone {
            Tone::Plain => return text.to_string(),
            _ if !self.colour => return text.to_string(),
            Tone::Task(place) => TASK_TONES[place % TASK_TONES.len()],
            Tone::Quiet => 90,
            Tone::Good => 32,
            Tone::Warn => 33,
            Tone::Bad => 31,
        };
        format!("\x1b[{code}m{text}\x1b[0m")
    }
}

pub fn tone_of(standing: Standing) -> Tone {
    match standing {
        Standing::Ahead => Tone::Task(2),
        Standing::Punctual => Tone::Good,
        Standing::Behind => Tone::Warn,
    }
}

/// The grid of a block in bands, each with its own time labels.
struct Grid<'a> {
    block: &'a Block,
    set: &'a Set,
    look: Look,
    /// A task's name and fraction, by place.
    labels: Vec<String>,
    label_width: usize,
    /// The columns that a band may take behind its labels.
    room: usize,
    /// The columns that each slot takes.
    cell: usize,
}

/// Names longer than this are cut in the grid.
const LONGEST_NAME: usize = 18;

pub fn lines(block: &Block, set: &Set, names: &Names, look: Look) -> Vec<String> {
    let labels = labels(names, set);
    let longest = labels.iter().map(|label| label.chars().count()).max();
    let label_width = longest.unwrap_or(0).max("of these, spare".len()) + 4;
    let room = look.width.saturating_sub(label_width).max(10);
    // Two columns a slot are easier to count; one a slot if the block would wrap otherwise.
    let cell = if block.columns.len() * 2 <= room + 1 {
        2
    } else {
        1
    };
    let grid = Grid {
        block,
        set,
        look,
        labels,
        label_width,
        room,
        cell,
    };
    let mut lines = Vec::new();
    for band in bands(&block.columns, room, |_| cell) {
        lines.extend(grid.band(band));
        lines.push(String::new());
    }
    lines
}

/// Names flush left, fractions flush right.
fn labels(names: &Names, set: &Set) -> Vec<String> {
    let name = |place| {
        names
            .of(place)
            .chars()
            .take(LONGEST_NAME)
            .collect::<String>()
    };
    let pairs: Vec<(String, String)> = set
        .tasks
        .iter()
        .enumerate()
        .map(|(place, task)| (name(place), words::fraction(task)))
        .collect();
    let widest = pairs
        .iter()
        .map(|(name, _)| name.chars().count())
        .max()
        .unwrap_or(0);
    let longest = pairs
        .iter()
        .map(|(_, fraction)| fraction.len())
        .max()
        .unwrap_or(0);
    let label = |(name, fraction)| format!("{name:widest$} {fraction:>longest$}");
    pairs.into_iter().map(label).collect()
}

impl Grid<'_> {
    fn band(&self, band: &[Column]) -> Vec<String> {
        let mut lines = Vec::new();
        if band
            .iter()
            .any(|column| self.block.asked_line(column).is_some())
        {
            lines.extend(self.number_rows("asked line", Tone::Quiet, band, |column| {
                self.block.asked_line(column)
            }));
            lines.push(self.row("", band, |column| self.kind_of(column)));
        }
        lines.push(self.time_row(band));
        for (place, label) in self.labels.iter().enumerate() {
            lines.push(self.row(label, band, |column| self.task_cell(place, column)));
        }
        let idle = |column: &Column| {
            self.chosen(column)
                .map(|chosen| (self.set.always_idle() + self.set.idle_by_spare(chosen)) as usize)
        };
        lines.extend(self.number_rows("idle units", Tone::Plain, band, idle));
        lines.push(self.row("of these, spare", band, |column| self.spare_cell(column)));
        lines
    }

    fn row(
        &self,
        label: &str,
        band: &[Column],
        cell_of: impl Fn(&Column) -> (Tone, char),
    ) -> String {
        let mut line = format!("  {label:0$}", self.label_width - 2);
        for column in band {
            let (tone, mark) = cell_of(column);
            if self.look.colour && mark != ' ' {
                line.push_str(&self.look.toned(tone, &mark.to_string()));
            } else {
                line.push(mark);
            }
            line.extend(std::iter::repeat_n(' ', self.cell - 1));
        }
        line.trim_end().to_string()
    }

    /// Numbers over their columns, read downwards, so that one column is enough for each.
    fn number_rows(
        &self,
        label: &str,
        tone: Tone,
        band: &[Column],
        number: impl Fn(&Column) -> Option<usize>,
    ) -> Vec<String> {
        let largest = band.iter().filter_map(&number).max().unwrap_or(0);
        let digits = largest.to_string().len();
        let row = |at: usize| {
            let label = if at == 0 { label } else { "" };
            self.row(label, band, |column| match number(column) {
                Some(value) => (
                    tone,
                    format!("{value:>digits$}").chars().nth(at).unwrap_or(' '),
                ),
                None => (tone, ' '),
            })
        };
        (0..digits).map(row).collect()
    }

    /// Each label starts over its slot: the band's first, and every fifth or tenth.
    fn time_row(&self, band: &[Column]) -> String {
        let step = if self.cell == 1 { 10 } else { 5 };
        let mut labels = String::new();
        for (at, column) in band.iter().enumerate() {
            let Column::Slot { time, .. } = column else {
                continue;
            };
            let (start, label) = (at * self.cell, time.to_string());
            let wanted = labels.is_empty() || time % step == 0;
            let free = labels.is_empty() || start > labels.len();
            if wanted && free && start + label.len() <= self.room {
                labels.push_str(&" ".repeat(start - labels.len()));
                labels.push_str(&label);
            }
        }
        format!("  {:1$}{labels}", "time", self.label_width - 2)
    }

    fn kind_of(&self, column: &Column) -> (Tone, char) {
        match column {
            Column::Slot { .. } => (Tone::Plain, ' '),
            Column::RunBegins { .. } => (Tone::Quiet, '>'),
            Column::Listed(_) => (Tone::Quiet, '?'),
            Column::Refused(_) => (Tone::Bad, '!'),
        }
    }

    fn task_cell(&self, place: usize, column: &Column) -> (Tone, char) {
        match column {
            Column::Slot { chosen, .. } if chosen >> place & 1 == 1 => {
                (Tone::Task(place), self.look.ran())
            }
            Column::Slot { .. } => (Tone::Quiet, '.'),
            Column::RunBegins { .. } => (Tone::Quiet, self.look.boundary()),
            Column::Listed(at) => {
                let standing = self.block.listings[*at].standings[place];
                (tone_of(standing), words::letter(standing))
            }
            Column::Refused(_) => (Tone::Plain, ' '),
        }
    }

    fn spare_cell(&self, column: &Column) -> (Tone, char) {
        match self
            .chosen(column)
            .map(|chosen| self.set.idle_by_spare(chosen))
        {
            None => (Tone::Plain, ' '),
            Some(0) => (Tone::Quiet, '.'),
            Some(idle) => (Tone::Warn, char::from_digit(idle, 10).unwrap_or('+')),
        }
    }

    fn chosen(&self, column: &Column) -> Option<u64> {
        match column {
            Column::Slot { chosen, .. } => Some(*chosen),
            _ => None,
        }
    }
}
