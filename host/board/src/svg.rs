//! The few shapes that the picture is made of, in SVG.

/// What is drawn so far, and how far down it reaches.
#[derive(Default)]
pub struct Drawing {
    body: String,
    pub bottom: usize,
}

const STYLE: &str = "\
text{font-family:'DejaVu Sans',Verdana,Arial,sans-serif;font-size:14px;fill:#1d2733}
.title{font-size:24px;font-weight:bold}
.heading{font-size:18px;font-weight:bold}
.strong{font-weight:bold}
.small{font-size:12px}
.quiet{font-size:12px;fill:#66717f}
.tick{font-size:10px;fill:#8a94a1}
.fifth{font-size:11px;font-weight:bold;fill:#1d2733}
.badge{font-size:13px;font-weight:bold;fill:#ffffff}
.bad{font-weight:bold;fill:#b3261e}
";

impl Drawing {
    /// `anchor` is start, middle or end.
    pub fn text(&mut self, x: usize, y: usize, class: &str, anchor: &str, text: &str) {
        let text = escaped(text);
        self.put(&format!("<text x=\"{x}\" y=\"{y}\" class=\"{class}\" text-anchor=\"{anchor}\">{text}</text>"), y + 6);
    }

    pub fn cell(&mut self, [x, y, width, height]: [usize; 4], fill: &str) {
        let shape = format!("<rect x=\"{x}\" y=\"{y}\" width=\"{width}\" height=\"{height}\" rx=\"3\" fill=\"{fill}\"/>");
        self.put(&shape, y + height);
    }

    /// A letter in a disc.
    pub fn badge(&mut self, x: usize, y: usize, fill: &str, letter: char) {
        self.put(
            &format!("<circle cx=\"{x}\" cy=\"{y}\" r=\"11\" fill=\"{fill}\"/>"),
            y + 11,
        );
        self.text(x, y + 5, "badge", "middle", &letter.to_string());
    }

    /// A line straight down; `dashes` may be empty.
    pub fn down(&mut self, x: usize, [from, to]: [usize; 2], colour: &str, dashes: &str) {
        let shape = format!(
            "<line x1=\"{x}\" y1=\"{from}\" x2=\"{x}\" y2=\"{to}\" stroke=\"{colour}\" stroke-width=\"2\" stroke-dasharray=\"{dashes}\"/>"
        );
        self.put(&shape, to);
    }

    fn put(&mut self, shape: &str, bottom: usize) {
        self.body.push_str(shape);
        self.body.push('\n');
        self.bottom = self.bottom.max(bottom);
    }

    /// The whole file, on white.
    pub fn file(self, width: usize) -> String {
        let height = self.bottom + 24;
        format!(
            "<svg xmlns=\"http://www.w3.org/2000/svg\" width=\"{width}\" height=\"{height}\" viewBox=\"0 0 {width} {height}\">\n\
             <style>\n{STYLE}</style>\n<rect width=\"100%\" height=\"100%\" fill=\"#ffffff\"/>\n{}</svg>\n",
            self.body
        )
    }
}

/// Text that cannot end its element, with nothing in it that XML forbids.
fn escaped(text: &str) -> String {
    let mut safe = String::new();
    for letter in text.chars() {
        match letter {
            '&' => safe.push_str("&amp;"),
            '<' => safe.push_str("&lt;"),
            '>' => safe.push_str("&gt;"),
            '\u{FFFE}' | '\u{FFFF}' => safe.push('?'),
            _ if letter.is_control() => safe.push('?'),
            _ => safe.push(letter),
        }
    }
    safe
}
