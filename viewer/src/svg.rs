//! An image as a picture: a band for each level, its elements in their room, its waiting updates
//! oldest first, and the way that a Delete-Min would go down.

use crate::image::{Image, Level};
use crate::pair::Kind;
use crate::reading::{dead, live_pairs, next_min, Dead, Next};
use crate::session::State;
use crate::text;

/// So many entries of a list are drawn, and so many places of a level's room.
const MOST: usize = 8;

/// Lengths, in pixels. A letter of the entries is as wide as `LETTER`: their font is monospaced;
/// other text is narrower.
const LETTER: usize = 8;
const CHIP: usize = 26;
const GAP: usize = 6;
const PAD: usize = 12;
const LINE: usize = 20;
const MARGIN: usize = 16;
const WAY: usize = 24;
const LABEL: usize = 96;
const WAITS: usize = 460;

const STYLE: &str = "\
text { font: 14px 'DejaVu Sans', Verdana, Arial, sans-serif; fill: #222 }
.entry { font: 13px 'DejaVu Sans Mono', Consolas, monospace }
.strong { font-weight: bold }
.faint { fill: #666 }
.band { fill: #f6f6f6 }
.stop { fill: #fff6d0; stroke: #c9a400 }
.room { fill: none; stroke: #aaa; stroke-dasharray: 3 3 }
.pair { fill: #dff0d8; stroke: #3c763d }
.decrease { fill: #dce9f7; stroke: #2f6cab }
.delete { fill: #f8dedb; stroke: #b03a2e }
.sink { fill: #fde8bd; stroke: #b07d12 }
.dead { fill: #e4e4e4; stroke: #888 }
.struck { stroke: #888 }
.more { fill: none; stroke: none }
.way { fill: none; stroke: #c9a400; stroke-width: 3 }
";

/// The picture of what a slice holds, under its heading.
pub fn svg(heading: &[String], state: &State) -> String {
    let mut picture = Picture {
        body: String::new(),
        y: MARGIN,
    };
    for (at, line) in heading.iter().enumerate() {
        picture.line(line, if at == 0 { "strong" } else { "plain" });
    }
    let width = match state {
        State::Sound(image) => picture.image(image),
        State::Refused { .. } => picture.lines(&text::state(state, MOST)),
    };
    let height = picture.y + MARGIN;
    format!(
        "<svg xmlns=\"http://www.w3.org/2000/svg\" width=\"{width}\" height=\"{height}\" \
         viewBox=\"0 0 {width} {height}\" role=\"img\">\n\
         <title>{}</title>\n<style>\n{STYLE}</style>\n\
         <rect width=\"{width}\" height=\"{height}\" fill=\"#fff\"/>\n{}</svg>\n",
        escaped(&heading.join(", ")),
        picture.body
    )
}

fn escaped(text: &str) -> String {
    text.replace('&', "&amp;")
        .replace('<', "&lt;")
        .replace('>', "&gt;")
}

/// An entry as it is drawn.
struct Chip {
    text: String,
    class: &'static str,
}

impl Chip {
    fn of(text: String, class: &'static str, dead: bool) -> Chip {
        Chip {
            text,
            class: if dead { "dead" } else { class },
        }
    }

    fn width(&self) -> usize {
        self.text.len() * LETTER + PAD
    }
}

fn class(kind: Kind) -> &'static str {
    match kind {
        Kind::Decrease => "decrease",
        Kind::Delete => "delete",
        Kind::Sink => "sink",
    }
}

/// The first entries, and how many are left out.
fn some(mut chips: Vec<Chip>) -> Vec<Chip> {
    if chips.len() > MOST {
        let more = chips.len() - MOST;
        chips.truncate(MOST);
        chips.push(Chip {
            text: format!("{more} more"),
            class: "more",
        });
    }
    chips
}

/// A level's elements, and behind them its free places as far as they are drawn.
fn held(i: usize, level: &Level, dead: &Dead) -> Vec<Chip> {
    let elements = level.elements.iter().zip(&dead.elements);
    let mut chips = some(
        elements
            .map(|(pair, &dead)| Chip::of(pair.to_string(), "pair", dead))
            .collect(),
    );
    let room = 1 << i;
    while chips.len() < room.min(MOST) {
        chips.push(Chip {
            text: "     ".to_string(),
            class: "room",
        });
    }
    if room > MOST {
        chips.push(Chip {
            text: format!("of {room}"),
            class: "more",
        });
    }
    chips
}

fn waits(level: &Level, dead: &Dead) -> Vec<Chip> {
    let updates = level.updates.iter().zip(&dead.updates);
    some(
        updates
            .map(|(update, &dead)| Chip::of(update.to_string(), class(update.kind), dead))
            .collect(),
    )
}

fn bound(level: &Level) -> String {
    format!("bound {}", level.bound)
}

/// The width of chips in one line.
fn span(chips: &[Chip]) -> usize {
    chips.iter().map(|chip| chip.width() + GAP).sum()
}

struct Picture {
    body: String,
    /// Where the next thing is drawn.
    y: usize,
}

impl Picture {
    fn add(&mut self, element: String) {
        self.body += &element;
        self.body.push('\n');
    }

    fn text(&mut self, x: usize, y: usize, class: &str, text: &str) {
        self.add(format!(
            "<text x=\"{x}\" y=\"{y}\" class=\"{class}\" xml:space=\"preserve\">{}</text>",
            escaped(text)
        ));
    }

    fn rect(&mut self, [x, y, width, height]: [usize; 4], class: &str) {
        self.add(format!(
            "<rect x=\"{x}\" y=\"{y}\" width=\"{width}\" height=\"{height}\" rx=\"4\" class=\"{class}\"/>"
        ));
    }

    fn line(&mut self, text: &str, class: &str) {
        self.y += LINE;
        self.text(MARGIN, self.y - GAP, class, text);
    }

    /// Lines of plain text; the width that they take.
    fn lines(&mut self, text: &str) -> usize {
        for line in text.lines() {
            self.line(line, "entry");
        }
        2 * MARGIN + LETTER * text.lines().map(str::len).max().unwrap_or(0)
    }

    fn image(&mut self, image: &Image) -> usize {
        let next = next_min(image);
        let dead = dead(&image.levels);
        let levels = || image.levels.iter().zip(&dead).enumerate();
        let room = levels()
            .map(|(i, (level, dead))| span(&held(i, level, dead)))
            .max()
            .unwrap_or(0);
        let label = image
            .levels
            .iter()
            .map(|level| bound(level).len() * LETTER)
            .max()
            .unwrap_or(0)
            .max(LABEL)
            + LINE;
        let columns = Columns {
            holds: WAY + label,
            waits: WAY + label + room + LINE,
        };
        self.y += LINE;
        self.text(columns.holds, self.y - GAP, "faint", "holds");
        self.text(columns.waits, self.y - GAP, "faint", "waits, oldest first");
        let top = self.y;
        let mut bottom = top;
        for (i, (level, dead)) in levels() {
            let stops = next.pair.is_some() && i + 1 == next.reach;
            self.level(i, level, dead, &columns, stops);
            if i + 1 == next.reach {
                bottom = self.y - GAP;
            }
        }
        self.way(top, bottom, next);
        self.notes(image, next, columns.width());
        columns.width()
    }

    fn level(&mut self, i: usize, level: &Level, dead: &Dead, columns: &Columns, stops: bool) {
        let waits = flow(waits(level, dead), columns.waits, WAITS);
        let height = (lines(&waits) * (CHIP + GAP)).max(2 * LINE) + 2 * GAP;
        let (x, width) = (WAY, columns.width() - WAY - MARGIN);
        let class = if stops { "stop" } else { "band" };
        self.rect([x, self.y, width, height], class);
        self.text(WAY + GAP, self.y + LINE, "strong", &format!("level {i}"));
        self.text(WAY + GAP, self.y + 2 * LINE, "plain", &bound(level));
        self.y += GAP;
        for placed in flow(held(i, level, dead), columns.holds, usize::MAX)
            .iter()
            .chain(&waits)
        {
            self.chip(placed);
        }
        self.y += height;
    }

    fn chip(&mut self, placed: &Placed) {
        let Placed { chip, x, line } = placed;
        let (y, width) = (self.y + line * (CHIP + GAP), chip.width());
        self.rect([*x, y, width, CHIP], chip.class);
        if !chip.text.trim().is_empty() {
            self.text(x + PAD / 2, y + CHIP - 8, "entry", &chip.text);
        }
        if chip.class == "dead" {
            let (end, middle) = (x + width, y + CHIP / 2);
            self.add(format!(
                "<line x1=\"{x}\" y1=\"{middle}\" x2=\"{end}\" y2=\"{middle}\" class=\"struck\"/>"
            ));
        }
    }

    /// The way down, to the level that would answer, or past the last one.
    fn way(&mut self, top: usize, bottom: usize, next: Next) {
        let x = MARGIN - 4;
        let end = match next.pair {
            Some(_) => format!("V {} H {} m -5 -5 l 5 5 l -5 5", bottom - LINE, WAY - 2),
            None => format!("V {}", bottom + GAP),
        };
        self.add(format!("<path d=\"M {x} {top} {end}\" class=\"way\"/>"));
    }

    fn notes(&mut self, image: &Image, next: Next, width: usize) {
        self.y += GAP;
        self.line(
            &format!("word 2: {} of at most {}", image.waiting, image.n),
            "plain",
        );
        self.text(MARGIN, self.y + CHIP - 8, "plain", "live map");
        let live = live_pairs(&image.levels)
            .iter()
            .map(|pair| Chip::of(pair.to_string(), "pair", false))
            .collect();
        let start = MARGIN + LABEL;
        let live = flow(some(live), start, width - start - MARGIN);
        for placed in &live {
            self.chip(placed);
        }
        self.y += lines(&live) * (CHIP + GAP);
        self.line(&text::next(next), "plain");
    }
}

/// Where the columns begin.
struct Columns {
    holds: usize,
    waits: usize,
}

impl Columns {
    fn width(&self) -> usize {
        self.waits + WAITS + MARGIN
    }
}

/// A chip and its place: how far right, and in which line of its flow.
struct Placed {
    chip: Chip,
    x: usize,
    line: usize,
}

/// The chips one after another from `start` on, in lines of at most this width where a chip is not
/// wider.
fn flow(chips: Vec<Chip>, start: usize, width: usize) -> Vec<Placed> {
    let (mut x, mut line) = (0, 0);
    let mut placed = Vec::new();
    for chip in chips {
        if x > 0 && x + chip.width() > width {
            (x, line) = (0, line + 1);
        }
        let at = x;
        x += chip.width() + GAP;
        placed.push(Placed {
            chip,
            x: start + at,
            line,
        });
    }
    placed
}

/// How many lines a flow takes, at least one.
fn lines(flow: &[Placed]) -> usize {
    flow.last().map_or(0, |placed| placed.line) + 1
}
