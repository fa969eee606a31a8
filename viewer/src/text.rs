//! An image as text: a line for each level, then word 2, the live map and the next Delete-Min.

use std::fmt::Display;

use level_queue::Refused;

use crate::image::Image;
use crate::reading::{dead, live_pairs, next_min, Next};
use crate::session::{Answer, State};

/// The widest lists of elements, of waiting updates, of anything else.
const HOLDS: usize = 36;
const WAITS: usize = 60;
const LIST: usize = 96;

/// Where what a line is about ends, and what it says begins.
const LABEL: usize = 10;

/// So many entries of a list are shown where not all are asked for.
pub const SOME: usize = 24;

/// The line of a command, and its answer.
pub fn command(number: usize, line: &str, answer: Answer) -> String {
    labelled(&format!("line {number}"), line) + &labelled("answer", &answer.to_string())
}

/// The same, as the heading of a picture.
pub fn heading(number: usize, line: &str, answer: Answer) -> Vec<String> {
    vec![
        format!("line {number}: {line}"),
        format!("answer: {answer}"),
    ]
}

/// What a slice holds; lists are cut to `most` entries.
pub fn state(state: &State, most: usize) -> String {
    match state {
        State::Sound(image) => sound(image, most),
        State::Refused { refused, faults } => list_faults(*refused, faults, most),
    }
}

/// What a Delete-Min would do, in words.
pub fn next(next: Next) -> String {
    match next.pair {
        Some(pair) => {
            let (id, key, level) = (pair.id(), pair.key(), next.reach - 1);
            format!(
                "a Delete-Min would stop at level {level}: min {id} {key} {}",
                next.reach
            )
        }
        None => format!("a Delete-Min would find nothing: empty {}", next.reach),
    }
}

/// An entry, with a word before it where it is dead.
pub fn entry(entry: &impl Display, dead: bool) -> String {
    format!("{}{entry}", if dead { "dead " } else { "" })
}

/// A list's entries as text; of a longer one the first `most` and how many are left out.
pub fn cut(mut entries: Vec<String>, most: usize) -> Vec<String> {
    if entries.len() > most {
        let more = entries.len() - most;
        entries.truncate(most);
        entries.push(format!("{more} more"));
    }
    entries
}

fn sound(image: &Image, most: usize) -> String {
    let live = live_pairs(&image.levels)
        .iter()
        .map(|pair| entry(pair, false))
        .collect();
    table(&rows(image, most))
        + &labelled(
            "word 2",
            &format!("{} of at most {}", image.waiting, image.n),
        )
        + &list("live", cut(live, most))
        + &labelled("next", &next(next_min(image)))
}

fn list_faults(refused: Refused, faults: &[String], most: usize) -> String {
    let mut text = labelled("image", &refused.to_string());
    for fault in cut(faults.to_vec(), most) {
        text += &labelled("", &fault);
    }
    text
}

/// A row of the table: each cell is a list of lines.
type Row = Vec<Vec<String>>;

fn rows(image: &Image, most: usize) -> Vec<Row> {
    let head = ["", "bound", "holds", "waits, oldest first"].map(|title| vec![title.to_string()]);
    let mut rows = vec![Vec::from(head)];
    for (i, (level, dead)) in image.levels.iter().zip(dead(&image.levels)).enumerate() {
        let holds = level
            .elements
            .iter()
            .zip(dead.elements)
            .map(|(pair, dead)| entry(pair, dead))
            .collect();
        let waits = level
            .updates
            .iter()
            .zip(dead.updates)
            .map(|(update, dead)| entry(update, dead))
            .collect();
        rows.push(vec![
            vec![format!("level {i}")],
            vec![level.bound.to_string()],
            wrapped(&cut(holds, most), HOLDS),
            wrapped(&cut(waits, most), WAITS),
        ]);
    }
    rows
}

/// The rows, each column as wide as its widest line.
fn table(rows: &[Row]) -> String {
    let width = |column: usize| {
        rows.iter()
            .flat_map(|row| &row[column])
            .map(String::len)
            .max()
            .unwrap_or(0)
    };
    let widths = [LABEL - 2, width(1), width(2), width(3)];
    let mut text = String::new();
    for row in rows {
        let height = row.iter().map(Vec::len).max().unwrap_or(0);
        for at in 0..height {
            let mut line = String::new();
            for (cell, width) in row.iter().zip(widths) {
                let piece = cell.get(at).map_or("", String::as_str);
                line += &format!("{piece:width$}  ");
            }
            text += line.trim_end();
            text.push('\n');
        }
    }
    text
}

/// The entries with commas between them, in lines of at most this width where an entry is not
/// wider; `-` for none.
fn wrapped(entries: &[String], width: usize) -> Vec<String> {
    let mut lines: Vec<String> = Vec::new();
    for (at, entry) in entries.iter().enumerate() {
        let piece = if at + 1 < entries.len() {
            format!("{entry},")
        } else {
            entry.clone()
        };
        match lines.last_mut() {
            Some(line) if line.len() + 1 + piece.len() <= width => *line += &format!(" {piece}"),
            _ => lines.push(piece),
        }
    }
    if lines.is_empty() {
        lines.push("-".to_string());
    }
    lines
}

fn list(label: &str, entries: Vec<String>) -> String {
    let mut label = label;
    let mut text = String::new();
    for line in wrapped(&entries, LIST) {
        text += &labelled(label, &line);
        label = "";
    }
    text
}

fn labelled(label: &str, what: &str) -> String {
    let width = LABEL - 2;
    format!("{label:width$}  {what}\n")
}
