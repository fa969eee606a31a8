//! The manual says what happens: its drawings and pictures are those that the examples give, and
//! each example of a refusal gets exactly its number.

mod built;

use std::collections::BTreeSet;
use std::fs;
use std::path::PathBuf;

use built::printed;
use level_queue::{accept, distances, write, Edge, Refused};
use viewer::manual::{pictures, refreshed};

fn here() -> PathBuf {
    PathBuf::from(env!("CARGO_MANIFEST_DIR"))
}

fn manual() -> String {
    fs::read_to_string(here().join("../docs/MANUAL.md")).unwrap()
}

#[test]
fn the_drawings_are_as_drawn() {
    let refreshed = refreshed(&manual(), &here().join("examples")).unwrap();
    for (is, should) in manual().lines().zip(refreshed.lines()) {
        assert_eq!(is, should, "scripts/view --manual makes the drawings anew");
    }
    assert_eq!(manual(), refreshed);
}

#[test]
fn the_pictures_are_as_drawn() {
    let folder = here().join("../docs/pictures");
    let pictures = pictures(&manual(), &here().join("examples")).unwrap();
    assert!(!pictures.is_empty());
    let files = fs::read_dir(&folder)
        .unwrap()
        .map(|file| file.unwrap().file_name().into_string().unwrap());
    let shown = pictures.iter().map(|(name, _)| name.clone());
    assert_eq!(
        files.collect::<BTreeSet<_>>(),
        shown.collect::<BTreeSet<_>>()
    );
    for (name, picture) in pictures {
        let is = fs::read_to_string(folder.join(&name)).unwrap();
        assert!(
            is == picture,
            "{name} has changed: scripts/view --manual draws it anew"
        );
    }
}

/// A row of the refusal tables: its number, and its examples. An example is a list of code spans.
struct Row {
    number: u64,
    examples: Vec<Vec<String>>,
}

/// The rows of the tables under "Refusal numbers" whose first cell is a number; examples are parted
/// by `or`.
fn rows() -> Vec<Row> {
    let manual = manual();
    let (_, section) = manual.split_once("\n## Refusal numbers\n").unwrap();
    let section = section.split("\n## ").next().unwrap();
    let mut rows = Vec::new();
    for line in section.lines() {
        let cells: Vec<&str> = line.split('|').map(str::trim).collect();
        if let [_, number, _, examples, _] = cells[..] {
            if let Ok(number) = number.parse() {
                let examples = examples.split(" or ").map(spans).collect();
                rows.push(Row { number, examples });
            }
        }
    }
    rows
}

fn spans(text: &str) -> Vec<String> {
    text.split('`')
        .skip(1)
        .step_by(2)
        .map(String::from)
        .collect()
}

#[test]
fn each_number_has_a_row_of_its_own_first() {
    let numbers: Vec<u64> = rows().iter().map(|row| row.number).collect();
    let table: Vec<u64> = [1..=5, 7..=7, 11..=18, 21..=25]
        .into_iter()
        .flatten()
        .collect();
    assert_eq!(numbers[..table.len()], table);
}

#[test]
fn each_example_gets_its_number() {
    for row in rows() {
        for example in row.examples {
            assert!(!example.is_empty(), "{} has no example", row.number);
            assert_eq!(outcome(&example), Some(row.number), "{example:?}");
        }
    }
}

/// The number that an example is refused by. One with a colon changes the calls on the triangle;
/// any other is lines of the program `queue`, which prints the last one's refusal and nothing else.
fn outcome(example: &[String]) -> Option<u64> {
    if let Some((call, changes)) = example[0].split_once(": ") {
        let mut calls = Calls::triangle();
        for change in changes.split(", ") {
            calls.change(call, &change.split(' ').collect::<Vec<_>>());
        }
        return calls.make(call).err().map(|refused| refused.number());
    }
    let printed = printed("queue", example.join("\n").as_bytes());
    printed
        .strip_prefix("refused ")?
        .strip_suffix('\n')?
        .parse()
        .ok()
}

/// The calls on sheets with everything as the page's example (i) has it.
struct Calls {
    sheet: Vec<u8>,
    distance_words: usize,
    image_words: usize,
    n: u64,
    source: u64,
    edges: Vec<Edge>,
    target_bytes: usize,
}

impl Calls {
    fn triangle() -> Calls {
        let numbers = fs::read_to_string(here().join("examples/triangle.sheet")).unwrap();
        let numbers = numbers
            .split_whitespace()
            .map(|number| number.parse::<u32>().unwrap());
        let edge = |one, other, weight| Edge { one, other, weight };
        Calls {
            sheet: numbers.flat_map(u32::to_le_bytes).collect(),
            distance_words: 4,
            image_words: 38,
            n: 4,
            source: 0,
            edges: vec![edge(0, 1, 2), edge(1, 2, 2), edge(0, 2, 5)],
            target_bytes: 88,
        }
    }

    fn change(&mut self, call: &str, words: &[&str]) {
        let number = |at: usize| words[at].parse::<u64>().unwrap();
        match (call, words) {
            ("sheet", ["number", _, "is", _]) => {
                let at = 4 * number(1) as usize;
                self.sheet[at..at + 4].copy_from_slice(&(number(3) as u32).to_le_bytes());
            }
            ("sheet", ["only", _, "bytes"]) => self.sheet.truncate(number(1) as usize),
            ("run", [_, "distance", "words"]) => self.distance_words = number(0) as usize,
            ("run", [_, "image", "words"]) => self.image_words = number(0) as usize,
            ("writer", ["n", "is", _]) => self.n = number(2),
            ("writer", ["source", "is", _]) => self.source = number(2),
            ("writer", ["edge", _, _, "of", _]) => {
                self.edges.push(Edge {
                    one: number(1),
                    other: number(2),
                    weight: number(4),
                });
            }
            ("writer", [_, "target", "bytes"]) => self.target_bytes = number(0) as usize,
            _ => panic!("{call}: {words:?} is no change of a call"),
        }
    }

    fn make(&self, call: &str) -> Result<(), Refused> {
        match call {
            "sheet" => accept(&self.sheet).map(|_| ()),
            "run" => {
                let mut table = vec![0; self.distance_words];
                let mut image = vec![0; self.image_words];
                distances(&self.sheet, &mut table, &mut image).map(|_| ())
            }
            _ => write(
                &mut vec![0; self.target_bytes],
                self.n,
                self.source,
                &self.edges,
            )
            .map(|_| ()),
        }
    }
}

/// Unchanged, every call is taken: what an example changes is what it is refused for.
#[test]
fn the_triangle_is_taken() {
    let calls = Calls::triangle();
    for call in ["sheet", "run", "writer"] {
        assert_eq!(calls.make(call), Ok(()), "{call}");
    }
}
