//! A sound image word by word: what each of its words means. Stretches of unused words are one
//! line.

use crate::image::{Image, Places, HEAD};

/// One line for each word, or each stretch of unused ones; `image` is what the words hold.
pub fn layout(words: &[u64], image: &Image) -> String {
    let places = Places::of(image.n);
    let mut lines = Lines {
        words,
        text: String::new(),
    };
    lines.header(&places, image);
    lines.elements(&places, image);
    lines.stack(&places, image);
    lines.unused(places.work, places.end, "work area");
    lines.text
}

const HEADER: [&str; HEAD] = [
    "n",
    "L, the number of levels",
    "Decreases and Deletes that wait",
    "the elements begin here",
    "the update stack begins here",
    "the work area begins here",
];

struct Lines<'a> {
    words: &'a [u64],
    text: String,
}

impl Lines<'_> {
    fn header(&mut self, places: &Places, image: &Image) {
        for (at, what) in HEADER.iter().enumerate() {
            self.word(at, what);
        }
        for (i, level) in image.levels.iter().enumerate() {
            let row = places.row(i);
            self.word(row, &format!("level {i}: bound {}", level.bound));
            self.word(row + 1, &format!("level {i}: elements"));
            self.word(row + 2, &format!("level {i}: updates"));
        }
    }

    fn elements(&mut self, places: &Places, image: &Image) {
        for (i, level) in image.levels.iter().enumerate() {
            let area = places.elements_of(i);
            let used = area.start + level.elements.len();
            for (at, pair) in area.clone().zip(&level.elements) {
                self.word(at, &format!("level {i} holds {pair}"));
            }
            self.unused(used, area.end, &format!("room of level {i}"));
        }
    }

    fn stack(&mut self, places: &Places, image: &Image) {
        let mut at = places.stack;
        for (i, level) in image.levels.iter().enumerate().rev() {
            for update in &level.updates {
                self.word(at, &format!("level {i} waits: {update}"));
                at += 1;
            }
        }
        self.unused(at, places.work, "room of the stack");
    }

    fn word(&mut self, at: usize, what: &str) {
        self.line(&format!("word {at}"), self.words[at], what);
    }

    /// The words from `start` up to `end`, all of them zero.
    fn unused(&mut self, start: usize, end: usize, what: &str) {
        match end - start {
            0 => {}
            1 => self.word(start, what),
            _ => self.line(&format!("words {start} to {}", end - 1), 0, what),
        }
    }

    fn line(&mut self, place: &str, word: u64, what: &str) {
        self.text += &format!("{place:16}{word:>20}  {what}\n");
    }
}
