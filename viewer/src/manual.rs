//! The drawings and pictures of the manual, made from the examples, so that the manual cannot drift
//! from what happens.
//!
//! In the manual a line `<!-- drawn: NAME LINE .. -->` stands before each block that is made here:
//! the script `NAME.txt`, begun with the image `NAME.words` where there is one, is shown after each
//! of these lines (line 0 is the image it begins with). `<!-- words: NAME LINE -->` shows the image
//! after a line word by word, `<!-- sheet: NAME -->` the sheet `NAME.sheet` and the run over it.
//! The picture `pictures/NAME-LINE.svg` is the image after a line of `NAME.txt`.

use std::fs;
use std::path::Path;

use crate::input::{numbers, Command, MOST_WORDS};
use crate::layout::layout;
use crate::session::{Answer, Session, State};
use crate::sheet;
use crate::svg::svg;
use crate::text;

const FENCE: &str = "```";

/// The manual with each of its blocks made anew.
pub fn refreshed(manual: &str, examples: &Path) -> Result<String, String> {
    let mut out = String::new();
    let mut lines = manual.lines();
    while let Some(line) = lines.next() {
        out += &format!("{line}\n");
        let Some(block) = block(line, examples)? else {
            continue;
        };
        let fence = lines.next().filter(|next| next.starts_with(FENCE));
        let fence = fence.ok_or(format!("no block behind {line}"))?;
        lines
            .find(|&next| next == FENCE)
            .ok_or(format!("no end of the block behind {line}"))?;
        out += &format!("{fence}\n{block}{FENCE}\n");
    }
    Ok(out)
}

/// The block that a line asks for, if it asks for one.
fn block(line: &str, examples: &Path) -> Result<Option<String>, String> {
    let Some(asked) = line
        .strip_prefix("<!-- ")
        .and_then(|line| line.strip_suffix(" -->"))
    else {
        return Ok(None);
    };
    let words: Vec<&str> = asked.split(' ').collect();
    Ok(match words[..] {
        ["drawn:", name, ref lines @ ..] => Some(drawn(&Example::read(name, examples)?, lines)?),
        ["words:", name, line] => Some(by_words(
            Example::read(name, examples)?.after(number(line)?)?.session,
        )?),
        ["sheet:", name] => Some(sheet::sheet(&sheet::bytes(&read_numbers(
            &examples.join(format!("{name}.sheet")),
        )?)?)),
        _ => None,
    })
}

fn by_words(mut session: Session) -> Result<String, String> {
    match session.state() {
        State::Sound(image) => Ok(layout(session.words(), &image)),
        State::Refused { refused, .. } => Err(refused.to_string()),
    }
}

fn drawn(example: &Example, lines: &[&str]) -> Result<String, String> {
    let mut drawings = Vec::new();
    for line in lines {
        let mut after = example.after(number(line)?)?;
        let command = after
            .last
            .map(|(number, line, answer)| text::command(number, &line, answer));
        drawings
            .push(command.unwrap_or_default() + &text::state(&after.session.state(), text::SOME));
    }
    Ok(drawings.join("\n"))
}

/// The pictures that the manual shows, each with what is to be in it.
pub fn pictures(manual: &str, examples: &Path) -> Result<Vec<(String, String)>, String> {
    let mut pictures = Vec::new();
    for link in manual.split("](pictures/").skip(1) {
        let (name, _) = link
            .split_once(".svg)")
            .ok_or("a link to a picture has no end")?;
        let (example, line) = name
            .rsplit_once('-')
            .ok_or(format!("the picture {name} names no line"))?;
        let mut after = Example::read(example, examples)?.after(number(line)?)?;
        let heading = after.last.map_or(Vec::new(), |(number, line, answer)| {
            text::heading(number, &line, answer)
        });
        pictures.push((format!("{name}.svg"), svg(&heading, &after.session.state())));
    }
    Ok(pictures)
}

fn number(word: &str) -> Result<usize, String> {
    word.parse().map_err(|_| format!("no line number: {word}"))
}

fn read_numbers(path: &Path) -> Result<Vec<u64>, String> {
    let bytes = fs::read(path).map_err(|error| format!("{}: {error}", path.display()))?;
    numbers(&mut bytes.as_slice(), MOST_WORDS).map_err(|error| error.to_string())?
}

/// A script, and the words of the image it begins with, if it has its own.
struct Example {
    words: Option<Vec<u64>>,
    lines: Vec<String>,
}

/// The session after a line: the line's number, the line and its answer, if it is not the image
/// begun with.
struct After {
    session: Session,
    last: Option<(usize, String, Answer)>,
}

impl Example {
    fn read(name: &str, examples: &Path) -> Result<Example, String> {
        let script = examples.join(format!("{name}.txt"));
        let text = fs::read_to_string(&script)
            .map_err(|error| format!("{}: {error}", script.display()))?;
        let words = examples.join(format!("{name}.words"));
        let words = if words.exists() {
            Some(read_numbers(&words)?)
        } else {
            None
        };
        Ok(Example {
            words,
            lines: text.lines().map(String::from).collect(),
        })
    }

    fn after(&self, line: usize) -> Result<After, String> {
        if line > self.lines.len() {
            return Err(format!("the script has no line {line}"));
        }
        let mut session = self.words.clone().map_or(Session::cleared(), Session::of);
        let mut last = None;
        for (at, text) in self.lines[..line].iter().enumerate() {
            last = Some((
                at + 1,
                text.clone(),
                session.take(Command::of(text.as_bytes())),
            ));
        }
        Ok(After { session, last })
    }
}
