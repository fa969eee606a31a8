//! What is read: the words of an image, the numbers of a sheet, the lines of `queue`. Any bytes, of
//! any length; what is held of them is bounded.

use std::io::{self, BufRead};

/// One line of the program `queue`.
#[derive(Clone, Copy, Debug, PartialEq, Eq)]
pub enum Command {
    New(u64),
    Dec { id: u64, key: u64 },
    Del(u64),
    Min,
    Other,
}

impl Command {
    /// "lines `new N`, `dec ID KEY`, `del ID`, `min`, decimals of 1 to 15 digits with single
    /// spaces"
    pub fn of(line: &[u8]) -> Command {
        let words: Vec<&[u8]> = line.split(|&byte| byte == b' ').collect();
        match words[..] {
            [b"min"] => Some(Command::Min),
            [b"new", n] => decimal(n).map(Command::New),
            [b"del", id] => decimal(id).map(Command::Del),
            [b"dec", id, key] => decimal(id)
                .zip(decimal(key))
                .map(|(id, key)| Command::Dec { id, key }),
            _ => None,
        }
        .unwrap_or(Command::Other)
    }
}

fn decimal(word: &[u8]) -> Option<u64> {
    if !(1..=15).contains(&word.len()) || !word.iter().all(u8::is_ascii_digit) {
        return None;
    }
    Some(
        word.iter()
            .fold(0, |value, digit| value * 10 + u64::from(digit - b'0')),
    )
}

/// The bytes held of a line: one more than the longest command, `dec` with twice 15 digits, has. A
/// line that fills them is of another form, whatever follows.
const HELD: usize = 36;

/// The next line without its newline, of a longer one its first bytes; nothing at the end of the
/// input.
pub fn next_line(input: &mut impl BufRead) -> io::Result<Option<Vec<u8>>> {
    let mut line = Vec::new();
    let mut some = false;
    loop {
        let chunk = input.fill_buf()?;
        if chunk.is_empty() {
            return Ok(some.then_some(line));
        }
        some = true;
        let end = chunk.iter().position(|&byte| byte == b'\n');
        let bytes = &chunk[..end.unwrap_or(chunk.len())];
        line.extend(bytes.iter().take(HELD - line.len()));
        let used = bytes.len() + usize::from(end.is_some());
        input.consume(used);
        if end.is_some() {
            return Ok(Some(line));
        }
    }
}

/// A line as it can be shown: other bytes than plain characters by their numbers, and a long one
/// cut.
pub fn shown(line: &[u8]) -> String {
    let cut = if line.len() == HELD { " .." } else { "" };
    format!("{}{cut}", line.escape_ascii())
}

/// The most words of an image: more of a slice are never read.
pub const MOST_WORDS: usize = 393_272;

/// Decimal numbers between white space, the first `most` of them; or which of them is none.
pub fn numbers(input: &mut impl BufRead, most: usize) -> io::Result<Result<Vec<u64>, String>> {
    let mut numbers = Vec::new();
    let mut count = 0;
    while let Some(word) = next_word(input)? {
        match number(&word) {
            None => {
                return Ok(Err(format!(
                    "number {count} is no decimal of 64 bits: {}",
                    shown(&word)
                )))
            }
            Some(number) if count < most => numbers.push(number),
            Some(_) => {}
        }
        count += 1;
    }
    Ok(Ok(numbers))
}

/// A word that was cut is no number, whatever its first bytes are.
fn number(word: &[u8]) -> Option<u64> {
    if word.len() == HELD || !word.iter().all(u8::is_ascii_digit) {
        return None;
    }
    std::str::from_utf8(word).ok()?.parse().ok()
}

/// The next word between white space, of a longer one its first bytes; nothing at the end of the
/// input.
fn next_word(input: &mut impl BufRead) -> io::Result<Option<Vec<u8>>> {
    let mut word = Vec::new();
    loop {
        let chunk = input.fill_buf()?;
        let Some(&byte) = chunk.first() else {
            return Ok((!word.is_empty()).then_some(word));
        };
        input.consume(1);
        if !byte.is_ascii_whitespace() {
            word.extend((word.len() < HELD).then_some(byte));
        } else if !word.is_empty() {
            return Ok(Some(word));
        }
    }
}
