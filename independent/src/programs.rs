//! The two programs, `queue` and `distances`, from input bytes to output bytes.

use crate::image::{self, Answer};
use crate::mistake::{self, Mistake};
use crate::run::{self, UNREACHED};
use crate::sheet::accept;
use std::io::{self, Read, Write};

/// Both programs hold an image for 1,024 ids.
pub const IMAGE_WORDS: usize = 6_182;
pub const DISTANCE_WORDS: usize = 1_024;
/// `distances` reads no longer sheet.
pub const MOST_BYTES: usize = 65_536;

/// Runs a program from standard input to standard output.
pub fn run(program: fn(&[u8]) -> Vec<u8>) -> io::Result<()> {
    let mut input = Vec::new();
    io::stdin().read_to_end(&mut input)?;
    io::stdout().write_all(&program(&input))
}

// ---------------------------------------------------------------------------
// `queue`

pub fn queue(input: &[u8]) -> Vec<u8> {
    let mut image = [0; IMAGE_WORDS];
    let image = &mut image[usize::from(mistake::on(Mistake::QueueImageShort))..];
    let mut output = Vec::new();
    for line in lines(input) {
        let answer = match form(line) {
            Some(form) => call(image, form),
            None if line.is_empty() && mistake::on(Mistake::QueueSkipsEmpty) => Answer::Taken,
            None => Answer::Refused(7),
        };
        print(&mut output, answer);
    }
    output
}

/// Only a newline ends a line; what stands behind the last one is a line too.
fn lines(input: &[u8]) -> impl Iterator<Item = &[u8]> {
    let needs_newline = mistake::on(Mistake::QueueLastNeedsNewline);
    let whole = input.split_inclusive(|&byte| byte == b'\n');
    let pieces = whole.flat_map(|line| line.chunks(line_room()));
    pieces
        .filter(move |line| !needs_newline || line.ends_with(b"\n"))
        .map(|line| line.strip_suffix(b"\n").unwrap_or(line))
        .map(|line| match mistake::on(Mistake::QueueDropsReturn) {
            true => line.strip_suffix(b"\r").unwrap_or(line),
            false => line,
        })
}

/// A line may be of any length.
fn line_room() -> usize {
    if mistake::on(Mistake::QueueCutsLines) {
        return 1_024;
    }
    usize::MAX
}

/// The forms a line can have.
enum Form {
    New(u64),
    Decrease(u64, u64),
    Delete(u64),
    Min,
}

/// Words with a single space between them, then decimals.
fn form(line: &[u8]) -> Option<Form> {
    let mut words = line
        .split(|&byte| byte == b' ')
        .filter(|word| !word.is_empty() || !mistake::on(Mistake::QueueManySpaces));
    let mut name = words.next()?;
    let lower;
    if mistake::on(Mistake::QueueAnyCase) {
        lower = name.to_ascii_lowercase();
        name = &lower;
    }
    match (name, words.next(), words.next(), words.next()) {
        (b"new", Some(n), None, None) => Some(Form::New(decimal(n)?)),
        (b"dec", Some(id), Some(key), None) => Some(Form::Decrease(decimal(id)?, decimal(key)?)),
        (b"del", Some(id), None, None) => Some(Form::Delete(decimal(id)?)),
        (b"min", None, None, None) => Some(Form::Min),
        (b"min", Some(_), _, _) if mistake::on(Mistake::QueueWordsBehind) => Some(Form::Min),
        _ => None,
    }
}

/// 1 to 15 digits, leading zeros among them.
fn decimal(word: &[u8]) -> Option<u64> {
    let signed = mistake::on(Mistake::QueueSignTaken);
    let word = word.strip_prefix(b"+").filter(|_| signed).unwrap_or(word);
    let most = 15 + usize::from(mistake::on(Mistake::Queue16Digits));
    let good = (1..=most).contains(&word.len()) && word.iter().all(u8::is_ascii_digit);
    if !good || mistake::on(Mistake::QueueZerosRefused) && word.len() > 1 && word[0] == b'0' {
        return None;
    }
    let digits = word.iter().map(|digit| u64::from(digit - b'0'));
    Some(digits.fold(0, |number, digit| 10 * number + digit))
}

fn call(image: &mut [u64], form: Form) -> Answer {
    match form {
        Form::New(n) => {
            let answer = image::fresh(image, n);
            if mistake::on(Mistake::QueueNewRefusedClears) && answer != Answer::Taken {
                image.fill(0);
            }
            if mistake::on(Mistake::QueueManyIds1) && n > 1_024 {
                return Answer::Refused(1);
            }
            answer
        }
        Form::Decrease(id, _) if mistake::on(Mistake::QueueIdBeforeImage) && id >= 1_024 => {
            Answer::Refused(4)
        }
        Form::Decrease(id, key) => image::decrease(image, id, key),
        Form::Delete(id) => image::delete(image, id),
        Form::Min => image::delete_min(image),
    }
}

/// Only `min` and refusals print.
fn print(output: &mut Vec<u8>, answer: Answer) {
    let line = match answer {
        Answer::Taken => return,
        Answer::Refused(number) => format!("refused {number}\n"),
        Answer::Min { id, key, reach } if mistake::on(Mistake::QueueKeyFirst) => {
            format!("min {key} {id} {reach}\n")
        }
        Answer::Min { id, key, reach } => format!("min {id} {key} {reach}\n"),
        Answer::Empty { .. } if mistake::on(Mistake::QueueEmptyBare) => "empty\n".to_string(),
        Answer::Empty { reach } => format!("empty {reach}\n"),
    };
    output.extend_from_slice(line.as_bytes());
}

// ---------------------------------------------------------------------------
// `distances`

pub fn distances(input: &[u8]) -> Vec<u8> {
    let mut distances = [0; DISTANCE_WORDS];
    let mut image = [0; IMAGE_WORDS];
    let too_long = match mistake::on(Mistake::DistancesMostRefused) {
        true => input.len() >= MOST_BYTES,
        false => input.len() > MOST_BYTES,
    };
    if too_long && !mistake::on(Mistake::DistancesAnyLength) {
        return b"refused 11\n".to_vec();
    }
    let answer = run::distances(input, &mut distances, &mut image);
    let reached = match answer {
        Err(18) if mistake::on(Mistake::DistancesManyIds2) => return b"refused 2\n".to_vec(),
        Err(number) => return format!("refused {number}\n").into_bytes(),
        Ok(reached) => reached,
    };
    // An accepted sheet: its n is at most 1,024.
    let n = accept(input).map_or(0, |sheet| sheet.n);
    let mut output = format!("reached {reached} of {n}\n");
    for (vertex, &distance) in distances[..n].iter().enumerate() {
        if distance != UNREACHED || mistake::on(Mistake::DistancesUnreachedNumber) {
            output += &format!("{vertex} {distance}\n");
        } else if !mistake::on(Mistake::DistancesUnreachedLeftOut) {
            output += &format!("{vertex} -\n");
        }
    }
    if mistake::on(Mistake::DistancesNoLastNewline) {
        output.pop();
    }
    output.into_bytes()
}
