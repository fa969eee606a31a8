//! `tracer`: a drawing to a sheet, a sheet to distances, distances to a picture. What is made goes to the standard
//! output; whatever cannot be taken is told in one sentence on the standard error, with exit status 1.

use std::ffi::{OsStr, OsString};
use std::fs::File;
use std::io::{self, Read, Write};
use std::path::Path;
use std::process::ExitCode;
use tracer::distances::Distances;
use tracer::drawing::Drawing;
use tracer::traced::Traced;
use tracer::{picture, steps, text};

const USAGE: &str = "usage: tracer sheet DRAWING X Y >SHEET | tracer distances <SHEET >DISTANCES | tracer picture DRAWING <DISTANCES >PNG | tracer text DRAWING <DISTANCES";

/// Longer files are not read: the longest sheet has some 4,500,000 bytes.
const MOST_BYTES: u64 = 8_000_000;

fn main() -> ExitCode {
    let words: Vec<OsString> = std::env::args_os().skip(1).collect();
    match answer(&words).and_then(|bytes| put(&bytes)) {
        Ok(()) => ExitCode::SUCCESS,
        Err(sentence) => {
            // Where even this cannot be written, the exit status still tells.
            let _ = writeln!(io::stderr(), "{sentence}");
            ExitCode::FAILURE
        }
    }
}

fn answer(words: &[OsString]) -> Result<Vec<u8>, String> {
    match words {
        [command, file, x, y] if *command == "sheet" => {
            steps::sheet(&drawing(file)?, number("X", x)?, number("Y", y)?)
        }
        [command] if *command == "distances" => Ok(Distances::run(&input()?)?.print().into_bytes()),
        [command, file] if *command == "picture" => Ok(picture::png(&traced(file)?)),
        [command, file] if *command == "text" => {
            Ok(text::side_by_side(&traced(file)?).into_bytes())
        }
        _ => Err(USAGE.into()),
    }
}

fn drawing(name: &OsStr) -> Result<Drawing, String> {
    let named = |error| {
        format!(
            "The drawing {} cannot be read: {error}.",
            Path::new(name).display()
        )
    };
    let file = File::open(name).map_err(named)?;
    Drawing::read(&all(file).map_err(named)?)
}

/// A drawing, and its distances from the standard input.
fn traced(name: &OsStr) -> Result<Traced, String> {
    Traced::new(drawing(name)?, Distances::read(&input()?)?)
}

fn input() -> Result<Vec<u8>, String> {
    all(io::stdin()).map_err(|error| format!("The standard input cannot be read: {error}."))
}

fn all(from: impl Read) -> io::Result<Vec<u8>> {
    let mut bytes = Vec::new();
    from.take(MOST_BYTES + 1).read_to_end(&mut bytes)?;
    if bytes.len() as u64 > MOST_BYTES {
        return Err(io::Error::other(format!(
            "it has more than {MOST_BYTES} bytes"
        )));
    }
    Ok(bytes)
}

fn number(name: &str, word: &OsStr) -> Result<usize, String> {
    let number = word.to_str().and_then(|word| word.parse().ok());
    number.ok_or_else(|| {
        format!(
            "The mark's {name} is no number: {}.",
            Path::new(word).display()
        )
    })
}

fn put(bytes: &[u8]) -> Result<(), String> {
    let mut out = io::stdout().lock();
    out.write_all(bytes)
        .and_then(|()| out.flush())
        .map_err(|error| format!("The standard output cannot be written: {error}."))
}
