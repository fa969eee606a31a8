//! Shows an image or a script of the program `queue`, level by level.

use std::ffi::{OsStr, OsString};
use std::fs::{self, File};
use std::io::{self, BufRead, BufReader, BufWriter, Write};
use std::path::{Path, PathBuf};
use std::process::ExitCode;

use viewer::input::{self, Command};
use viewer::session::{Session, State};
use viewer::{layout, sheet, svg, text};

const USAGE: &str = "\
usage: view [--words FILE] [--svg FILE] [--all] [--layout] [SCRIPT]
       view --sheet FILE

SCRIPT         lines of the program queue: new N, dec ID KEY, del ID, min;
               the image is shown after each
--words FILE   an image as decimal numbers between white space;
               the script, if there is one, begins with it
--svg FILE     the last image as a picture; FOLDER/ for a picture after each line
--all          long lists are not cut
--layout       also the last image word by word
--sheet FILE   a sheet as decimal 32-bit numbers, and the distances of the run over it
A FILE that is read, or SCRIPT, may be - for the standard input.
Without words, script and sheet the page's listing is shown.
";

/// The page's listing.
const LISTING: &str = concat!(env!("CARGO_MANIFEST_DIR"), "/examples/listing.txt");

#[derive(Default)]
struct Asked {
    script: Option<OsString>,
    words: Option<OsString>,
    sheet: Option<OsString>,
    picture: Option<PathBuf>,
    all: bool,
    layout: bool,
}

fn main() -> ExitCode {
    let Some(asked) = asked(std::env::args_os().skip(1)) else {
        complain(USAGE);
        return ExitCode::from(2);
    };
    let mut out = BufWriter::new(io::stdout().lock());
    let shown = match &asked.sheet {
        Some(name) => show_sheet(name, &mut out),
        None => show(&asked, &mut out),
    };
    match shown.and_then(|good| out.flush().map(|()| good)) {
        Ok(true) => ExitCode::SUCCESS,
        Ok(false) => ExitCode::FAILURE,
        // Whoever reads may have seen enough.
        Err(error) if error.kind() == io::ErrorKind::BrokenPipe => ExitCode::SUCCESS,
        Err(error) => {
            complain(&format!("view: {error}\n"));
            ExitCode::FAILURE
        }
    }
}

/// Says what is wrong, if anyone can be told.
fn complain(what: &str) {
    let _ = io::stderr().write_all(what.as_bytes());
}

/// What the arguments ask, or nothing where they are of another form.
fn asked(mut arguments: impl Iterator<Item = OsString>) -> Option<Asked> {
    let mut asked = Asked::default();
    while let Some(argument) = arguments.next() {
        match argument.to_str() {
            Some("--words") => asked.words = Some(arguments.next()?),
            Some("--svg") => asked.picture = Some(arguments.next()?.into()),
            Some("--sheet") => asked.sheet = Some(arguments.next()?),
            Some("--all") => asked.all = true,
            Some("--layout") => asked.layout = true,
            Some(option) if option.starts_with("--") => return None,
            _ => {
                if asked.script.replace(argument).is_some() {
                    return None;
                }
            }
        }
    }
    if asked.script.is_some() || asked.words.is_some() {
        return asked.sheet.is_none().then_some(asked);
    }
    asked.script = Some(LISTING.into());
    Some(asked)
}

/// An error about a file, with the file's name.
fn about(name: &OsStr, kind: io::ErrorKind, what: impl std::fmt::Display) -> io::Error {
    io::Error::new(kind, format!("{}: {what}", name.to_string_lossy()))
}

/// A file, or the standard input.
fn opened(name: &OsStr) -> io::Result<Box<dyn BufRead>> {
    if name == "-" {
        return Ok(Box::new(BufReader::new(io::stdin())));
    }
    let file = File::open(name).map_err(|error| about(name, error.kind(), error))?;
    Ok(Box::new(BufReader::new(file)))
}

/// The numbers of a file; a file of anything else is an error.
fn numbers(name: &OsStr, most: usize) -> io::Result<Vec<u64>> {
    let read = input::numbers(&mut opened(name)?, most);
    let numbers = read.map_err(|error| about(name, error.kind(), error))?;
    numbers.map_err(|what| about(name, io::ErrorKind::InvalidData, what))
}

/// Whether the sheet was accepted.
fn show_sheet(name: &OsStr, out: &mut impl Write) -> io::Result<bool> {
    let bytes = sheet::bytes(&numbers(name, sheet::MOST_NUMBERS)?);
    let bytes = bytes.map_err(|what| about(name, io::ErrorKind::InvalidData, what))?;
    out.write_all(sheet::sheet(&bytes).as_bytes())?;
    Ok(level_queue::accept(&bytes).is_ok())
}

/// Whether the image that was given, if one was, is a sound one.
fn show(asked: &Asked, out: &mut impl Write) -> io::Result<bool> {
    let mut shown = Shown {
        asked,
        session: Session::cleared(),
        heading: Vec::new(),
        number: 0,
    };
    let mut sound = true;
    if let Some(name) = &asked.words {
        shown.session = Session::of(numbers(name, input::MOST_WORDS)?);
        shown.heading = vec![format!("{} words", shown.session.words().len())];
        sound = shown.step(out)?;
    }
    if let Some(name) = &asked.script {
        let mut script = opened(name)?;
        let mut next =
            || input::next_line(&mut script).map_err(|error| about(name, error.kind(), error));
        while let Some(line) = next()? {
            shown.line(&line, out)?;
        }
    }
    shown.last(out)?;
    Ok(sound)
}

/// What is shown: the slice, and the last line with its answer.
struct Shown<'a> {
    asked: &'a Asked,
    session: Session,
    heading: Vec<String>,
    number: usize,
}

impl Shown<'_> {
    /// Takes one line of a script and shows the image behind it.
    fn line(&mut self, line: &[u8], out: &mut impl Write) -> io::Result<()> {
        self.number += 1;
        let answer = self.session.take(Command::of(line));
        let line = input::shown(line);
        if self.number > 1 || self.asked.words.is_some() {
            writeln!(out)?;
        }
        write!(out, "{}", text::command(self.number, &line, answer))?;
        self.heading = text::heading(self.number, &line, answer);
        self.step(out)?;
        // Whoever types the lines waits for the answer.
        out.flush()
    }

    /// The image as it is now, as a picture too, where there is a folder for them; whether it is a
    /// sound one.
    fn step(&mut self, out: &mut impl Write) -> io::Result<bool> {
        let state = self.session.state();
        let most = if self.asked.all {
            usize::MAX
        } else {
            text::SOME
        };
        out.write_all(text::state(&state, most).as_bytes())?;
        if let Some(folder) = self.asked.picture.as_deref().filter(|path| is_folder(path)) {
            fs::create_dir_all(folder)
                .map_err(|error| about(folder.as_os_str(), error.kind(), error))?;
            self.draw(&folder.join(format!("line-{}.svg", self.number)), &state)?;
        }
        Ok(matches!(state, State::Sound(_)))
    }

    /// What is shown of the last image alone.
    fn last(&mut self, out: &mut impl Write) -> io::Result<()> {
        let state = self.session.state();
        if let Some(path) = self
            .asked
            .picture
            .as_deref()
            .filter(|path| !is_folder(path))
        {
            self.draw(path, &state)?;
        }
        match state {
            State::Sound(image) if self.asked.layout => {
                write!(out, "\n{}", layout::layout(self.session.words(), &image))
            }
            _ => Ok(()),
        }
    }

    fn draw(&self, path: &Path, state: &State) -> io::Result<()> {
        let drawn = fs::write(path, svg::svg(&self.heading, state));
        drawn.map_err(|error| about(path.as_os_str(), error.kind(), error))
    }
}

fn is_folder(path: &Path) -> bool {
    path.as_os_str().to_string_lossy().ends_with('/') || path.is_dir()
}
