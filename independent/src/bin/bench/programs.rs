//! The two programs as processes, each from a file to nowhere. Both sides of
//! `queue` test the whole image at every call: they go by the outward ones.

use crate::timing::{least_times, milliseconds, ratio, repeated, Clock, Side, ROUNDS};
use independent::harness::Programs;
use independent::process::Processes;
use independent::programs::MOST_BYTES;
use independent::workload::{oblong_sheet, tracing, Step};
use std::fs::{self, File};
use std::path::{Path, PathBuf};
use std::process::{Command, Stdio};

/// `new` is one of them.
const LINES: usize = 100_000;

pub fn print(proved: &Processes) {
    println!("Programs: milliseconds of processor time a start, its own and the system's, least of {ROUNDS} rounds");
    println!("a: independent, c: proved; a* and c*: the same with an empty input");
    println!(
        "{:47}{:>10}{:>10}{:>7}{:>9}{:>9}",
        "", "a", "c", "c/a", "a*", "c*"
    );
    let independent = Processes {
        queue: Some(built("queue_independent")),
        distances: Some(built("distances_independent")),
    };
    let script = script();
    agree([&independent, proved], |side| side.queue(&script));
    let name = format!("queue, {LINES} lines on 1,024 ids");
    print_program(&name, &script, &independent.queue, &proved.queue);
    // The largest grid of whole rows, 32 wide, that is not too long.
    let sheet = oblong_sheet([32, 31], 8, 1, 255);
    assert!(sheet.len() <= MOST_BYTES);
    agree([&independent, proved], |side| side.distances(&sheet));
    let name = format!("distances, 32 x 31, 8 neighbours, {} bytes", sheet.len());
    print_program(&name, &sheet, &independent.distances, &proved.distances);
}

/// A program that was built together with this one.
fn built(name: &str) -> PathBuf {
    let path = beside(name);
    assert!(path.exists(), "{name} is not built: build all programs");
    path
}

fn beside(name: &str) -> PathBuf {
    let this = std::env::current_exe().expect("this program has a path");
    this.with_file_name(name)
}

/// A tracer's calls as lines.
fn script() -> Vec<u8> {
    let tracing = tracing(LINES - 1);
    let mut script = format!("new {}\n", tracing.n);
    for step in tracing.steps {
        script += &match step {
            Step::Decrease(id, key) => format!("dec {id} {key}\n"),
            Step::Delete(id) => format!("del {id}\n"),
            Step::Min => "min\n".to_string(),
        };
    }
    script.into_bytes()
}

/// Both sides must print the same.
fn agree<Output: PartialEq>(
    sides: [&Processes; 2],
    output: impl Fn(&Processes) -> Result<Output, String>,
) {
    let [one, other] = sides.map(|side| output(side).unwrap_or_else(|failure| panic!("{failure}")));
    assert!(one == other, "the programs print different things");
}

fn print_program(
    name: &str,
    input: &[u8],
    independent: &Option<PathBuf>,
    proved: &Option<PathBuf>,
) {
    let (full, empty) = (InputFile::new("input", input), InputFile::new("empty", b""));
    let programs = independent.iter().chain(proved);
    let inputs = [&full, &empty];
    let mut sides: Vec<Side> = programs
        .flat_map(|program| inputs.map(|input| starts(program, &input.0)))
        .collect();
    let times = least_times(&mut sides);
    let (a, a_empty) = (times[0], times[1]);
    let (c, c_empty) = (times.get(2).copied(), times.get(3).copied());
    println!(
        "{name:47}{:>10}{:>10}{:>7}{:>9}{:>9}",
        milliseconds(Some(a)),
        milliseconds(c),
        ratio(c, a),
        milliseconds(Some(a_empty)),
        milliseconds(c_empty),
    );
}

/// A file beside this program, for as long as it is needed.
struct InputFile(PathBuf);

impl InputFile {
    fn new(name: &str, bytes: &[u8]) -> InputFile {
        let path = beside(&format!("bench_{name}"));
        fs::write(&path, bytes).expect("the input can be written");
        InputFile(path)
    }
}

impl Drop for InputFile {
    fn drop(&mut self) {
        // Left behind it would do no harm.
        let _ = fs::remove_file(&self.0);
    }
}

fn starts<'a>(program: &'a Path, input: &'a Path) -> Side<'a> {
    repeated(Clock::Children, move || {
        let input = File::open(input).expect("the input is there");
        let status = Command::new(program)
            .stdin(input)
            .stdout(Stdio::null())
            .status();
        let ended = status.expect("the program starts").code();
        assert!(ended.is_some(), "{} was ended", program.display());
    })
}
