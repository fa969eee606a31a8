//! The comparison on sheets, the writer, the run and the two programs: every
//! answer, every word and byte of what is lent, every byte that is printed.

use crate::generate::{self, Random};
use crate::generate_inputs;
use crate::generate_sheets;
use crate::harness::{self, Counts, Failure, Judged, Programs, GUARD};
use crate::image;
use crate::mistake;
use crate::numbers::{in_range, need};
use crate::programs;
use crate::run::{self, UNREACHED};
use crate::sheet;
use crate::writer;
use std::fmt::Debug;

/// A slice lent to both sides, with guards around each copy.
struct Lent<T> {
    name: &'static str,
    mine: Vec<T>,
    theirs: Vec<T>,
}

impl<T: Copy + PartialEq + Debug> Lent<T> {
    fn new(name: &'static str, slice: &[T], guard: T) -> Lent<T> {
        let guard = [guard; GUARD];
        let mine = [&guard, slice, &guard].concat();
        Lent {
            name,
            theirs: mine.clone(),
            mine,
        }
    }

    fn mine(&mut self) -> &mut [T] {
        inside(&mut self.mine)
    }

    fn theirs(&mut self) -> &mut [T] {
        inside(&mut self.theirs)
    }

    /// Every place, also those that no call may touch.
    fn same(&self) -> Result<(), Failure> {
        if self.mine == self.theirs {
            return Ok(());
        }
        let differs = |&at: &usize| self.mine[at] != self.theirs[at];
        let at = (0..self.mine.len()).find(differs).unwrap_or(0);
        Err(format!(
            "place {} of the {} is {:?} (independent) and {:?} (proved)",
            at as i64 - GUARD as i64,
            self.name,
            self.mine[at],
            self.theirs[at]
        ))
    }
}

fn inside<T>(guarded: &mut [T]) -> &mut [T] {
    let end = guarded.len() - GUARD;
    &mut guarded[GUARD..end]
}

const GUARD_BYTE: u8 = 0x67;
const GUARD_WORD: u64 = 0x6775_6172_6477_6f72;

type Answered<T> = Result<T, u64>;

fn same_answers<T: PartialEq + Debug>(
    call: &str,
    mine: &Answered<T>,
    theirs: &Answered<T>,
) -> Result<(), Failure> {
    if mine == theirs {
        return Ok(());
    }
    Err(format!("{call}: independent {mine:?}, proved {theirs:?}"))
}

/// What the generator put in is what both must have answered.
fn as_expected<T>(call: &str, both: &Answered<T>, expected: u64) -> Result<(), Failure> {
    let number = both.as_ref().err().copied().unwrap_or(0);
    if number == expected {
        return Ok(());
    }
    Err(format!(
        "{call}: both answer {number}, not {expected} (0 is no refusal)"
    ))
}

pub fn sheet_case(
    random: &mut Random,
    judged: &dyn Judged,
    counts: &mut Counts,
) -> Result<(), Failure> {
    let made = generate_sheets::sheet(random);
    let mut bytes = Lent::new("sheet", &made.bytes, GUARD_BYTE);
    let mine = harness::accept(bytes.mine());
    let theirs = judged.accept(bytes.theirs());
    match mine {
        Ok(_) => counts.sheets_accepted += 1,
        Err(number) => counts.note_refused(number),
    }
    same_answers("accept", &mine, &theirs)?;
    bytes.same()?;
    match made.expected {
        Some(expected) => as_expected("accept", &mine, expected),
        None => Ok(()),
    }
}

pub fn writer_case(
    random: &mut Random,
    judged: &dyn Judged,
    counts: &mut Counts,
) -> Result<(), Failure> {
    let call = generate_sheets::writer_call(random);
    let old: Vec<u8> = (0..call.room).map(|_| random.word() as u8).collect();
    let mut target = Lent::new("target", &old, GUARD_BYTE);
    let mine = writer::write(target.mine(), call.n, call.source, &call.records);
    let mine = mine.map(|length| length as u64);
    let theirs = judged.write(target.theirs(), call.n, call.source, &call.records);
    match mine {
        Ok(_) => counts.sheets_written += 1,
        Err(number) => counts.note_refused(number),
    }
    same_answers("write", &mine, &theirs)?;
    target.same()?;
    as_expected("write", &mine, call.expected)?;
    match mine {
        Ok(length) => holds_the_records(target.mine(), &call, length as usize),
        Err(_) => Ok(()),
    }
}

/// What was written is a good sheet, and its rows are those of the records.
fn holds_the_records(
    target: &[u8],
    call: &generate_sheets::WriterCall,
    length: usize,
) -> Result<(), Failure> {
    let sheet = mistake::without(|| sheet::accept(&target[..length]))
        .map_err(|number| format!("write: the sheet is refused {number}"))?;
    let mut written = Vec::new();
    for vertex in 0..sheet.n {
        for (target, weight) in sheet.row(vertex) {
            written.push((vertex as u64, target as u64, weight));
        }
    }
    let records = call.records.iter();
    let mut wanted: Vec<_> = records
        .flat_map(|record| {
            let (one, other, weight) = (record.one, record.other, record.weight);
            [(one, other, weight), (other, one, weight)]
        })
        .collect();
    wanted.sort_unstable();
    let source = target[16..20] == (call.source as u32).to_le_bytes();
    match (sheet.n as u64 == call.n && written == wanted, source) {
        (true, true) => Ok(()),
        (true, false) => Err("write: the source is not stored as given".to_string()),
        (false, _) => Err("write: the rows are not those of the records".to_string()),
    }
}

pub fn run_case(
    random: &mut Random,
    judged: &dyn Judged,
    counts: &mut Counts,
) -> Result<(), Failure> {
    let made = match random.below(5) {
        0 => generate_sheets::sheet(random),
        _ => generate_sheets::good_sheet(random),
    };
    let accepted = mistake::without(|| sheet::accept(&made.bytes)).ok();
    let n = accepted.map_or(random.between(1, 9), |sheet| sheet.n as u64);
    let length = distance_words(random, n);
    let distances = old_words(random, n, length);
    let length = image_words(random, n);
    let image = old_words(random, n, length);
    let expected = match accepted {
        _ if made.expected.is_some_and(|number| number > 0) => made.expected,
        None => None,
        Some(_) if distances.len() < n as usize => Some(18),
        Some(_) if image.len() < need(n) => Some(2),
        Some(_) => Some(0),
    };

    let mut sheets = Lent::new("sheet", &made.bytes, GUARD_BYTE);
    let mut distances = Lent::new("distances", &distances, GUARD_WORD);
    let mut images = Lent::new("image", &image, GUARD_WORD);
    let before = distances.mine().to_vec();
    let mine = run::distances(sheets.mine(), distances.mine(), images.mine());
    let theirs = judged.distances(sheets.theirs(), distances.theirs(), images.theirs());
    match mine {
        Ok(_) => counts.runs += 1,
        Err(number) => counts.note_refused(number),
    }
    same_answers("distances", &mine, &theirs)?;
    sheets.same()?;
    distances.same()?;
    images.same()?;
    if let Some(expected) = expected {
        as_expected("distances", &mine, expected)?;
    }
    match (mine, accepted) {
        (Ok(reached), Some(sheet)) => {
            let distances = distances.mine();
            least(&sheet, reached, distances)?;
            only_rest(
                &distances[sheet.n..],
                &before[sheet.n..],
                "distances past n",
            )?;
            fresh_left(&sheet, images.mine(), &image)
        }
        (Ok(_), None) => Err("distances: a damaged sheet is taken".to_string()),
        (Err(_), _) => {
            only_rest(distances.mine(), &before, "distances")?;
            only_rest(images.mine(), &image, "image words")
        }
    }
}

/// The distances that other ways find, and their number.
fn least(sheet: &sheet::Sheet, reached: u64, distances: &[u64]) -> Result<(), Failure> {
    let wanted = run::least_distances(sheet);
    let differs = (0..sheet.n).find(|&vertex| distances[vertex] != wanted[vertex]);
    if let Some(vertex) = differs {
        return Err(format!(
            "distances: both give vertex {vertex} {}, the least is {}",
            distances[vertex], wanted[vertex]
        ));
    }
    let count = wanted
        .iter()
        .filter(|&&distance| distance != UNREACHED)
        .count() as u64;
    if reached != count {
        return Err(format!(
            "distances: both say {reached} are reached, not {count}"
        ));
    }
    Ok(())
}

fn only_rest(now: &[u64], before: &[u64], name: &str) -> Result<(), Failure> {
    if now == before {
        return Ok(());
    }
    Err(format!("distances: both write {name}"))
}

/// A fresh image for n, and the later words as they were.
fn fresh_left(sheet: &sheet::Sheet, image: &[u64], before: &[u64]) -> Result<(), Failure> {
    let need = need(sheet.n as u64);
    only_rest(&image[need..], &before[need..], "words behind the image")?;
    let mut fresh = vec![0; need];
    mistake::without(|| image::inner_fresh(&mut fresh, sheet.n as u64));
    if image[..need] == fresh {
        return Ok(());
    }
    Err("distances: both leave an image that is not fresh".to_string())
}

fn distance_words(random: &mut Random, n: u64) -> usize {
    let n = n as usize;
    let any = random.index(n + 1);
    match random.below(10) {
        0 => random.pick(&[n - 1, n - 1, 0, any]),
        1 => n + random.index(9),
        _ => n,
    }
}

/// Lengths around the need for n, and around 14.
fn image_words(random: &mut Random, n: u64) -> usize {
    let least = need(n);
    let any = random.index(least);
    match random.below(10) {
        0 => random.pick(&[least - 1, least - 1, 0, 13, 14.min(least - 1), any]),
        1 => least + random.index(30),
        _ => least,
    }
}

/// Words of any kind: a run does not look at them.
fn old_words(random: &mut Random, n: u64, length: usize) -> Vec<u64> {
    let mut words = match random.below(4) {
        0 => vec![0; length],
        1 if in_range(n) => mistake::without(|| generate::sound_image(random, n)),
        _ => (0..length).map(|_| random.word()).collect(),
    };
    words.resize_with(length, || random.word());
    words
}

// ---------------------------------------------------------------------------
// Programs

pub fn program_case(
    random: &mut Random,
    judged: &dyn Programs,
    counts: &mut Counts,
) -> Result<(), Failure> {
    let (scripts, inputs) = judged.batch();
    let mut script = Vec::new();
    for _ in 0..scripts {
        script.extend(generate_inputs::script(random));
    }
    counts.scripts += scripts as u64;
    counts.lines += script.split_inclusive(|&byte| byte == b'\n').count() as u64;
    let mine = programs::queue(&script);
    let theirs = judged.queue(&script)?;
    if mine != theirs {
        let line = failing_line(&script, judged)?;
        return Err(format!("queue: {}; {line}", differing(&mine, &theirs)));
    }
    for _ in 0..inputs {
        let input = generate_inputs::distances_input(random);
        counts.inputs += 1;
        let mine = programs::distances(&input);
        let theirs = judged.distances(&input)?;
        if mine != theirs {
            let start = input[..input.len().min(120)].escape_ascii();
            let start = format!("input of {} bytes, {start}", input.len());
            return Err(format!("distances: {}; {start}", differing(&mine, &theirs)));
        }
    }
    Ok(())
}

/// The first line of output that differs.
fn differing(mine: &[u8], theirs: &[u8]) -> String {
    let mut mine = mine.split_inclusive(|&byte| byte == b'\n');
    let mut theirs = theirs.split_inclusive(|&byte| byte == b'\n');
    for number in 1.. {
        let (one, other) = (mine.next(), theirs.next());
        if one != other || one.is_none() {
            let shown = |line: Option<&[u8]>| line.map_or("missing".to_string(), shortened);
            let (one, other) = (shown(one), shown(other));
            return format!(
                "line {number} of the output is {one} (independent) and {other} (proved)"
            );
        }
    }
    unreachable!("outputs end")
}

fn shortened(line: &[u8]) -> String {
    let shown = line[..line.len().min(60)].escape_ascii().to_string();
    let more = if line.len() > 60 { "..." } else { "" };
    format!("\"{shown}\"{more}")
}

/// The input line from which on the outputs differ: halved again and again,
/// since the output to a script's start is the start of its output.
fn failing_line(script: &[u8], judged: &dyn Programs) -> Result<String, Failure> {
    let lines: Vec<&[u8]> = script.split_inclusive(|&byte| byte == b'\n').collect();
    let (mut same, mut differs) = (0, lines.len());
    while differs - same > 1 {
        let middle = (same + differs) / 2;
        let start = lines[..middle].concat();
        if programs::queue(&start) == judged.queue(&start)? {
            same = middle;
        } else {
            differs = middle;
        }
    }
    let line = lines
        .get(differs.saturating_sub(1))
        .copied()
        .unwrap_or_default();
    Ok(format!("input line {differs} is {}", shortened(line)))
}
